//! What the cases hit: refusals and their pairs, findings, combinations of header findings and of severities, what other
//! delimiters bring, the ends of months, two quotes, what the lamp says, tables and records, what batches do, what books
//! as text do and what differences tell.

use crate::batches::Batches;
use crate::books::Books;
use crate::diffs::Diffs;
use crate::lamps::{Decided, Lamps};
use crate::months::{self, Edge, Months};
use crate::quotes::{self, Quotes};
use crate::records::{Grades, Writes};
use second::book::{Book, Kind, Rule};
use second::booktext::Told;
use second::cases::{AnyCase, Case, Pair};
use second::cutting::{self, Message, Refusal};
use second::findings::{self, Finding, Place};
use std::collections::HashSet;
use std::convert::Infallible;
use std::ops::ControlFlow::Continue;

/// Longer ACKs are not graded once more to be counted.
pub const LONGEST: u64 = 100_000;
pub const USUAL: &[u8] = b"|^~\\&";
/// Row 4's points, as `cutting::row_4` has them.
const BEGINNINGS: [&str; 5] = ["fewer bytes", "another name", "a byte not allowed", "two equal", "byte 8"];
/// Codes and kinds, as `kind_index` has them.
pub const KINDS: [(u8, &str); 6] =
    [(101, "REQUIRED"), (102, "LENGTH"), (102, "NUMBER"), (102, "DATE"), (102, "TIME"), (103, "CODE")];

/// The bits of E and W, which make an AE.
const GRAVE: usize = 0b011;

/// What can be hit and how often it was.
pub type Row = (String, u64);

#[derive(Default)]
pub struct Coverage {
    numbers: [u64; 12],
    pairs: [[u64; 12]; 12],
    order: u64,
    end: u64,
    /// By kind, then by severity E, W, I.
    rules: [[u64; 3]; 6],
    headers: [u64; 16],
    /// ACKs without header findings, by the severities that were found.
    severities: [u64; 8],
    /// ACKs with other delimiters: AA, AE, AR.
    verdicts: [u64; 3],
    /// Messages that lack one point of row 4 alone.
    beginnings: [u64; 5],
    later_header: u64,
    caret_in_key: u64,
    months: Months,
    quotes: Quotes,
    lamps: Lamps,
    grades: Grades,
    writes: Writes,
    batches: Batches,
    books: Books,
    diffs: Diffs,
}

impl Coverage {
    /// Counts a case once for everything that it hits.
    pub fn count(&mut self, case: &AnyCase, pair: Option<Pair>, told: Told) {
        let answer = (told.number, told.detail);
        match case {
            AnyCase::Message(case) => self.count_message(case, pair, answer),
            AnyCase::Batch(case) => self.batches.count(case, pair, answer),
            AnyCase::Book(case) => self.books.count(case, pair, told),
            AnyCase::Diff(case) => self.diffs.count(case, told),
            AnyCase::Write(case) => self.writes.count(case, pair, answer),
        }
    }

    fn count_message(&mut self, case: &Case, pair: Option<Pair>, (number, detail): (u8, u64)) {
        self.numbers[usize::from(number)] += 1;
        self.lamps.count(case.lamp(), number);
        self.grades.count(case);
        if let Some((earlier, later)) = pair {
            // A book's late faults are tried after the version.
            if number == earlier || (earlier, later, number) == (7, 8, 8) {
                self.pairs[usize::from(earlier)][usize::from(later)] += 1;
            }
        }
        if matches!(number, 0 | 10) {
            self.months.count(&months::stamp_edge(&case.stamp));
        }
        match number {
            0 | 11 if detail < LONGEST => self.count_findings(case, number == 0),
            4 => {
                let points = cutting::row_4(&case.message);
                let lacking: Vec<usize> = (0..points.len()).filter(|k| !points[*k]).collect();
                if let [alone] = lacking[..] {
                    self.beginnings[alone] += 1;
                }
            }
            5 => self.later_header += u64::from(is_foreign_header(&case.message, detail as usize)),
            9 => self.count_key(&case.message),
            _ => {}
        }
    }

    /// A key that no section has. It can hold a caret where another byte cuts components.
    fn count_key(&mut self, m: &[u8]) {
        if let Ok(message) = Message::read(m) {
            let key = findings::first_value(message, &message.header(), 6, 1);
            self.caret_in_key += u64::from(key.contains(&b'^'));
            self.quotes.count_no_key(key);
        }
    }

    fn count_findings(&mut self, case: &Case, written: bool) {
        let hits = Hits::of(&case.message, &case.book).unwrap_or_default();
        self.order += u64::from(hits.order);
        self.end += u64::from(hits.end);
        self.headers[hits.header] += 1;
        self.lamps.count_decided(&hits.decided);
        if written {
            self.quotes.count(&hits.quotes);
        }
        if written && hits.header == 0 {
            self.severities[hits.severities] += 1;
            self.months.count(&hits.edges);
        }
        if written && case.message[3..8] != *USUAL {
            self.verdicts[hits.verdict()] += 1;
        }
        for (kind, severity) in (0..6).flat_map(|kind| (0..3).map(move |severity| (kind, severity))) {
            self.rules[kind][severity] += u64::from(hits.rules[kind][severity]);
        }
    }

    /// Prints a line for each; says whether nothing was left out.
    pub fn print(&self) -> bool {
        let mut rows = self.answer_rows();
        rows.extend(self.combination_rows());
        rows.extend(self.delimiter_rows());
        rows.extend(self.months.rows());
        rows.extend(self.quotes.rows());
        rows.extend(self.lamps.rows());
        rows.extend(self.grades.rows());
        rows.extend(self.writes.rows());
        rows.extend(self.batches.rows());
        rows.extend(self.books.rows());
        rows.extend(self.diffs.rows());
        for (label, count) in &rows {
            println!("{label}: {count}");
        }
        let mut pairs_left_out = 0;
        for earlier in 1..11 {
            let counts = &self.pairs[earlier][earlier + 1..];
            pairs_left_out += counts.iter().filter(|count| **count == 0).count();
            let counts: Vec<String> = counts.iter().map(u64::to_string).collect();
            println!("refusal {earlier} before {} to 11: {}", earlier + 1, counts.join(" "));
        }
        let left_out: Vec<&str> = rows.iter().filter(|row| row.1 == 0).map(|row| row.0.as_str()).collect();
        if !left_out.is_empty() || pairs_left_out > 0 {
            println!("never hit: {} and {pairs_left_out} pairs", left_out.join(", "));
        }
        left_out.is_empty() && pairs_left_out == 0
    }

    fn answer_rows(&self) -> Vec<Row> {
        let mut rows = Vec::new();
        for (number, count) in self.numbers.iter().enumerate() {
            rows.push((if number == 0 { "answered".into() } else { format!("refusal {number}") }, *count));
        }
        rows.push(("finding 100 E order".into(), self.order));
        rows.push(("finding 100 E end".into(), self.end));
        for ((code, kind), counts) in KINDS.iter().zip(self.rules) {
            rows.extend(
                "EWI".chars().zip(counts).map(|(letter, count)| (format!("finding {code} {letter} {kind}"), count)),
            );
        }
        for code in 0..4 {
            let count = (1..16).filter(|mask| mask & (1 << code) != 0).map(|mask| self.headers[mask]).sum();
            rows.push((format!("finding {} E header", 200 + code), count));
        }
        rows
    }

    fn combination_rows(&self) -> Vec<Row> {
        let mut rows = Vec::new();
        for (mask, count) in self.headers.iter().enumerate() {
            rows.push((format!("header findings {}", chosen(mask, &["200", "201", "202", "203"])), *count));
        }
        for (mask, count) in self.severities.iter().enumerate() {
            let verdict = if mask & GRAVE == 0 { "AA" } else { "AE" };
            rows.push((format!("{verdict} with findings {}", chosen(mask, &["E", "W", "I"])), *count));
        }
        rows
    }

    fn delimiter_rows(&self) -> Vec<Row> {
        let verdicts = ["AA", "AE", "AR"].iter().zip(self.verdicts);
        let mut rows: Vec<Row> =
            verdicts.map(|(verdict, count)| (format!("other delimiters, {verdict}"), count)).collect();
        let beginnings = BEGINNINGS.iter().zip(self.beginnings);
        rows.extend(beginnings.map(|(point, count)| (format!("refusal 4 for {point} alone"), count)));
        rows.push(("refusal 5 for a later MSH with another bar".into(), self.later_header));
        rows.push(("refusal 9 for a caret in MSH-6.1".into(), self.caret_in_key));
        rows
    }
}

/// Whether a segment is a sound MSH in itself, but with another bar than the message's.
fn is_foreign_header(m: &[u8], start: usize) -> bool {
    cutting::row_4(&m[start..]) == [true; 5] && m[start + 3] != m[3]
}

pub fn kind_index(kind: Kind) -> usize {
    match kind {
        Kind::Required => 0,
        Kind::Length { .. } => 1,
        Kind::Number => 2,
        Kind::Date => 3,
        Kind::Time { .. } => 4,
        Kind::Code { .. } => 5,
    }
}

/// The names whose bits are set.
fn chosen(mask: usize, names: &[&str]) -> String {
    let chosen: Vec<&str> = (0..).zip(names).filter(|(bit, _)| mask & (1 << bit) != 0).map(|(_, name)| *name).collect();
    if chosen.is_empty() {
        "none".into()
    } else {
        chosen.join(" ")
    }
}

#[derive(Default)]
pub struct Hits {
    order: bool,
    end: bool,
    rules: [[bool; 3]; 6],
    /// One bit for each of 200 to 203.
    header: usize,
    /// One bit for each of E, W, I.
    severities: usize,
    edges: HashSet<Edge>,
    pub decided: Decided,
    pub quotes: HashSet<quotes::Hit>,
}

impl Hits {
    /// The findings of a message that meets none of refusals 1 to 10.
    pub fn of(message: &[u8], book: &[u8]) -> Result<Hits, Refusal> {
        let message = Message::read(message)?;
        let header = message.header();
        let book = Book::read(book)?;
        let section = book.section(findings::first_value(message, &header, 6, 1))?;
        let rules: Vec<Rule> = section.rules().collect();
        let mut hits = Hits { edges: months::edges(message, &rules), ..Hits::default() };
        let mut found = Vec::new();
        let Continue(rejected) = findings::grade(message, &header, &section, |finding| {
            found.push(finding);
            Continue::<Infallible>(())
        });
        found.iter().for_each(|finding| hits.add(&rules, finding));
        hits.decided = Decided::of(message, &rules, &found);
        hits.quotes = quotes::hits(message, &header, &section, rejected);
        Ok(hits)
    }

    /// The index of AA, AE or AR.
    fn verdict(&self) -> usize {
        match (self.header, self.severities & GRAVE) {
            (0, 0) => 0,
            (0, _) => 1,
            _ => 2,
        }
    }

    fn add(&mut self, rules: &[Rule], finding: &Finding) {
        self.severities |= 1 << finding.severity as usize;
        match (finding.code, finding.place) {
            (100, Place::End) => self.end = true,
            (100, _) => self.order = true,
            (code @ 200.., _) => self.header |= 1 << (code - 200),
            _ => {
                let kind = kind_index(rules[usize::from(finding.rule) - 1].kind);
                self.rules[kind][finding.severity as usize] = true;
            }
        }
    }
}

#[cfg(test)]
mod tests {
    use super::*;
    use second::cases::AllCases;

    #[test]
    #[cfg_attr(debug_assertions, ignore = "takes long where nothing is optimised")]
    fn the_first_cases_hit_everything() {
        let cases = AllCases::new(1);
        let mut coverage = Coverage::default();
        for (case, pair) in (0..cases.firsts()).map(|index| cases.case(index)) {
            let told = case.answer(&mut vec![0; case.output_length()]);
            coverage.count(&case, pair, told);
        }
        assert!(coverage.print());
    }
}
