//! What the messages among the cases ask of tables, and what the records to be written hit.

use crate::coverage::{Row, USUAL};
use second::cases::{tables, write_pairs, Case, Pair, WriteCase};
use second::cutting::Message;
use second::findings;
use second::line::TABLE_RECORDS;
use second::order::NAMES;
use second::records::{row_13, Record, POINTS};
use std::collections::HashMap;

/// How a table fits what is found, as `fits` has them.
const FITS: [&str; 8] = [
    "no finding, no record lent",
    "no finding, some records lent",
    "just enough records",
    "more records than findings",
    "12 for one record too few",
    "12 where no record is lent",
    "over 8,192 findings",
    "over 65,535 findings",
];

fn fits(lent: usize, needed: usize) -> [bool; FITS.len()] {
    [
        needed == 0 && lent == 0,
        needed == 0 && lent > 0,
        needed > 0 && lent == needed,
        needed > 0 && lent > needed,
        lent > 0 && lent + 1 == needed,
        lent == 0 && needed > 0,
        needed > TABLE_RECORDS && lent == needed,
        needed > u16::MAX.into() && lent == needed,
    ]
}

/// Tables that messages are graded into.
#[derive(Default)]
pub struct Grades {
    /// Refusals 1 to 9.
    refusals: [u64; 9],
    fits: [u64; FITS.len()],
}

impl Grades {
    pub fn count(&mut self, case: &Case) {
        match case.findings() {
            Err((number, _)) => self.refusals[usize::from(number) - 1] += 1,
            Ok(needed) => {
                for lent in tables(needed, case.message.len()) {
                    let fits = fits(lent, needed as usize);
                    self.fits.iter_mut().zip(fits).for_each(|(count, holds)| *count += u64::from(holds));
                }
            }
        }
    }

    pub fn rows(&self) -> Vec<Row> {
        let refusals = (1..).zip(self.refusals).map(|(number, count)| (format!("grade: refusal {number}"), count));
        let fits = FITS.iter().zip(self.fits).map(|(label, count)| (format!("grade: {label}"), count));
        refusals.chain(fits).collect()
    }
}

/// What a record is of.
fn group(record: &Record) -> &'static str {
    match record.code {
        100 if record.name == 0 => "the end",
        100 => "the order",
        101..=103 => "a rule",
        200..=203 => "the header",
        _ => "another code",
    }
}

/// The fields with a bound, from the fourth of row 13's points on.
fn bounded(record: &Record) -> [u32; 6] {
    let Record { ordinal, repetition, rule, name, field, component, .. } = *record;
    [name.into(), ordinal, field.into(), repetition, component.into(), rule.into()]
}

/// Why a record is out of range, if one point alone fails.
fn fault(record: &Record) -> Option<String> {
    let points = row_13(record);
    let lacking: Vec<usize> = (0..points.len()).filter(|k| !points[*k]).collect();
    let [alone] = lacking[..] else {
        return None;
    };
    Some(match alone.checked_sub(3).map(|at| bounded(record)[at]) {
        _ if alone == 0 => "another code".into(),
        None => format!("{}: {}", group(record), POINTS[alone]),
        Some(0) => format!("{}: {} 0", group(record), POINTS[alone]),
        Some(_) => format!("{}: {} too large", group(record), POINTS[alone]),
    })
}

/// Bounded fields by their points, those that may be 0 or too large.
const RULE_FAULTS: &str = "name 0,name too large,number 0,number too large,field 0,field too large,repetition 0,\
                           repetition too large,component too large,rule too large";
const ORDER_FAULTS: &str = "field too large,repetition too large,component too large,rule too large,number too large";

/// Every fault that a record can have alone.
fn faults() -> Vec<String> {
    let rows = [
        ("a rule", [RULE_FAULTS, "severity,rule 0"]),
        ("the header", [RULE_FAULTS, "severity,severity other than E"]),
        ("the order", [ORDER_FAULTS, "severity,severity other than E,name too large,number 0"]),
        ("the end", [ORDER_FAULTS, "severity,severity other than E"]),
    ];
    let of = |(group, lists): (&str, [&str; 2])| {
        let faults = lists.iter().flat_map(|list| list.split(','));
        faults.map(|fault| format!("{group}: {fault}")).collect::<Vec<_>>()
    };
    ["another code".to_string()].into_iter().chain(rows.into_iter().flat_map(of)).collect()
}

/// Which bounds a record in range touches, its name and its code.
fn touched(record: &Record) -> Vec<String> {
    let group = group(record);
    let mut touched = vec![format!("code {}", record.code)];
    if let Some(name) = usize::from(record.name).checked_sub(1) {
        touched.push(format!("{group}: {}", String::from_utf8_lossy(NAMES[name].bytes())));
    }
    for (point, value) in POINTS[4..].iter().zip(&bounded(record)[1..]) {
        touched.push(format!("{group}: {point} {value}"));
    }
    touched
}

/// Every bound, name and code that is to be touched.
fn bounds() -> Vec<String> {
    let mut bounds: Vec<String> = [100, 101, 102, 103, 200, 201, 202, 203].map(|code| format!("code {code}")).to_vec();
    for group in ["a rule", "the header", "the order"] {
        bounds.extend(NAMES.iter().map(|name| format!("{group}: {}", String::from_utf8_lossy(name.bytes()))));
        bounds.extend([1, 32_768].map(|number| format!("{group}: number {number}")));
    }
    for group in ["a rule", "the header"] {
        bounds.extend([1, 99].map(|field| format!("{group}: field {field}")));
        bounds.extend([1, 32_768].map(|repetition| format!("{group}: repetition {repetition}")));
        bounds.extend([0, 20].map(|component| format!("{group}: component {component}")));
    }
    bounds.extend([1, 256].map(|rule| format!("a rule: rule {rule}")));
    bounds
}

/// What an ACK from records can have, as `traits` has them.
const TRAITS: [&str; 24] = [
    "AA without a table",
    "AA with none counted",
    "AA by I alone",
    "AE by a W alone",
    "AE by a rule's E alone",
    "AE by the order alone",
    "AE by the end alone",
    "AE by a W beside I",
    "AR by 200 alone",
    "AR by 201 alone",
    "AR by 202 alone",
    "AR by 203 alone",
    "AR by a header code before others",
    "AR by a header code after others",
    "AR of a message that names VXU",
    "no AR of a message that does not name VXU",
    "other delimiters, AA",
    "other delimiters, AE",
    "other delimiters, AR",
    "fewer counted than there are",
    "a record out of range behind those counted",
    "a header code behind those counted, no AR",
    "the end before others",
    "a record of a segment that is not there",
];

fn traits(case: &WriteCase) -> [bool; TRAITS.len()] {
    let (counted, rest) = case.table.split_at(case.counted().len());
    let header = |record: &Record| record.code >= 200;
    let rejected = counted.iter().any(header);
    let severities: Vec<u8> = counted.iter().map(|record| record.severity).collect();
    let grave = severities.iter().any(|severity| *severity != b'I');
    let warned = severities.contains(&b'W') && !severities.contains(&b'E');
    let alone = |holds: &dyn Fn(&Record) -> bool| counted.len() == 1 && holds(&counted[0]);
    let of = |name: &'static str| move |record: &Record| group(record) == name;
    let coded = |code: u16| alone(&|record| record.code == code);
    let (other, supported) = (case.message[3..8] != *USUAL, names_vxu(&case.message));
    let (first, last) = (counted.first(), counted.last());
    [
        case.table.is_empty(),
        counted.is_empty() && !rest.is_empty(),
        !counted.is_empty() && !grave,
        severities == *b"W",
        alone(&of("a rule")) && severities == *b"E",
        alone(&of("the order")),
        alone(&of("the end")),
        warned && severities.contains(&b'I'),
        coded(200),
        coded(201),
        coded(202),
        coded(203),
        first.is_some_and(header) && last.is_some_and(|record| !header(record)),
        last.is_some_and(header) && first.is_some_and(|record| !header(record)),
        rejected && supported,
        !rejected && !supported,
        other && !rejected && !grave,
        other && !rejected && grave,
        other && rejected,
        !counted.is_empty() && !rest.is_empty(),
        !counted.is_empty() && rest.first().is_some_and(|record| !record.is_in_range()),
        !rejected && rest.iter().any(|record| record.is_in_range() && header(record)),
        first.is_some_and(of("the end")) && counted.len() > 1,
        counted.iter().any(|record| !is_there(&case.message, record)),
    ]
}

fn names_vxu(m: &[u8]) -> bool {
    Message::read(m).is_ok_and(|message| findings::first_value(message, &message.header(), 9, 1) == b"VXU")
}

/// Whether the message has the segment that a record names, if it names one.
fn is_there(m: &[u8], record: &Record) -> bool {
    let (Some(at), Ok(message)) = (usize::from(record.name).checked_sub(1), Message::read(m)) else {
        return true;
    };
    let segments = message.segments().filter(|segment| message.name(*segment) == NAMES[at].bytes());
    segments.count() >= record.ordinal as usize
}

/// Where the one record out of range stands among those that are counted.
const PLACES: [&str; 4] = ["alone", "first", "between others", "last"];
/// What is wrong with the count, where the records are not.
const COUNTS: [&str; 4] = ["one more than there are", "many more than there are", "4,294,967,295", "without a table"];

fn wrong_count(case: &WriteCase) -> [bool; COUNTS.len()] {
    let over = case.count as usize - case.table.len();
    [over == 1, over > 1, case.count == u32::MAX, case.table.is_empty()]
}

/// Why a case is refused by 13, if one record alone or the count alone is wrong.
fn reasons(case: &WriteCase) -> Vec<String> {
    let counted = case.counted();
    let wrong: Vec<usize> = (0..counted.len()).filter(|at| !counted[*at].is_in_range()).collect();
    if case.count as usize > case.table.len() {
        let counts = COUNTS.iter().zip(wrong_count(case)).filter(|(_, holds)| *holds && wrong.is_empty());
        return counts.map(|(label, _)| format!("a count {label}")).collect();
    }
    let [at] = wrong[..] else {
        return Vec::new();
    };
    let place = match at {
        _ if counted.len() == 1 => 0,
        0 => 1,
        at if at + 1 < counted.len() => 2,
        _ => 3,
    };
    fault(&counted[at]).into_iter().chain([format!("a record {}", PLACES[place])]).collect()
}

/// Records that are written.
#[derive(Default)]
pub struct Writes {
    hits: HashMap<String, u64>,
}

impl Writes {
    pub fn count(&mut self, case: &WriteCase, pair: Option<Pair>, (number, _): (u8, u64)) {
        self.hit(format!("refusal {number}"));
        if let Some((earlier, later)) = pair.filter(|pair| pair.0 == number) {
            self.hit(format!("refusal {earlier} before {later}"));
        }
        match number {
            0 => {
                let traits = TRAITS.iter().zip(traits(case)).filter(|(_, holds)| *holds);
                traits.for_each(|(label, _)| self.hit(label.to_string()));
                let touched = case.counted().iter().flat_map(touched);
                touched.for_each(|label| self.hit(format!("written with {label}")));
            }
            11 if case.count as usize > TABLE_RECORDS => self.hit("refusal 11 with over 8,192 records".into()),
            13 => reasons(case).into_iter().for_each(|reason| self.hit(format!("refusal 13 for {reason}"))),
            _ => {}
        }
    }

    fn hit(&mut self, label: String) {
        *self.hits.entry(label).or_default() += 1;
    }

    pub fn rows(&self) -> Vec<Row> {
        let numbers = [0, 1, 2, 3, 4, 5, 6, 13, 10, 11].map(|number| format!("refusal {number}"));
        let reasons = faults().into_iter().chain(COUNTS.map(|label| format!("a count {label}")));
        let reasons = reasons.chain(PLACES.map(|place| format!("a record {place}")));
        let pairs = write_pairs().into_iter().map(|(earlier, later)| format!("refusal {earlier} before {later}"));
        let labels = numbers
            .into_iter()
            .chain(TRAITS.map(str::to_string))
            .chain(bounds().into_iter().map(|label| format!("written with {label}")))
            .chain(reasons.map(|reason| format!("refusal 13 for {reason}")))
            .chain(["refusal 11 with over 8,192 records".to_string()])
            .chain(pairs);
        let row = |label: String| {
            let count = self.hits.get(&label).copied().unwrap_or_default();
            (format!("write: {}", label.replace("refusal 0", "answered")), count)
        };
        labels.map(row).collect()
    }
}

#[cfg(test)]
mod tests {
    use super::*;

    #[test]
    fn why_a_record_is_out_of_range() {
        let rule =
            Record { ordinal: 1, repetition: 1, rule: 1, code: 102, name: 2, field: 3, component: 0, severity: b'W' };
        let header = Record { code: 201, rule: 0, severity: b'E', ..rule };
        let end = Record { code: 100, severity: b'E', ..Record::default() };
        let order = Record { ordinal: 1, name: 2, ..end };
        for (record, expected) in [
            (rule, None),
            (Record { code: 104, ..rule }, Some("another code")),
            (Record { field: 0, ..rule }, Some("a rule: field 0")),
            (Record { field: 100, ..rule }, Some("a rule: field too large")),
            (Record { field: 100, component: 21, ..rule }, None),
            (Record { rule: 0, ..rule }, Some("a rule: rule 0")),
            (Record { rule: 1, ..header }, Some("the header: rule too large")),
            (Record { severity: b'I', ..header }, Some("the header: severity other than E")),
            (Record { severity: b'e', ..header }, Some("the header: severity")),
            (Record { ordinal: 0, ..order }, Some("the order: number 0")),
            (Record { name: 0, ..order }, Some("the end: number too large")),
            (Record { name: 11, ..order }, Some("the order: name too large")),
            (Record { repetition: 1, ..end }, Some("the end: repetition too large")),
            (Record { severity: b'W', ..end }, Some("the end: severity other than E")),
        ] {
            assert_eq!(fault(&record).as_deref(), expected, "{record:?}");
            assert!(expected.is_none_or(|fault| faults().iter().any(|listed| listed == fault)));
        }
    }
}
