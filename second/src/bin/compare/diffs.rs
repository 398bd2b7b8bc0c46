//! What the pairs of books among the cases hit.

use crate::coverage::Row;
use second::booktext::{self, Told, TOO_SHORT};
use second::cases::DiffCase;
use std::collections::BTreeMap;

const BOOKS: [&str; 2] = ["old", "new"];
/// How much room an answered case had beyond what it needed.
const ROOMS: [&str; 2] = ["just enough room", "more room"];

#[derive(Default)]
pub struct Diffs {
    /// Refusals 7 and 8, by the book they are told of.
    refusals: [[u64; 2]; 2],
    /// Those of the old book beside those of the new one.
    both: [[u64; 2]; 2],
    too_short: u64,
    one_short: u64,
    rooms: [u64; ROOMS.len()],
    same_book: u64,
    /// Two books of which nothing is told.
    quiet: u64,
    /// By what the lines are about.
    lines: BTreeMap<&'static str, u64>,
    /// Rules with several lines.
    several: [u64; 3],
}

/// What a line can be about.
const LINES: [&str; 22] = [
    "a section gone",
    "a section new",
    "REQUIRED gone",
    "LENGTH gone",
    "NUMBER gone",
    "DATE gone",
    "TIME gone",
    "CODE gone",
    "REQUIRED new",
    "LENGTH new",
    "NUMBER new",
    "DATE new",
    "TIME new",
    "CODE new",
    "a severity",
    "a length",
    "a time",
    "codes gone",
    "codes new",
    "codes gone and new",
    "a higher number",
    "a lower number",
];
const SEVERAL: [&str; 3] = ["severity and bound", "severity and number", "severity, bound and number"];

impl Diffs {
    pub fn count(&mut self, case: &DiffCase, told: Told) {
        match told.number {
            0 => self.count_answered(case, told.detail as usize),
            TOO_SHORT => {
                self.too_short += 1;
                self.one_short += u64::from(told.detail == case.output_length as u64 + 1);
            }
            number => {
                let at = usize::from(number == 8);
                self.refusals[told.detail as usize - 1][at] += 1;
                if let (1, Err(Told { number, .. })) = (told.detail, booktext::shown(&case.new)) {
                    self.both[at][usize::from(number == 8)] += 1;
                }
            }
        }
    }

    fn count_answered(&mut self, case: &DiffCase, length: usize) {
        self.rooms[usize::from(case.output_length > length)] += 1;
        self.same_book += u64::from(case.old == case.new);
        self.quiet += u64::from(case.old != case.new && length == 0);
        let text = booktext::difference(&case.old, &case.new).unwrap_or_default();
        let text = String::from_utf8_lossy(&text);
        let told: Vec<(&str, (&str, &str))> = text.lines().map(|line| (about(line), rule_of(line))).collect();
        for label in LINES {
            *self.lines.entry(label).or_default() += u64::from(told.iter().any(|(about, _)| *about == label));
        }
        let is_bound = |about: &str| ["a length", "a time"].contains(&about) || about.starts_with("codes");
        let is_number = |about: &str| about.ends_with("number");
        // The lines of a rule stand together.
        let hits = [
            told.windows(2).any(|two| two[0] == ("a severity", two[1].1) && is_bound(two[1].0)),
            told.windows(2).any(|two| two[0] == ("a severity", two[1].1) && is_number(two[1].0)),
            told.windows(3).any(|all| {
                let one_rule = all.iter().all(|line| line.1 == all[0].1);
                one_rule && all[0].0 == "a severity" && is_bound(all[1].0) && is_number(all[2].0)
            }),
        ];
        for (count, hit) in self.several.iter_mut().zip(hits) {
            *count += u64::from(hit);
        }
    }

    pub fn rows(&self) -> Vec<Row> {
        let mut rows = Vec::new();
        let mut add = |label: String, count: u64| rows.push((format!("diff: {label}"), count));
        for (room, count) in ROOMS.iter().zip(self.rooms) {
            add(format!("answered with {room}"), count);
        }
        add("with one byte too few".into(), self.one_short);
        add("refusal 55".into(), self.too_short);
        for (book, counts) in BOOKS.iter().zip(self.refusals) {
            for (number, count) in [7, 8].iter().zip(counts) {
                add(format!("refusal {number} of the {book} book"), count);
            }
        }
        for (old, counts) in [7, 8].iter().zip(self.both) {
            for (new, count) in [7, 8].iter().zip(counts) {
                add(format!("refusal {old} of the old book before {new} of the new"), count);
            }
        }
        add("a book and itself".into(), self.same_book);
        add("no difference of two books".into(), self.quiet);
        for label in LINES {
            add(format!("a line about {label}"), self.lines.get(label).copied().unwrap_or_default());
        }
        for (label, count) in SEVERAL.iter().zip(self.several) {
            add(format!("lines about {label} of one rule"), count);
        }
        rows
    }
}

fn about(line: &str) -> &'static str {
    let words: Vec<&str> = line.split(' ').collect();
    let [first, second, ..] = words[..] else {
        return "";
    };
    match (first, second, &words[2..]) {
        ("-", "section", [_]) => "a section gone",
        ("+", "section", [_]) => "a section new",
        (_, "-", [_, _, kind, ..]) => gone_or_new(kind, "gone"),
        (_, "+", [_, _, kind, ..]) => gone_or_new(kind, "new"),
        // Without zeros in front, so that the longer one is the higher.
        (_, "#", [old, _, new, ..]) if (old.len(), old) < (new.len(), new) => "a higher number",
        (_, "#", _) => "a lower number",
        (_, _, [_, _, "CODE", codes @ ..]) if codes[0].starts_with(['-', '+']) => changed_codes(codes),
        (_, _, [_, _, "LENGTH", _, _, "->", ..]) => "a length",
        (_, _, [_, _, "TIME", digits, ..]) if digits.parse::<u8>().is_ok() => "a time",
        _ => "a severity",
    }
}

fn gone_or_new(kind: &str, which: &str) -> &'static str {
    let is = |label: &&&str| **label == format!("{kind} {which}");
    LINES.iter().find(is).copied().unwrap_or_default()
}

fn changed_codes(codes: &[&str]) -> &'static str {
    let (gone, new) = (codes[0].starts_with('-'), codes[codes.len() - 1].starts_with('+'));
    match (gone, new) {
        (true, true) => "codes gone and new",
        (true, false) => "codes gone",
        _ => "codes new",
    }
}

/// Key and old number of a line about a rule.
fn rule_of(line: &str) -> (&str, &str) {
    let mut words = line.split(' ');
    (words.next().unwrap_or_default(), words.nth(1).unwrap_or_default())
}
