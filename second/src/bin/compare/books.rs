//! What the books and texts among the cases hit.

use crate::coverage::Row;
use crate::traits::{self, Trait};
use second::booktext::{self, Told};
use second::cases::{number_of, BookCall, BookCase, BookGenerator, Pair, BOOK_ROWS, NO_SECTION};
use std::collections::{BTreeMap, HashMap};

/// How much room an answered case had beyond what it needed.
const ROOMS: [&str; 2] = ["just enough room", "more room"];
/// Things that sources do, each with a line that begins so.
const VERBS: [&str; 14] = [
    "book", "set", "code", "common", "section", "use", "rule", "also", "severity", "bound", "drop", "more", "less",
    "sets",
];
/// What a text can have besides.
const TRAITS: [&str; 10] = [
    "CR LF",
    "a tab",
    "a remark",
    "no line end at the end",
    "a severity for a common",
    "1,048,576 bytes",
    "a rule again after its drop",
    "a further rule after a change",
    "a code that less took and more adds",
    "a code that more added and less takes",
];
/// Rows of statements with the verbs for which they can hold.
const VERBS_OF_ROWS: [(u8, &[&str]); 12] = [
    (34, &VERBS),
    (35, &VERBS),
    (38, &["set", "code", "more", "less"]),
    (39, &["rule", "also", "severity", "bound", "drop"]),
    (40, &["rule", "also", "severity", "bound", "drop"]),
    (41, &["use", "rule", "also", "severity"]),
    (42, &["rule", "also", "bound"]),
    (43, &["set", "common", "section"]),
    (45, &["use", "rule", "also", "bound", "more", "less", "sets"]),
    (48, &["also", "severity", "bound", "drop"]),
    (49, &["more", "less"]),
    (52, &["more", "less"]),
];

pub struct Books {
    /// By call and number.
    numbers: HashMap<(&'static str, u8), u64>,
    /// A source without sections, by call.
    without_sections: HashMap<&'static str, u64>,
    pairs: Vec<(Pair, u64)>,
    rooms: [[u64; ROOMS.len()]; 3],
    one_short: [u64; 3],
    verbs: [u64; VERBS.len()],
    traits: [u64; TRAITS.len()],
    /// Refusals told with the line of a common's statement or of a set, not of the section.
    elsewhere: u64,
    /// Refusals of a later section than the first.
    later_section: u64,
    /// By row and verb.
    verbs_of_rows: HashMap<(u8, &'static str), u64>,
    /// Shown texts that compile to the same book.
    shown_again: u64,
    /// What shown books and what legends have.
    shown: BTreeMap<&'static str, u64>,
    meant: BTreeMap<&'static str, u64>,
}

const CALLS: [&str; 3] = ["compile", "show", "legend"];

fn index(call: BookCall) -> usize {
    match call {
        BookCall::Compile => 0,
        BookCall::Show => 1,
        BookCall::Legend => 2,
    }
}

impl Default for Books {
    fn default() -> Self {
        Books {
            numbers: HashMap::new(),
            without_sections: HashMap::new(),
            pairs: BookGenerator::new(0).pairs().iter().map(|pair| (*pair, 0)).collect(),
            rooms: Default::default(),
            one_short: Default::default(),
            verbs: Default::default(),
            traits: Default::default(),
            elsewhere: 0,
            later_section: 0,
            verbs_of_rows: HashMap::new(),
            shown_again: 0,
            shown: BTreeMap::new(),
            meant: BTreeMap::new(),
        }
    }
}

impl Books {
    pub fn count(&mut self, case: &BookCase, pair: Option<Pair>, told: Told) {
        let call = index(case.call);
        if told.number == 44 && told.detail == 0 {
            *self.without_sections.entry(CALLS[call]).or_default() += 1;
        } else {
            *self.numbers.entry((CALLS[call], told.number)).or_default() += 1;
        }
        if let Some(aimed) = pair {
            let hit = |(pair, _): &&mut (Pair, u64)| *pair == aimed && told.number == number_of(aimed.0);
            self.pairs.iter_mut().filter(hit).for_each(|(_, count)| *count += 1);
        }
        match told.number {
            0 => self.count_made(case, told.detail as usize),
            booktext::TOO_SHORT => self.one_short[call] += u64::from(told.detail == case.output_length as u64 + 1),
            _ => self.count_refused(case, told),
        }
    }

    fn count_made(&mut self, case: &BookCase, length: usize) {
        let call = index(case.call);
        self.rooms[call][usize::from(case.output_length > length)] += 1;
        let text = &case.given;
        if case.call == BookCall::Show {
            let again = booktext::shown(text).and_then(|shown| booktext::compiled(&shown));
            self.shown_again += u64::from(again.is_ok_and(|again| again.book == *text));
            add(&mut self.shown, traits::of_book(text));
            return;
        }
        if case.call == BookCall::Legend {
            add(&mut self.meant, traits::of_legend(text));
        }
        let said: Vec<Words> = says(text).collect();
        for (verb, count) in VERBS.iter().zip(&mut self.verbs) {
            *count += u64::from(said.iter().any(|words| words.first() == Some(&verb.as_bytes())));
        }
        let traits = [
            text.windows(2).any(|two| two == b"\r\n"),
            text.contains(&b'\t'),
            text.contains(&b'|'),
            text.last() != Some(&b'\n'),
            said.iter().any(|words| words.len() == 3 && words[0] == b"use"),
            text.len() == booktext::TEXT_LIMIT,
            follows(&said, b"drop", b"rule", |drop, rule| drop[1..3] == rule[1..3]),
            follows(&said, b"severity", b"also", |change, rule| change[1..3] == rule[1..3]),
            follows(&said, b"less", b"more", share_a_code),
            follows(&said, b"more", b"less", share_a_code),
        ];
        for (has, count) in traits.into_iter().zip(&mut self.traits) {
            *count += u64::from(has);
        }
    }

    fn count_refused(&mut self, case: &BookCase, told: Told) {
        let before = told.section.saturating_sub(1) as usize;
        let lines = case.given.split(|b| *b == b'\n').take(before);
        self.later_section += u64::from(lines.into_iter().any(|line| line.starts_with(b"section ")));
        self.elsewhere += u64::from(told.detail != 0 && told.detail < told.section);
        let line = (told.detail as usize).checked_sub(1).and_then(|at| says(&case.given).nth(at));
        let verb = line.and_then(|words| VERBS.iter().find(|verb| words.first() == Some(&verb.as_bytes())));
        if let Some(verb) = verb {
            *self.verbs_of_rows.entry((told.number, verb)).or_default() += 1;
        }
    }

    pub fn rows(&self) -> Vec<Row> {
        let mut rows = Vec::new();
        let mut add = |label: String, count: u64| rows.push((format!("book: {label}"), count));
        for call in CALLS {
            let numbers: Vec<u8> = match call {
                "show" => vec![0, 7, 8, 55],
                _ => [0].into_iter().chain(BOOK_ROWS).filter(|row| *row != NO_SECTION).collect(),
            };
            for number in numbers {
                let count = self.numbers.get(&(call, number)).copied().unwrap_or_default();
                add(if number == 0 { format!("{call} answered") } else { format!("{call} refusal {number}") }, count);
            }
        }
        for call in ["compile", "legend"] {
            let count = self.without_sections.get(call).copied().unwrap_or_default();
            add(format!("{call} refusal 44 without sections"), count);
        }
        for (call, (rooms, one_short)) in CALLS.iter().zip(self.rooms.iter().zip(self.one_short)) {
            for (room, count) in ROOMS.iter().zip(rooms) {
                add(format!("{call} with {room}"), *count);
            }
            add(format!("{call} with one byte too few"), one_short);
        }
        for (verb, count) in VERBS.iter().zip(self.verbs) {
            add(format!("answered with {verb}"), count);
        }
        for (label, count) in TRAITS.iter().zip(self.traits) {
            add(format!("answered with {label}"), count);
        }
        for (row, verbs) in VERBS_OF_ROWS {
            for verb in verbs {
                let count = self.verbs_of_rows.get(&(row, *verb)).copied().unwrap_or_default();
                add(format!("refusal {row} for {verb}"), count);
            }
        }
        add("refused with a line before its section".into(), self.elsewhere);
        add("refused in a later section".into(), self.later_section);
        add("shown and compiled to the same bytes".into(), self.shown_again);
        for (call, counts) in [("shown", &self.shown), ("legend", &self.meant)] {
            counts.iter().for_each(|(label, count)| add(format!("{call} with {label}"), *count));
        }
        for ((earlier, later), count) in &self.pairs {
            add(format!("refusal {} before {}", label(*earlier), label(*later)), *count);
        }
        rows
    }
}

fn add(counts: &mut BTreeMap<&'static str, u64>, traits: Vec<Trait>) {
    for (label, has) in traits {
        *counts.entry(label).or_default() += u64::from(has);
    }
}

/// What a line says.
type Words<'t> = Vec<&'t [u8]>;

/// The words of each line, none where it says nothing.
fn says(text: &[u8]) -> impl Iterator<Item = Words<'_>> {
    let lines = text.split(|b| *b == b'\n').map(|line| line.split(|b| *b == b'|').next().unwrap_or_default());
    lines.map(|said| said.split(u8::is_ascii_whitespace).filter(|word| !word.is_empty()).collect())
}

/// Whether a line with the one verb is followed by one with the other that goes with it, as far as the text's order says.
fn follows(said: &[Words], one: &[u8], other: &[u8], fits: fn(&Words, &Words) -> bool) -> bool {
    let with = |verb: &[u8], words: &Words| words.first() == Some(&verb);
    let mut firsts = said.iter().enumerate().filter(|(_, words)| with(one, words));
    firsts.any(|(at, first)| said[at..].iter().any(|words| with(other, words) && fits(first, words)))
}

fn share_a_code(one: &Words, other: &Words) -> bool {
    one[1] == other[1] && one[2..].iter().any(|code| other[2..].contains(code))
}

fn label(row: u8) -> String {
    if row == NO_SECTION {
        "44 without sections".into()
    } else {
        row.to_string()
    }
}
