//! Two books, rule by rule: sections are matched by key, rules by place, kind and how many of these come before.

use super::show;
use crate::book::{Book, Kind, Rule, Section, Set};
use std::borrow::Cow;
use std::collections::{HashMap, HashSet};

/// A line for each thing by which a message could be judged otherwise or a rule have another number. A code of two quotes
/// is told like others, although since A3 of 02 no value is compared with it.
pub fn text(old: &Book, new: &Book) -> String {
    let mut text = String::new();
    for section in old.sections() {
        match new.section(section.key) {
            Ok(counterpart) => compare(&mut text, &Page::of(section), &Page::of(&counterpart)),
            Err(_) => text += &format!("- section {}\n", ascii(section.key)),
        }
    }
    for section in new.sections().iter().filter(|section| old.section(section.key).is_err()) {
        text += &format!("+ section {}\n", ascii(section.key));
    }
    text
}

/// A well-formed book has no other bytes in its words.
fn ascii(word: &[u8]) -> Cow<'_, str> {
    String::from_utf8_lossy(word)
}

struct Page<'b> {
    key: Cow<'b, str>,
    entries: Vec<Entry>,
    sets: Vec<Codes<'b>>,
}

struct Entry {
    /// From 1.
    number: usize,
    rule: Rule,
    /// Place and kind as they are printed.
    spot: String,
    /// How many of this place and kind come before it.
    before: usize,
}

struct Codes<'b> {
    /// In the set's order.
    all: Vec<&'b [u8]>,
    distinct: HashSet<&'b [u8]>,
}

impl<'b> Page<'b> {
    fn of(section: &Section<'b>) -> Self {
        let mut counts = HashMap::new();
        let entries = (1..).zip(section.rules()).map(|(number, rule)| {
            let spot = format!("{} {}", show::place(&rule), show::kind(rule.kind));
            let count = counts.entry(spot.clone()).or_insert(0);
            *count += 1;
            Entry { number, rule, spot, before: *count - 1 }
        });
        Page {
            key: ascii(section.key),
            entries: entries.collect(),
            sets: section.sets().iter().map(Codes::of).collect(),
        }
    }

    fn counterpart(&self, entry: &Entry) -> Option<&Entry> {
        self.entries.iter().find(|other| other.before == entry.before && other.spot == entry.spot)
    }

    fn codes(&self, set: u8) -> &Codes<'b> {
        &self.sets[usize::from(set) - 1]
    }

    /// A rule that only this book has.
    fn alone(&self, sign: char, Entry { number, rule, spot, .. }: &Entry) -> String {
        let bound = match rule.kind {
            Kind::Code { set } => signed(sign, self.codes(set).all.iter()),
            kind => numbers(kind),
        };
        format!("{} {sign} {number} {spot} {}{bound}\n", self.key, letter(rule))
    }
}

impl<'b> Codes<'b> {
    fn of(set: &Set<'b>) -> Self {
        Codes { all: set.codes().collect(), distinct: set.codes().collect() }
    }

    fn not_in<'s>(&'s self, other: &'s Codes) -> impl Iterator<Item = &'s &'b [u8]> {
        self.all.iter().filter(|code| !other.distinct.contains(*code))
    }
}

/// Two sections of one key.
fn compare(text: &mut String, old: &Page, new: &Page) {
    for entry in &old.entries {
        match new.counterpart(entry) {
            Some(counterpart) => changes(text, (old, entry), (new, counterpart)),
            None => *text += &old.alone('-', entry),
        }
    }
    for entry in new.entries.iter().filter(|entry| old.counterpart(entry).is_none()) {
        *text += &new.alone('+', entry);
    }
}

/// The severity, the bound and the number of two rules that are counterparts.
fn changes(text: &mut String, (old_page, old): (&Page, &Entry), (new_page, new): (&Page, &Entry)) {
    let (key, spot) = (&old_page.key, &old.spot);
    let lead = format!("{key} ~ {} {spot}", old.number);
    let (before, after) = (letter(&old.rule), letter(&new.rule));
    if before != after {
        *text += &format!("{lead} {before} -> {after}\n");
    }
    if let (Kind::Code { set: before }, Kind::Code { set: after }) = (old.rule.kind, new.rule.kind) {
        let (before, after) = (old_page.codes(before), new_page.codes(after));
        let changed = signed('-', before.not_in(after)) + &signed('+', after.not_in(before));
        if !changed.is_empty() {
            *text += &format!("{lead}{changed}\n");
        }
    } else if old.rule.kind != new.rule.kind {
        *text += &format!("{lead}{} ->{}\n", numbers(old.rule.kind), numbers(new.rule.kind));
    }
    if old.number != new.number {
        *text += &format!("{key} # {} -> {} {spot}\n", old.number, new.number);
    }
}

/// Each code with a blank and the sign before it.
fn signed<'s, 'b: 's>(sign: char, codes: impl Iterator<Item = &'s &'b [u8]>) -> String {
    codes.map(|code| format!(" {sign}{}", ascii(code))).collect()
}

/// The bound of a kind other than CODE, each number with a blank before it.
fn numbers(kind: Kind) -> String {
    match kind {
        Kind::Length { low, high } => format!(" {low} {high}"),
        Kind::Time { digits } => format!(" {digits}"),
        _ => String::new(),
    }
}

fn letter(rule: &Rule) -> Cow<'static, str> {
    ascii(rule.severity.letter())
}
