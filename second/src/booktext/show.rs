//! The canonical text of a book: it compiles to the same bytes.

use crate::book::{Book, Kind, Rule, Section};
use std::collections::HashSet;

pub fn text(book: &Book) -> Vec<u8> {
    let mut text = Vec::new();
    line(&mut text, &[b"book", b"1"]);
    for section in book.sections() {
        show_section(&mut text, section);
    }
    text
}

/// Its sets, then its head, then what it holds.
fn show_section(text: &mut Vec<u8>, section: &Section) {
    let sets = section.sets();
    let names: Vec<Vec<u8>> = (1..=sets.len()).map(|number| set_name(section, number)).collect();
    for (name, set) in names.iter().zip(&sets) {
        line(text, &[b"set", name]);
        for code in set.codes() {
            line(text, &[b"code", code]);
        }
    }
    line(text, &[b"section", section.key]);
    if !names.is_empty() {
        let words: Vec<&[u8]> = [b"sets".as_slice()].into_iter().chain(names.iter().map(Vec::as_slice)).collect();
        line(text, &words);
    }
    let mut standing = HashSet::new();
    for rule in section.rules() {
        let (place, kind) = (place(&rule), kind(rule.kind));
        let bound = bound(&rule, section);
        let verb: &[u8] = if standing.insert((place.clone(), kind)) { b"rule" } else { b"also" };
        let mut words = vec![verb, place.as_bytes(), kind.as_bytes(), rule.severity.letter()];
        words.extend(bound.iter().map(Vec::as_slice));
        line(text, &words);
    }
}

fn line(text: &mut Vec<u8>, words: &[&[u8]]) {
    text.extend(words.join(&b' '));
    text.push(b'\n');
}

fn set_name(section: &Section, number: usize) -> Vec<u8> {
    [section.key, b"/", number.to_string().as_bytes()].concat()
}

pub fn place(rule: &Rule) -> String {
    let name = String::from_utf8_lossy(rule.name.bytes());
    match rule.component {
        0 => format!("{name}-{}", rule.field),
        component => format!("{name}-{}.{component}", rule.field),
    }
}

pub fn kind(kind: Kind) -> &'static str {
    match kind {
        Kind::Required => "REQUIRED",
        Kind::Length { .. } => "LENGTH",
        Kind::Number => "NUMBER",
        Kind::Date => "DATE",
        Kind::Time { .. } => "TIME",
        Kind::Code { .. } => "CODE",
    }
}

fn bound(rule: &Rule, section: &Section) -> Vec<Vec<u8>> {
    let digits = |number: u8| number.to_string().into_bytes();
    match rule.kind {
        Kind::Required | Kind::Number | Kind::Date => Vec::new(),
        Kind::Length { low, high } => vec![digits(low), digits(high)],
        Kind::Time { digits: low } => vec![digits(low)],
        Kind::Code { set } => vec![set_name(section, set.into())],
    }
}
