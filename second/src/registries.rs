//! A source for the registries' rules in `data`: commons by guide and segment, and the sections that use them.

use crate::books::{self, REGISTRIES, WEBIZ_KEYS};
use std::collections::HashSet;

/// The keys of the four sections besides the twenty of WEBIZ.
const KEYS: [(&str, &str); 4] = [("ND0000", "ND"), ("NJDOH", "NJ"), ("IZG", "IZG"), ("NYCDOHMH", "NYC")];

/// A source of 24 sections.
pub fn source() -> String {
    let mut text = String::from("| The registries' rules, by guide and segment.\nbook 1\n\n");
    text += &sets();
    for (_, registry) in REGISTRIES {
        text += &commons(registry);
    }
    let webiz = WEBIZ_KEYS.iter().map(|key| (*key, "WEBIZ"));
    for (key, registry) in webiz.chain(KEYS) {
        text += &format!("\nsection {key:20} | the rules of {registry}\n");
        for segment in segments(registry) {
            text += &format!("use {registry}-{segment}\n");
        }
    }
    text
}

/// All sets of the data, with their codes in lines of eight.
fn sets() -> String {
    let mut text = String::new();
    for line in include_str!("../data/sets.txt").lines() {
        let words: Vec<&str> = line.split(' ').collect();
        text += &format!("set {}\n", words[0]);
        for codes in words[1..].chunks(8) {
            text += &format!("code {}\n", codes.join(" "));
        }
    }
    text
}

/// Each once, in the order of the data.
fn segments(registry: &str) -> Vec<&'static str> {
    let mut seen = HashSet::new();
    let names = books::rule_lines(registry).map(|line| &line[..3]);
    names.filter(|name| seen.insert(*name)).collect()
}

fn commons(registry: &str) -> String {
    let mut text = String::new();
    for segment in segments(registry) {
        text += &format!("\ncommon {registry}-{segment}\n");
        let mut standing = HashSet::new();
        for line in books::rule_lines(registry).filter(|line| line.starts_with(segment)) {
            let words: Vec<&str> = line.split(' ').collect();
            let place = match words[2] {
                "0" => format!("{segment}-{}", words[1]),
                component => format!("{segment}-{}.{component}", words[1]),
            };
            let (severity, kind, bound) = (words[3], words[4], words[5..].join(" "));
            let verb = if standing.insert((place.clone(), kind)) { "rule" } else { "also" };
            let said = format!("{verb} {place} {kind} {severity} {bound}");
            text += &format!("{said:32} | {place} is judged by {kind}\n");
        }
    }
    text
}

#[cfg(test)]
mod tests {
    use super::*;
    use crate::book::Book;
    use crate::booktext;

    #[test]
    fn the_source_has_the_rules_of_the_data() {
        let compiled = booktext::compiled(source().as_bytes()).unwrap_or_else(|told| panic!("{told:?}"));
        let counts = (compiled.sections, compiled.rules, compiled.sets, compiled.book.len());
        assert_eq!(counts, (24, 3_772, 938, 61_111));
        let book = Book::read(&compiled.book).unwrap_or_else(|_| panic!("the book is refused"));
        for (key, registry) in KEYS.into_iter().chain([("SIMON", "WEBIZ")]) {
            // The same section as straight from the data, but with its segments together.
            let section = book.section(key.as_bytes()).unwrap_or_else(|_| panic!("{key}"));
            let expected = books::section(key, registry);
            assert_eq!(section.rules().count(), expected.rules.len(), "{key}");
            assert_eq!(section.sets().len(), expected.sets.len(), "{key}");
        }
    }
}
