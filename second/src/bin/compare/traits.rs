//! What a book that is shown and a legend can have.

use second::book::{Book, Kind, Rule, Section, BOOK_LIMIT};
use second::booktext;
use std::collections::{HashMap, HashSet};
use std::hash::Hash;
use std::mem;

/// A label, and whether what it says is there.
pub type Trait = (&'static str, bool);

pub fn of_book(bytes: &[u8]) -> Vec<Trait> {
    let Ok(book) = Book::read(bytes) else {
        return Vec::new();
    };
    let sections = book.sections();
    let rules: Vec<Rule> = sections.iter().flat_map(Section::rules).collect();
    let has = |holds: fn(&Rule) -> bool| rules.iter().any(holds);
    let any = |holds: fn(&Section) -> bool| sections.iter().any(holds);
    vec![
        ("each segment", distinct(rules.iter().map(|rule| rule.name.bytes())) == 10),
        ("each kind", distinct(rules.iter().map(|rule| mem::discriminant(&rule.kind))) == 6),
        ("no component", has(|rule| rule.component == 0)),
        ("component 20", has(|rule| rule.component == 20)),
        ("field 99", has(|rule| rule.field == 99)),
        (
            "a rule twice",
            any(|section| section.rules().enumerate().any(|(at, r)| section.rules().take(at).any(|e| e == r))),
        ),
        ("a set that no rule uses", any(|section| distinct(used(section)) < section.sets().len())),
        ("a later set used first", any(|section| used(section).next() > Some(1))),
        ("two equal sets", any(|section| distinct(sets(section)) < section.sets().len())),
        ("64 sections", sections.len() == 64),
        ("256 rules", any(|section| section.rules().count() == 256)),
        ("64 sets", any(|section| section.sets().len() == 64)),
        ("1,024 codes", any(|section| sets(section).any(|codes| codes.len() == 1_024))),
        ("65,536 bytes", bytes.len() == BOOK_LIMIT),
    ]
}

fn distinct<T: Eq + Hash>(items: impl Iterator<Item = T>) -> usize {
    items.collect::<HashSet<T>>().len()
}

/// The numbers of the sets that the rules name.
fn used<'b>(section: &Section<'b>) -> impl Iterator<Item = u8> + 'b {
    section.rules().filter_map(|rule| match rule.kind {
        Kind::Code { set } => Some(set),
        _ => None,
    })
}

fn sets<'b>(section: &Section<'b>) -> impl Iterator<Item = Vec<&'b [u8]>> {
    section.sets().into_iter().map(|set| set.codes().collect())
}

/// The text is one that is not refused.
pub fn of_legend(text: &[u8]) -> Vec<Trait> {
    let legend = booktext::legend_of(text, usize::MAX).unwrap_or_default();
    let lines: Vec<(Vec<&[u8]>, &[u8])> = legend.split(|b| *b == b'\n').map(parted).collect();
    let any = |holds: fn(&[u8]) -> bool| lines.iter().any(|(_, people)| holds(people));
    let mut severities = HashMap::new();
    let twice = lines.iter().any(|(said, people)| match said[..] {
        [_, _, place, kind, severity, ..] if !people.is_empty() => {
            *severities.entry((place, kind, people)).or_insert(severity) != severity
        }
        _ => false,
    });
    let is_bare = |line: &[u8]| {
        let bar = line.iter().position(|b| *b == b'|');
        let is_rule = line.starts_with(b"rule") || line.starts_with(b"also");
        is_rule && bar.is_some_and(|at| line[at + 1..].trim_ascii().is_empty())
    };
    // What stands behind the bar of changes, where it cannot be found by chance.
    let changed: Vec<&[u8]> = text.split(|b| *b == b'\n').filter_map(words_of_change).collect();
    let behind = |people: &[u8], words: &[u8]| {
        people.strip_suffix(words).is_some_and(|before| before.len() > 3 && before.ends_with(b" | "))
    };
    let any_change = |holds: &dyn Fn(&[u8], &[u8]) -> bool| {
        lines.iter().any(|(said, people)| said.len() > 2 && changed.iter().any(|words| holds(people, words)))
    };
    vec![
        ("a change's words behind others", any_change(&behind)),
        ("a change's words alone", any_change(&|people, words| people == words)),
        ("a bar in the words", any(|people| people.contains(&b'|'))),
        ("a tab in the words", any(|people| people.contains(&b'\t'))),
        ("a CR in the words", any(|people| people.contains(&b'\r'))),
        ("over 1,000 bytes of words", any(|people| people.len() > 1_000)),
        ("a name of over 255 bytes", lines.iter().any(|(said, _)| said.iter().any(|word| word.len() > 255))),
        ("a rule's words with two severities", twice),
        ("a rule with a bar and no words", text.split(|b| *b == b'\n').any(is_bare)),
    ]
}

/// The words for people of a `severity` or `bound`, if they are some.
fn words_of_change(line: &[u8]) -> Option<&[u8]> {
    let is_change = [b"severity ".as_slice(), b"bound "].iter().any(|verb| line.starts_with(verb));
    let at = line.iter().position(|b| *b == b'|')?;
    Some(line[at + 1..].trim_ascii()).filter(|words| is_change && words.len() > 3)
}

/// The words before a legend line's first bar, and what follows it.
fn parted(line: &[u8]) -> (Vec<&[u8]>, &[u8]) {
    let bar = line.windows(3).position(|three| three == b" | ");
    let (said, people) = bar.map_or((line, b"".as_slice()), |at| (&line[..at], &line[at + 3..]));
    (said.split(|b| *b == b' ').collect(), people)
}
