//! Making books: from plain plans, and from the registries' rules in `data`.

use crate::book::{Book, BOOK_LIMIT};

pub type RuleBytes = [u8; 10];

/// What a section is to hold; nothing is checked, so faulty books can be made too.
#[derive(Clone, Default)]
pub struct SectionPlan {
    pub key: Vec<u8>,
    pub rules: Vec<RuleBytes>,
    pub sets: Vec<Vec<Vec<u8>>>,
}

impl SectionPlan {
    pub fn new(key: &str) -> Self {
        SectionPlan { key: key.into(), ..SectionPlan::default() }
    }

    pub fn rule(mut self, rule: RuleBytes) -> Self {
        self.rules.push(rule);
        self
    }
}

/// A rule's ten bytes from name, field, component, kind, severity, set, low and high.
pub fn rule(name: &str, field: u8, component: u8, kind: u8, severity: u8, uses: [u8; 3]) -> RuleBytes {
    let name = name.as_bytes();
    let [set, low, high] = uses;
    [name[0], name[1], name[2], field, component, kind, severity, set, low, high]
}

pub fn encode(sections: &[SectionPlan]) -> Vec<u8> {
    let mut book = head(sections.len());
    for section in sections {
        encode_section(section, &mut book);
    }
    book
}

/// What a book of so many sections begins with.
pub fn head(sections: usize) -> Vec<u8> {
    [b"VXB\0\x01".as_slice(), &[sections as u8]].concat()
}

pub fn encode_section(section: &SectionPlan, book: &mut Vec<u8>) {
    book.push(section.key.len() as u8);
    book.extend(&section.key);
    book.extend((section.rules.len() as u16).to_be_bytes());
    book.push(section.sets.len() as u8);
    book.extend(section.rules.iter().flatten());
    for set in &section.sets {
        book.extend((set.len() as u16).to_be_bytes());
        for code in set {
            book.push(code.len() as u8);
            book.extend(code);
        }
    }
}

/// A section of exactly so many bytes (from 50 to some 65,000) that holds codes nobody asks for.
pub fn filler(key: &str, bytes: usize) -> SectionPlan {
    let mut section = SectionPlan::new(key);
    let mut left = bytes - key.len() - 4;
    while left > 0 {
        let mut set = Vec::new();
        left -= 2;
        while left > 0 && set.len() < 1024 {
            // Never leaves less than a further set or code needs.
            let size = match left {
                0..=21 => left,
                22..=42 => left / 2,
                _ => 21,
            };
            set.push(vec![b'F'; size - 1]);
            left -= size;
        }
        section.sets.push(set);
    }
    section
}

/// The book's sections and a filler that brings it to the largest size.
pub fn encode_largest(mut sections: Vec<SectionPlan>) -> Vec<u8> {
    let size = encode(&sections).len();
    sections.push(filler("FILLER", BOOK_LIMIT - size));
    encode(&sections)
}

/// The guides and their registries in `data/rules.txt`.
pub const REGISTRIES: [(&str, &str); 5] =
    [("000", "WEBIZ"), ("001", "ND"), ("002", "NJ"), ("003", "IZG"), ("004", "NYC")];

/// The twenty receiving facilities that share the WEBIZ rules.
pub const WEBIZ_KEYS: [&str; 20] = [
    "AS0000", "AR0000", "CDPHE", "MP0000", "CT0000", "DE0000", "FM0000", "GU0000", "KS0000", "KY0000", "MH0000",
    "MODHSS", "NHIIS", "NMSIIS", "NV0000", "OK0000", "PW0000", "PADOH", "PH0000", "SIMON",
];

/// A book of five sections and 618 rules, one section for each guide.
pub fn registries_book() -> Vec<u8> {
    let keys = ["KS0000", "ND0000", "NJDOH", "NYCDOHMH", "NYC"];
    let sections = keys.iter().zip(["WEBIZ", "ND", "NJ", "IZG", "NYC"]);
    encode(&sections.map(|(key, registry)| section(key, registry)).collect::<Vec<_>>())
}

/// All twenty WebIZ sections and the others, filled up to 65,536 bytes.
pub fn largest_book() -> Vec<u8> {
    let mut sections: Vec<_> = WEBIZ_KEYS.iter().map(|key| section(key, "WEBIZ")).collect();
    sections.extend([("ND0000", "ND"), ("NJDOH", "NJ"), ("NYCDOHMH", "IZG")].map(|(key, r)| section(key, r)));
    encode_largest(sections)
}

/// A section with a registry's rules and the sets that they use.
pub fn section(key: &str, registry: &str) -> SectionPlan {
    let mut plan = SectionPlan::new(key);
    let mut used: Vec<&str> = Vec::new();
    for line in rule_lines(registry) {
        let items: Vec<&str> = line.split(' ').collect();
        let (kind, uses) = match items[4..] {
            ["REQUIRED"] => (1, [0, 0, 0]),
            ["LENGTH", low, high] => (2, [0, small(low), small(high)]),
            ["NUMBER"] => (3, [0, 0, 0]),
            ["DATE"] => (4, [0, 0, 0]),
            ["TIME", digits] => (5, [0, small(digits), 0]),
            ["CODE", set] => (6, [set_number(&mut used, set), 0, 0]),
            _ => panic!("data/rules.txt: {line}"),
        };
        let severity = items[3].as_bytes()[0];
        let place = (items[0], small(items[1]), small(items[2]));
        plan.rules.push(rule(place.0, place.1, place.2, kind, severity, uses));
    }
    plan.sets = used.into_iter().map(codes).collect();
    plan
}

/// A registry's lines in `data/rules.txt`: segment, field, component, severity, kind, bound.
pub fn rule_lines(registry: &str) -> impl Iterator<Item = &'static str> + '_ {
    let lines = include_str!("../data/rules.txt").lines();
    lines
        .skip_while(move |line| line.strip_prefix("registry ") != Some(registry))
        .skip(1)
        .take_while(|line| !line.starts_with("registry "))
}

fn set_number<'d>(used: &mut Vec<&'d str>, set: &'d str) -> u8 {
    let index = used.iter().position(|name| *name == set).unwrap_or_else(|| {
        used.push(set);
        used.len() - 1
    });
    index as u8 + 1
}

fn codes(set: &str) -> Vec<Vec<u8>> {
    let mut lines = include_str!("../data/sets.txt").lines().map(|line| line.split(' '));
    let codes = lines.find_map(|mut items| (items.next() == Some(set)).then_some(items));
    codes.expect("every set of data/rules.txt is in data/sets.txt").map(Into::into).collect()
}

fn small(digits: &str) -> u8 {
    digits.parse().expect("a small number in data/rules.txt")
}

/// The guides' messages in `data/messages.txt`: name, and segments each with its CR.
pub fn messages() -> Vec<(&'static str, Vec<u8>)> {
    let mut messages: Vec<(&str, Vec<u8>)> = Vec::new();
    for line in include_str!("../data/messages.txt").lines() {
        match (line.strip_prefix("# "), messages.last_mut()) {
            (Some(name), _) => messages.push((name, Vec::new())),
            (None, Some((_, message))) => {
                message.extend(line.as_bytes());
                message.push(b'\r');
            }
            (None, None) => panic!("data/messages.txt does not begin with a name"),
        }
    }
    messages
}

pub fn message(name: &str) -> Vec<u8> {
    let found = messages().into_iter().find(|(n, _)| *n == name);
    found.expect("a name of data/messages.txt").1
}

/// Each guide's message with a book that has its guide's rules under the key MSH-6.1, where it can be one.
pub fn guide_cases() -> Vec<(Vec<u8>, Vec<u8>)> {
    let mut cases = Vec::new();
    for (name, message) in messages() {
        let registry =
            REGISTRIES.into_iter().find(|(number, _)| name.trim_start_matches("restored-").starts_with(number));
        let registry = registry.expect("the number of a guide").1;
        let key = message.split(|b| b"|\r".contains(b)).nth(5).unwrap_or(b"");
        let key = key.split(|b| b"^~".contains(b)).next().unwrap_or(b"");
        let book = encode(&[SectionPlan { key: key.to_vec(), ..section("", registry) }]);
        // No key can be had from `NYC DOHMH` or an empty field: refusal 9 under a book for another key.
        let book = if Book::read(&book).is_ok() { book } else { encode(&[section("NYCDOHMH", registry)]) };
        cases.push((message, book));
    }
    cases
}

#[cfg(test)]
mod tests {
    use super::*;

    #[test]
    fn books_are_well_formed() {
        let book = registries_book();
        let read = Book::read(&book).unwrap_or_else(|_| panic!("registries_book"));
        let counts = [166, 141, 151, 55, 105];
        for (key, count) in ["KS0000", "ND0000", "NJDOH", "NYCDOHMH", "NYC"].iter().zip(counts) {
            let section = read.section(key.as_bytes()).unwrap_or_else(|_| panic!("{key}"));
            assert_eq!(section.rules().count(), count, "{key}");
        }
        let largest = largest_book();
        assert_eq!(largest.len(), BOOK_LIMIT);
        assert!(Book::read(&largest).is_ok());
    }

    #[test]
    fn fillers_have_their_size() {
        for size in 50..200 {
            let book = encode(&[filler("F", size)]);
            assert_eq!(book.len(), size + 6);
            assert!(Book::read(&book).is_ok(), "{size}");
        }
        for size in 21_400..21_600 {
            assert!(Book::read(&encode(&[filler("F", size)])).is_ok(), "{size}");
        }
    }
}
