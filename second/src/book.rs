//! The rule book: refusals 7 and 8, sections, rules and sets.

use crate::cutting::Refusal;
use crate::order::Name;
use crate::values;

pub const BOOK_LIMIT: usize = 65_536;
pub const RULE_BYTES: usize = 10;

#[derive(Clone, Copy, Debug, PartialEq, Eq)]
pub enum Severity {
    Error,
    Warning,
    Informational,
}

impl Severity {
    pub fn of(letter: u8) -> Option<Self> {
        Some(match letter {
            b'E' => Severity::Error,
            b'W' => Severity::Warning,
            b'I' => Severity::Informational,
            _ => return None,
        })
    }

    pub fn letter(self) -> &'static [u8] {
        match self {
            Severity::Error => b"E",
            Severity::Warning => b"W",
            Severity::Informational => b"I",
        }
    }

    /// Whether a finding of it keeps a message from AA.
    pub fn is_grave(self) -> bool {
        self != Severity::Informational
    }
}

#[derive(Clone, Copy, Debug, PartialEq, Eq)]
pub enum Kind {
    Required,
    Length { low: u8, high: u8 },
    Number,
    Date,
    Time { digits: u8 },
    Code { set: u8 },
}

#[derive(Clone, Copy, Debug, PartialEq, Eq)]
pub struct Rule {
    pub name: Name,
    pub field: u8,
    pub component: u8,
    pub kind: Kind,
    pub severity: Severity,
}

impl Rule {
    /// A rule's ten bytes, or `None` where 01 does not allow them.
    fn read(bytes: &[u8], set_count: u8) -> Option<Rule> {
        let &[n0, n1, n2, field, component, kind, severity, set, low, high] = bytes else {
            return None;
        };
        let name = Name::of(&[n0, n1, n2])?;
        let lowest = if name == Name::Msh { 3 } else { 1 };
        if !(lowest..=99).contains(&field) || component > 20 {
            return None;
        }
        let kind = match (kind, set, low, high) {
            (1, 0, 0, 0) => Kind::Required,
            (2, 0, low, high) if 1 <= low && low <= high => Kind::Length { low, high },
            (3, 0, 0, 0) => Kind::Number,
            (4, 0, 0, 0) => Kind::Date,
            (5, 0, digits @ (4 | 6 | 8 | 10 | 12 | 14), 0) => Kind::Time { digits },
            (6, set, 0, 0) if 1 <= set && set <= set_count => Kind::Code { set },
            _ => return None,
        };
        Some(Rule { name, field, component, kind, severity: Severity::of(severity)? })
    }

    /// Whether what stands at the rule's place in a repetition breaks it. What is no value breaks REQUIRED alone.
    // By itself the compiler inlines it into one of the gradings alone: the table's, the batch's or the lamp's.
    #[inline]
    pub fn broken(&self, value: &[u8], sets: &[Set]) -> bool {
        if !values::is_value(value) {
            return self.kind == Kind::Required;
        }
        match self.kind {
            Kind::Required => false,
            Kind::Length { low, high } => !(usize::from(low)..=high.into()).contains(&value.len()),
            Kind::Number => !values::is_number(value),
            Kind::Date => !values::is_date(value),
            Kind::Time { digits } => values::time_digits(value).is_none_or(|has| has < digits.into()),
            Kind::Code { set } => !sets[usize::from(set) - 1].holds(value),
        }
    }
}

/// A section whose bytes have been found well formed.
#[derive(Clone, Copy)]
pub struct Section<'b> {
    pub key: &'b [u8],
    set_count: u8,
    rules: &'b [u8],
    sets: &'b [u8],
}

impl<'b> Section<'b> {
    /// The rules; the first has number 1.
    pub fn rules(&self) -> impl Iterator<Item = Rule> + 'b {
        let set_count = self.set_count;
        self.rules.chunks_exact(RULE_BYTES).filter_map(move |bytes| Rule::read(bytes, set_count))
    }

    /// The sets; the first has number 1.
    pub fn sets(&self) -> Vec<Set<'b>> {
        let mut bytes = Bytes { rest: self.sets };
        (0..self.set_count).map_while(|_| read_set(&mut bytes)).collect()
    }
}

pub struct Book<'b> {
    sections: Vec<Section<'b>>,
}

impl<'b> Book<'b> {
    pub fn read(book: &'b [u8]) -> Result<Self, Refusal> {
        if book.len() > BOOK_LIMIT || book.len() < 5 || !book.starts_with(b"VXB") {
            return Err((7, 0));
        }
        if book[3..5] != [0, 1] {
            return Err((8, 0));
        }
        read_sections(Bytes { rest: &book[5..] }).map(|sections| Book { sections }).ok_or((7, 0))
    }

    pub fn sections(&self) -> &[Section<'b>] {
        &self.sections
    }

    /// The section of a key, or refusal 9.
    pub fn section(&self, key: &[u8]) -> Result<Section<'b>, Refusal> {
        self.sections.iter().find(|section| section.key == key).copied().ok_or((9, 0))
    }
}

fn read_sections(mut bytes: Bytes) -> Option<Vec<Section>> {
    let count = bytes.byte().filter(|count| (1..=64).contains(count))?;
    let mut sections: Vec<Section> = Vec::with_capacity(count.into());
    for _ in 0..count {
        let section = read_section(&mut bytes)?;
        if sections.iter().any(|earlier| earlier.key == section.key) {
            return None;
        }
        sections.push(section);
    }
    bytes.rest.is_empty().then_some(sections)
}

fn read_section<'b>(bytes: &mut Bytes<'b>) -> Option<Section<'b>> {
    let key = bytes.word()?;
    let rule_count = bytes.number().filter(|count| *count <= 256)?;
    let set_count = bytes.byte().filter(|count| *count <= 64)?;
    let rules = bytes.take(rule_count * RULE_BYTES)?;
    if !rules.chunks_exact(RULE_BYTES).all(|rule| Rule::read(rule, set_count).is_some()) {
        return None;
    }
    let sets = bytes.rest;
    for _ in 0..set_count {
        read_set(bytes)?;
    }
    let sets = &sets[..sets.len() - bytes.rest.len()];
    Some(Section { key, set_count, rules, sets })
}

fn read_set<'b>(bytes: &mut Bytes<'b>) -> Option<Set<'b>> {
    let count = bytes.number().filter(|count| (1..=1024).contains(count))?;
    let codes = bytes.rest;
    for _ in 0..count {
        bytes.word()?;
    }
    Some(Set { codes: &codes[..codes.len() - bytes.rest.len()] })
}

/// A set of codes, each a length byte and its bytes.
pub struct Set<'b> {
    codes: &'b [u8],
}

impl<'b> Set<'b> {
    pub fn codes(&self) -> impl Iterator<Item = &'b [u8]> {
        let mut bytes = Bytes { rest: self.codes };
        std::iter::from_fn(move || {
            let length = bytes.byte()?;
            bytes.take(length.into())
        })
    }

    /// Whether the value equals a code.
    pub fn holds(&self, value: &[u8]) -> bool {
        self.codes().any(|code| code == value)
    }
}

/// Bytes that are taken from the front; `None` where too few are left.
struct Bytes<'b> {
    rest: &'b [u8],
}

impl<'b> Bytes<'b> {
    fn take(&mut self, count: usize) -> Option<&'b [u8]> {
        let (taken, rest) = self.rest.split_at_checked(count)?;
        self.rest = rest;
        Some(taken)
    }

    fn byte(&mut self) -> Option<u8> {
        self.take(1).map(|b| b[0])
    }

    /// Two bytes, the high byte first.
    fn number(&mut self) -> Option<usize> {
        self.take(2).map(|b| usize::from(b[0]) * 256 + usize::from(b[1]))
    }

    /// A key or a code: a length byte 1 to 20 and its bytes.
    fn word(&mut self) -> Option<&'b [u8]> {
        let length = self.byte().filter(|length| (1..=20).contains(length))?;
        self.take(length.into()).filter(|word| word.iter().all(|b| is_word_byte(*b)))
    }
}

/// Whether keys and codes may hold the byte.
pub fn is_word_byte(b: u8) -> bool {
    WORD_BYTES[usize::from(b)]
}

/// 0x21 to 0x7E without bar, caret, tilde, backslash and ampersand.
const WORD_BYTES: [bool; 256] = {
    let mut allowed = [false; 256];
    let mut b = 0x21;
    while b <= 0x7E {
        allowed[b] = !matches!(b as u8, b'|' | b'^' | b'~' | b'\\' | b'&');
        b += 1;
    }
    allowed
};

#[cfg(test)]
mod tests {
    use super::*;
    use crate::cases::FAULTY_RULES;

    fn number(book: &[u8]) -> u8 {
        Book::read(book).err().map_or(0, |refusal| refusal.0)
    }

    #[test]
    fn seven_then_eight_then_seven() {
        let long = |length: usize| [b"VXB\0\x07".as_slice(), &vec![0; length - 5]].concat();
        let (longest, longer) = (long(BOOK_LIMIT), long(BOOK_LIMIT + 1));
        let rows: [(&[u8], u8); 19] = [
            (b"", 7),
            (b"VXB\0", 7),
            (b"VXB\0\x07", 8),
            (b"VXB\x01\0", 8),
            (b"VXC\0\x07", 7),
            (b"VXB\0\x01", 7),
            (&longest, 8),
            (&longer, 7),
            (b"VXB\0\x01\0", 7),
            (b"VXB\0\x01\x01\x01A\0\0\0", 0),
            (b"VXB\0\x01\x01\x01A\0\0\0x", 7),
            (b"VXB\0\x01\x01\x01A\0\0", 7),
            (b"VXB\0\x01\x02\x01A\0\0\0\x01A\0\0\0", 7),
            (b"VXB\0\x01\x02\x01A\0\0\0\x01a\0\0\0", 0),
            (b"VXB\0\x01\x01\0\0\0\0", 7),
            (b"VXB\0\x01\x01\x01A\0\0\x01\0\0", 7),
            (b"VXB\0\x01\x01\x01A\0\0\x01\0\x01\x01x", 0),
            (b"VXB\0\x01\x01\x01A\0\0\x01\0\x02\x01x\x01x", 0),
            (b"VXB\0\x01\x01\x01A\0\0\x01\0\x01\0", 7),
        ];
        for (book, expected) in rows {
            assert_eq!(number(book), expected, "{}", book[..book.len().min(20)].escape_ascii());
        }
    }

    #[test]
    fn bytes_of_keys() {
        for b in 0..=255u8 {
            let book = [b"VXB\0\x01\x01\x01".as_slice(), &[b], b"\0\0\0"].concat();
            let allowed = (0x21..=0x7E).contains(&b) && !b"|^~\\&".contains(&b);
            assert_eq!(number(&book), if allowed { 0 } else { 7 }, "{b}");
        }
    }

    #[test]
    fn rules() {
        for good in [
            b"PID\x01\0\x01E\0\0\0",
            b"PID\x63\x14\x01I\0\0\0",
            b"MSH\x03\0\x01W\0\0\0",
            b"PID\x01\0\x02E\0\x01\xff",
            b"PID\x01\0\x02E\0\x05\x05",
            b"PID\x01\0\x05E\0\x0e\0",
            b"PID\x01\0\x06E\x02\0\0",
        ] {
            assert!(Rule::read(good, 2).is_some(), "{}", good.escape_ascii());
        }
        for bad in FAULTY_RULES {
            // Set 1 is there where there are two.
            let fine = bad == b"PID\x01\0\x06E\x01\0\0";
            assert_eq!((Rule::read(bad, 0), Rule::read(bad, 2).is_some()), (None, fine), "{}", bad.escape_ascii());
        }
    }
}
