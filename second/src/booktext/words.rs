//! What a word can be: number, key or code, place, severity, and a kind with its bound.

use crate::book::{is_word_byte, Severity};
use crate::order::Name;

pub type Word<'t> = &'t [u8];

/// A NUMBER's value, or 0 for any other word: one to three digits, the first not 0, at most 255.
fn number(word: Word) -> u8 {
    let formed = matches!(word, [b'1'..=b'9', rest @ ..] if rest.len() <= 2 && rest.iter().all(u8::is_ascii_digit));
    if !formed {
        return 0;
    }
    let value = word.iter().fold(0, |value, digit| value * 10 + u32::from(digit - b'0'));
    u8::try_from(value).unwrap_or(0)
}

/// Keys and codes have one form.
pub fn is_key(word: Word) -> bool {
    (1..=20).contains(&word.len()) && word.iter().all(|b| is_word_byte(*b))
}

#[derive(Clone, Copy, Debug, PartialEq, Eq)]
pub struct Place {
    pub name: Name,
    pub field: u8,
    /// 0 where none is written.
    pub component: u8,
}

/// What a rule is of and a change speaks of. Both can be written in one way only.
#[derive(Clone, Copy, Debug, PartialEq, Eq)]
pub struct Spot {
    pub place: Place,
    pub kind: KindName,
}

pub fn place(word: Word) -> Option<Place> {
    let (name, rest) = word.split_at_checked(3)?;
    let name = Name::of(name)?;
    let numbers = rest.strip_prefix(b"-")?;
    let mut parts = numbers.splitn(2, |b| *b == b'.');
    let field = number(parts.next()?);
    let lowest = if name == Name::Msh { 3 } else { 1 };
    let component = match parts.next() {
        None => 0,
        Some(written) => Some(number(written)).filter(|component| (1..=20).contains(component))?,
    };
    (lowest..=99).contains(&field).then_some(Place { name, field, component })
}

pub fn severity(word: Word) -> Option<Severity> {
    Some(match word {
        b"E" => Severity::Error,
        b"W" => Severity::Warning,
        b"I" => Severity::Informational,
        _ => return None,
    })
}

#[derive(Clone, Copy, Debug, PartialEq, Eq)]
pub enum KindName {
    Required,
    Length,
    Number,
    Date,
    Time,
    Code,
}

pub fn kind_name(word: Word) -> Option<KindName> {
    Some(match word {
        b"REQUIRED" => KindName::Required,
        b"LENGTH" => KindName::Length,
        b"NUMBER" => KindName::Number,
        b"DATE" => KindName::Date,
        b"TIME" => KindName::Time,
        b"CODE" => KindName::Code,
        _ => return None,
    })
}

/// A kind with the bound that fits it.
#[derive(Clone, Copy, Debug, PartialEq, Eq)]
pub enum Bound<'t> {
    Required,
    Length { low: u8, high: u8 },
    Number,
    Date,
    Time { digits: u8 },
    Code { set: Word<'t> },
}

pub fn bound<'t>(kind: KindName, words: &[Word<'t>]) -> Option<Bound<'t>> {
    Some(match (kind, words) {
        (KindName::Required, []) => Bound::Required,
        (KindName::Length, [low, high]) => {
            let (low, high) = (number(low), number(high));
            (1 <= low && low <= high).then_some(Bound::Length { low, high })?
        }
        (KindName::Number, []) => Bound::Number,
        (KindName::Date, []) => Bound::Date,
        (KindName::Time, [digits]) => {
            let digits = number(digits);
            matches!(digits, 4 | 6 | 8 | 10 | 12 | 14).then_some(Bound::Time { digits })?
        }
        (KindName::Code, [set]) => Bound::Code { set },
        _ => return None,
    })
}

#[cfg(test)]
mod tests {
    use super::*;

    #[test]
    fn numbers() {
        for value in 1..=255u8 {
            assert_eq!(number(value.to_string().as_bytes()), value);
        }
        for other in ["", "0", "00", "01", "256", "300", "999", "1000", "2560", "-1", "+1", "1.", "1a", "a", "1 "] {
            assert_eq!(number(other.as_bytes()), 0, "{other}");
        }
    }

    #[test]
    fn places() {
        let good: [(&str, Name, u8, u8); 8] = [
            ("PID-8", Name::Pid, 8, 0),
            ("PID-7.1", Name::Pid, 7, 1),
            ("PID-1", Name::Pid, 1, 0),
            ("PID-99.20", Name::Pid, 99, 20),
            ("MSH-3", Name::Msh, 3, 0),
            ("MSH-9.3", Name::Msh, 9, 3),
            ("PD1-12", Name::Pd1, 12, 0),
            ("NTE-3.20", Name::Nte, 3, 20),
        ];
        for (word, name, field, component) in good {
            assert_eq!(place(word.as_bytes()), Some(Place { name, field, component }), "{word}");
        }
        for bad in [
            "",
            "P",
            "PID",
            "PID-",
            "PID8",
            "PID-0",
            "PID-08",
            "PID-100",
            "PID-8.",
            "PID-8.0",
            "PID-8.01",
            "PID-8.21",
            "PID-8.1.1",
            "PID-8.1.",
            "PID-.1",
            "PID.8-1",
            "PID--8",
            "PID-8-1",
            "pid-8",
            "IN1-2",
            "QPD-3",
            "MSH-1",
            "MSH-2",
            "MSH-2.1",
            "-8",
            "PIDX-8",
            "PID-+8",
            "PID-8,1",
            "PID-256",
            "PID-8.255",
            "PID-264",
        ] {
            assert_eq!(place(bad.as_bytes()), None, "{bad}");
        }
    }

    #[test]
    fn bounds() {
        let good: [(KindName, &[Word]); 9] = [
            (KindName::Required, &[]),
            (KindName::Number, &[]),
            (KindName::Date, &[]),
            (KindName::Length, &[b"1", b"255"]),
            (KindName::Length, &[b"255", b"255"]),
            (KindName::Time, &[b"4"]),
            (KindName::Time, &[b"14"]),
            (KindName::Code, &[b"0"]),
            (KindName::Code, &[b"any^word"]),
        ];
        for (kind, words) in good {
            assert!(bound(kind, words).is_some(), "{kind:?} {words:?}");
        }
        let bad: [(KindName, &[Word]); 15] = [
            (KindName::Required, &[b"1"]),
            (KindName::Number, &[b"1"]),
            (KindName::Date, &[b"8"]),
            (KindName::Length, &[]),
            (KindName::Length, &[b"1"]),
            (KindName::Length, &[b"0", b"9"]),
            (KindName::Length, &[b"2", b"1"]),
            (KindName::Length, &[b"1", b"256"]),
            (KindName::Length, &[b"01", b"2"]),
            (KindName::Time, &[]),
            (KindName::Time, &[b"5"]),
            (KindName::Time, &[b"16"]),
            (KindName::Time, &[b"8", b"8"]),
            (KindName::Code, &[]),
            (KindName::Code, &[b"a", b"b"]),
        ];
        for (kind, words) in bad {
            assert_eq!(bound(kind, words), None, "{kind:?} {words:?}");
        }
    }
}
