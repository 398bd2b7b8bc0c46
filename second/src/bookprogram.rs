//! The program for books as text: its command line, its files and what it prints.

use crate::book::BOOK_LIMIT;
use crate::booktext::{self, Told, TEXT_LIMIT, TOO_SHORT};
use std::ffi::OsString;
use std::fs::{self, File};
use std::io::{self, Read};
use std::os::unix::ffi::OsStrExt;
use std::path::Path;

/// What the program lends to a legend or a difference.
const ROOM: usize = 4_194_304;
const USAGE: &str = "usage: book compile SOURCE BOOK | check SOURCE | show BOOK | legend SOURCE | diff OLD NEW\n";

/// What is printed, and the status with which the program ends.
#[derive(Clone, Debug, PartialEq, Eq)]
pub struct Printed {
    pub text: Vec<u8>,
    pub status: u8,
}

impl Printed {
    fn new(text: impl Into<Vec<u8>>, status: u8) -> Self {
        Printed { text: text.into(), status }
    }
}

/// What the words of the command line ask for.
pub fn run(arguments: &[OsString]) -> Printed {
    let words: Vec<&[u8]> = arguments.iter().map(|word| word.as_bytes()).collect();
    let path = |at: usize| Path::new(&arguments[at]);
    let result = match words[..] {
        [b"compile", source, book] => {
            read(path(1), TEXT_LIMIT).and_then(|text| written(&text, path(2), source == book))
        }
        [b"check", _] => read(path(1), TEXT_LIMIT).map(|text| compiled(&text).0),
        [b"show", _] => read(path(1), BOOK_LIMIT).map(|book| shown(&book)),
        [b"diff", _, _] => {
            read(path(1), BOOK_LIMIT).and_then(|old| read(path(2), BOOK_LIMIT).map(|new| difference(&old, &new)))
        }
        [b"legend", _] => read(path(1), TEXT_LIMIT).map(|text| legend(&text)),
        _ => Ok(usage()),
    };
    result.unwrap_or_else(|printed| printed)
}

pub fn usage() -> Printed {
    Printed::new(USAGE, 5)
}

pub fn cannot_read(path: &Path) -> Printed {
    of_file("read", path)
}

pub fn cannot_write(path: &Path) -> Printed {
    of_file("written", path)
}

fn of_file(what: &str, path: &Path) -> Printed {
    Printed::new([format!("file cannot be {what}: ").as_bytes(), path.as_os_str().as_bytes(), b"\n"].concat(), 4)
}

/// A file's bytes, one past the limit at most.
fn read(path: &Path, limit: usize) -> Result<Vec<u8>, Printed> {
    let read = |path: &Path| -> io::Result<Vec<u8>> {
        let mut bytes = Vec::new();
        File::open(path)?.take(limit as u64 + 1).read_to_end(&mut bytes)?;
        Ok(bytes)
    };
    read(path).map_err(|_| cannot_read(path))
}

/// The book is written only if nothing was refused, and not over its source.
fn written(text: &[u8], path: &Path, is_source: bool) -> Result<Printed, Printed> {
    let (printed, book) = compiled(text);
    match book {
        Some(book) if is_source || fs::write(path, &book).is_err() => Err(cannot_write(path)),
        _ => Ok(printed),
    }
}

/// What `compile` and `check` print, and the book if there is one.
pub fn compiled(text: &[u8]) -> (Printed, Option<Vec<u8>>) {
    match booktext::compiled(text) {
        Ok(compiled) => {
            let (bytes, booktext::Compiled { sections, rules, sets, .. }) = (compiled.book.len(), &compiled);
            let line = format!("compiled {bytes} bytes, {sections} sections, {rules} rules, {sets} sets\n");
            (Printed::new(line, 0), Some(compiled.book))
        }
        Err(told) => (refused(told), None),
    }
}

pub fn shown(book: &[u8]) -> Printed {
    match booktext::shown(book) {
        Ok(text) => Printed::new(text, 0),
        Err(Told { number, .. }) => Printed::new(format!("book refused {number}\n"), 3),
    }
}

/// The status says whether there is a difference.
pub fn difference(old: &[u8], new: &[u8]) -> Printed {
    match booktext::difference(old, new) {
        Ok(text) if text.len() > ROOM => refused((TOO_SHORT, text.len() as u64).into()),
        Ok(text) => Printed { status: u8::from(!text.is_empty()), text },
        Err(Told { number, detail, .. }) => {
            let which = if detail == 1 { "old" } else { "new" };
            Printed::new(format!("book refused {number} {which}\n"), 3)
        }
    }
}

pub fn legend(text: &[u8]) -> Printed {
    match booktext::legend_of(text, ROOM) {
        Ok(legend) => Printed::new(legend, 0),
        Err(told) => refused(told),
    }
}

fn refused(Told { number, detail, section }: Told) -> Printed {
    let mut text = format!("refused {number}");
    // The detail of 55 is no line.
    let line = if number == TOO_SHORT { 0 } else { detail };
    for (name, at) in [("line", line), ("section", section)] {
        if at != 0 {
            text += &format!(" {name} {at}");
        }
    }
    Printed::new(format!("{text}: {}\n", reason(number)), 2)
}

fn reason(number: u8) -> &'static str {
    match number {
        31 => "the text has over 1,048,576 bytes",
        32 => "a byte that is not allowed: only ASCII signs, blanks, tabs and line ends are",
        33 => "the first word is no statement's name",
        34 => "this statement may not stand here",
        35 => "too few or too many words",
        36 => "the version is not 1",
        37 => "not a key: 1 to 20 signs, none of | ^ ~ \\ &",
        38 => "not a code: 1 to 20 signs, none of | ^ ~ \\ &",
        39 => "not a place: SEGMENT-FIELD or SEGMENT-FIELD.COMPONENT",
        40 => "not a kind: REQUIRED, LENGTH, NUMBER, DATE, TIME or CODE",
        41 => "not a severity: E, W or I",
        42 => "the bound does not fit the kind",
        43 => "an earlier one has this name or key",
        44 => "there are no sections, or over 64",
        45 => "it names a set or common that there is not",
        46 => "the section has used this common before",
        47 => "the section has a rule of this place and kind: write also for a further one",
        48 => "the section has no rule of this place and kind",
        49 => "a code that more adds is there, or one that less takes is not",
        50 => "the section has over 256 rules",
        51 => "the section holds over 64 sets",
        52 => "the section does not hold this set",
        53 => "the set has no code, or over 1,024",
        54 => "the book has over 65,536 bytes, counted up to this section",
        55 => "what is to be printed has over 4,194,304 bytes",
        56 => "the section has over 2,048 statements, with those it takes over",
        _ => unreachable!("no refusal has the number {number}"),
    }
}

#[cfg(test)]
mod tests {
    use super::*;
    use crate::samples::sources;

    #[test]
    fn each_sample_can_be_printed() {
        for sample in sources::samples() {
            let given = &sample.case.given;
            for printed in [compiled(given).0, shown(given), legend(given)] {
                assert_eq!(printed.text.last(), Some(&b'\n'), "{}", sample.name);
            }
        }
    }

    #[test]
    fn lines() {
        let text = b"book 1\nset s x\nsection A\nsets s\nsection B\nrule PID-3 DATE E\n";
        assert_eq!(compiled(text).0.text, b"compiled 30 bytes, 2 sections, 1 rules, 1 sets\n");
        assert_eq!(compiled(b"").0.text, b"refused 44: there are no sections, or over 64\n");
        assert_eq!(compiled(b"\nbook").0.text, b"refused 35 line 2: too few or too many words\n");
        let text = b"book 1\nsection A\nsection B\nalso PID-3 DATE E\n";
        let expected = "refused 48 line 4 section 3: the section has no rule of this place and kind\n";
        assert_eq!(compiled(text).0.text, expected.as_bytes());
        assert_eq!(legend(text).text, expected.as_bytes());
        let text = b"book 1\nset s x\nsection A\nmore s x\n";
        let expected = b"refused 49 line 4 section 3: a code that more adds is there, or one that less takes is not\n";
        assert_eq!(compiled(text).0.text, expected);
        let text = b"book 1\nset s x\nsection A\nless s x\n";
        assert_eq!(compiled(text).0.text, b"refused 52 line 4 section 3: the section does not hold this set\n");
        assert_eq!(shown(b""), Printed::new("book refused 7\n", 3));
        assert_eq!(shown(b"VXB\0\x02"), Printed::new("book refused 8\n", 3));
    }
}
