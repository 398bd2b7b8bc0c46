//! The two programs: their files, their line of standard input and what they print.

use crate::ack;
use crate::batch::{batch, FILE_LIMIT};
use crate::book::BOOK_LIMIT;
use crate::cutting::MESSAGE_LIMIT;
use crate::records::Record;
use std::fs::File;
use std::io::{self, BufRead, ErrorKind, Read, Write};

pub const BOOK_FILE: &str = "book.vxb";

/// So many finding records the relay program lends.
pub const TABLE_RECORDS: usize = 8_192;

/// What is asked of a file, a book, a stamp, a control number and an output: `relay` or `batch`.
type Call = fn(&[u8], &[u8], &[u8], u32, &mut [u8]) -> (u8, u64);

/// A program that reads a file beside the book and the line.
pub struct Program {
    pub file: &'static str,
    /// The most bytes that the file may have.
    pub limit: usize,
    pub output_length: usize,
    call: Call,
}

pub const RELAY: Program = Program { file: "message.hl7", limit: MESSAGE_LIMIT, output_length: 65_536, call: relay };
pub const BATCH: Program = Program { file: "batch.hl7", limit: FILE_LIMIT, output_length: 4_194_304, call: batch };

/// Grades and writes with the program's own table.
pub fn relay(m: &[u8], book: &[u8], stamp: &[u8], control: u32, out: &mut [u8]) -> (u8, u64) {
    ack::relay(m, book, stamp, control, &mut [Record::default(); TABLE_RECORDS], out)
}

impl Program {
    /// Reads the files in the current directory and the line, and prints.
    pub fn run(&self) -> Result<(), String> {
        let mut input = Vec::new();
        io::stdin().lock().read_until(b'\n', &mut input).map_err(|e| format!("standard input: {e}"))?;
        let file = read_file(self.file, self.limit)?;
        let book = read_file(BOOK_FILE, BOOK_LIMIT)?;
        let text = self.printed(&file, &book, &input);
        io::stdout().write_all(&text).map_err(|e| format!("standard output: {e}"))
    }

    /// What the program prints for the contents of its two files and its standard input.
    pub fn printed(&self, file: &[u8], book: &[u8], input: &[u8]) -> Vec<u8> {
        match read_line(input) {
            Some((stamp, control)) => {
                printed_answer(self.output_length, |out| (self.call)(file, book, stamp, control, out))
            }
            None => b"bad line\n".to_vec(),
        }
    }
}

/// A file's bytes, one past the limit at most; a missing file counts as empty.
fn read_file(name: &str, limit: usize) -> Result<Vec<u8>, String> {
    let mut bytes = Vec::new();
    match File::open(name) {
        Ok(file) => match file.take(limit as u64 + 1).read_to_end(&mut bytes) {
            Ok(_) => Ok(bytes),
            Err(e) => Err(format!("{name}: {e}")),
        },
        Err(e) if e.kind() == ErrorKind::NotFound => Ok(bytes),
        Err(e) => Err(format!("{name}: {e}")),
    }
}

/// What is written to an output of so many bytes, with a line feed for each CR, or the refusal.
pub fn printed_answer(output_length: usize, answer: impl FnOnce(&mut [u8]) -> (u8, u64)) -> Vec<u8> {
    let mut out = vec![0; output_length];
    let (number, detail) = answer(&mut out);
    if number != 0 {
        return format!("refused {number} {detail}\n").into_bytes();
    }
    out.truncate(detail as usize);
    for b in &mut out {
        if *b == b'\r' {
            *b = b'\n';
        }
    }
    out
}

/// The stamp and the control number; `None` is a bad line.
fn read_line(input: &[u8]) -> Option<(&[u8], u32)> {
    let line = input.split(|&b| b == b'\n').next()?;
    let space = line.iter().rposition(|&b| b == b' ')?;
    Some((&line[..space], read_number(&line[space + 1..])?))
}

/// Digits of any number whose value is at most 4,294,967,295.
fn read_number(item: &[u8]) -> Option<u32> {
    if item.is_empty() {
        return None;
    }
    item.iter().try_fold(0u32, |value, b| {
        let digit = b.is_ascii_digit().then(|| u32::from(b - b'0'))?;
        value.checked_mul(10)?.checked_add(digit)
    })
}

#[cfg(test)]
mod tests {
    use super::*;

    #[test]
    fn lines() {
        assert_eq!(read_line(b"S 7\n"), Some((b"S".as_slice(), 7)));
        assert_eq!(read_line(b"S 7"), Some((b"S".as_slice(), 7)));
        assert_eq!(read_line(b"S  7\nx"), Some((b"S ".as_slice(), 7)));
        assert_eq!(read_line(b" 0\n\n"), Some((b"".as_slice(), 0)));
        assert_eq!(read_line(b"\0\xff 004294967295"), Some((b"\0\xff".as_slice(), u32::MAX)));
        for bad in [
            "",
            "\n",
            "S\n",
            "S7",
            "S \n",
            "S 7\r\n",
            "S 7\t",
            "S +7",
            "S -7",
            "S 7.",
            "S 4294967296",
            "S 18446744073709551623",
            "\nS 7",
        ] {
            assert_eq!(read_line(bad.as_bytes()), None, "{bad:?}");
        }
        let zeros = [b"S ".as_slice(), &[b'0'; 70_000], b"7\n"].concat();
        assert_eq!(read_line(&zeros), Some((b"S".as_slice(), 7)));
        let stamp = [vec![b'2'; 70_000], b" 7".to_vec()].concat();
        assert_eq!(read_line(&stamp), Some((&stamp[..70_000], 7)));
    }
}
