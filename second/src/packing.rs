//! Packed cases: numbers of four bytes with the high byte first, one case after the other. And the
//! single numbers in which the library answers.

use crate::booktext::{Told, TOO_SHORT};
use crate::cases::{AnyCase, BatchCase, BookCall, BookCase, Case, DiffCase, WriteCase};
use crate::records::Record;

/// What a case begins with.
const MESSAGE: u32 = 1;
const BATCH: u32 = 2;
const COMPILE: u32 = 3;
const SHOW: u32 = 4;
const LEGEND: u32 = 5;
const DIFF: u32 = 6;
const WRITE: u32 = 7;

/// A packed record, each of its numbers with the high byte first.
pub const RECORD_BYTES: usize = 16;

fn pack(case: &AnyCase, packed: &mut Vec<u8>) {
    match case {
        AnyCase::Message(Case { message, book, stamp, control, output_length, place }) => {
            pack_numbers(&[MESSAGE], packed);
            pack_bytes(&[message, book, stamp], packed);
            pack_numbers(&[*control, *output_length as u32], packed);
            pack_numbers(place, packed);
        }
        AnyCase::Batch(BatchCase { file, book, stamp, control, output_length }) => {
            pack_numbers(&[BATCH], packed);
            pack_bytes(&[file, book, stamp], packed);
            pack_numbers(&[*control, *output_length as u32], packed);
        }
        AnyCase::Book(BookCase { call, given, output_length }) => {
            let kind = match call {
                BookCall::Compile => COMPILE,
                BookCall::Show => SHOW,
                BookCall::Legend => LEGEND,
            };
            pack_numbers(&[kind], packed);
            pack_bytes(&[given], packed);
            pack_numbers(&[*output_length as u32], packed);
        }
        AnyCase::Diff(DiffCase { old, new, output_length }) => {
            pack_numbers(&[DIFF], packed);
            pack_bytes(&[old, new], packed);
            pack_numbers(&[*output_length as u32], packed);
        }
        AnyCase::Write(WriteCase { message, table, count, stamp, control, output_length }) => {
            pack_numbers(&[WRITE], packed);
            pack_bytes(&[message], packed);
            pack_numbers(&[table.len() as u32], packed);
            packed.extend(table.iter().flat_map(packed_record));
            pack_numbers(&[*count], packed);
            pack_bytes(&[stamp], packed);
            pack_numbers(&[*control, *output_length as u32], packed);
        }
    }
}

fn packed_record(record: &Record) -> [u8; RECORD_BYTES] {
    let Record { ordinal, repetition, rule, code, name, field, component, severity } = *record;
    let mut packed = [0; RECORD_BYTES];
    packed[..4].copy_from_slice(&ordinal.to_be_bytes());
    packed[4..8].copy_from_slice(&repetition.to_be_bytes());
    packed[8..10].copy_from_slice(&rule.to_be_bytes());
    packed[10..12].copy_from_slice(&code.to_be_bytes());
    packed[12..].copy_from_slice(&[name, field, component, severity]);
    packed
}

pub fn unpacked_record(packed: &[u8; RECORD_BYTES]) -> Record {
    let [o0, o1, o2, o3, r0, r1, r2, r3, rule0, rule1, code0, code1, name, field, component, severity] = *packed;
    Record {
        ordinal: u32::from_be_bytes([o0, o1, o2, o3]),
        repetition: u32::from_be_bytes([r0, r1, r2, r3]),
        rule: u16::from_be_bytes([rule0, rule1]),
        code: u16::from_be_bytes([code0, code1]),
        name,
        field,
        component,
        severity,
    }
}

fn pack_numbers(numbers: &[u32], packed: &mut Vec<u8>) {
    packed.extend(numbers.iter().flat_map(|number| number.to_be_bytes()));
}

fn pack_bytes(all: &[&Vec<u8>], packed: &mut Vec<u8>) {
    for bytes in all {
        pack_numbers(&[bytes.len() as u32], packed);
        packed.extend(bytes.iter());
    }
}

pub fn pack_all(cases: &[AnyCase]) -> Vec<u8> {
    let mut packed = Vec::new();
    for case in cases {
        pack(case, &mut packed);
    }
    packed
}

/// All cases of a pack; `None` where it ends inside a case or one begins with another number.
pub fn unpack(mut packed: &[u8]) -> Option<Vec<AnyCase>> {
    let mut cases = Vec::new();
    while !packed.is_empty() {
        cases.push(match take_number(&mut packed)? {
            MESSAGE => AnyCase::Message(take_message(&mut packed)?),
            BATCH => AnyCase::Batch(take_batch(&mut packed)?),
            COMPILE => AnyCase::Book(take_book(&mut packed, BookCall::Compile)?),
            SHOW => AnyCase::Book(take_book(&mut packed, BookCall::Show)?),
            LEGEND => AnyCase::Book(take_book(&mut packed, BookCall::Legend)?),
            DIFF => AnyCase::Diff(take_diff(&mut packed)?),
            WRITE => AnyCase::Write(take_write(&mut packed)?),
            _ => return None,
        });
    }
    Some(cases)
}

/// What a message has up to its place, a batch has as a whole.
fn take_batch(packed: &mut &[u8]) -> Option<BatchCase> {
    let [file, book, stamp] = [take_bytes(packed)?, take_bytes(packed)?, take_bytes(packed)?];
    let [control, output_length] = take_numbers(packed)?;
    Some(BatchCase { file, book, stamp, control, output_length: output_length as usize })
}

fn take_message(packed: &mut &[u8]) -> Option<Case> {
    let BatchCase { file, book, stamp, control, output_length } = take_batch(packed)?;
    let place = take_numbers(packed)?;
    Some(Case { message: file, book, stamp, control, output_length, place })
}

fn take_book(packed: &mut &[u8], call: BookCall) -> Option<BookCase> {
    let given = take_bytes(packed)?;
    let output_length = take_number(packed)? as usize;
    Some(BookCase { call, given, output_length })
}

fn take_diff(packed: &mut &[u8]) -> Option<DiffCase> {
    let [old, new] = [take_bytes(packed)?, take_bytes(packed)?];
    let output_length = take_number(packed)? as usize;
    Some(DiffCase { old, new, output_length })
}

fn take_write(packed: &mut &[u8]) -> Option<WriteCase> {
    let message = take_bytes(packed)?;
    let records = take_number(packed)? as usize;
    let (table, rest) = packed.split_at_checked(records.checked_mul(RECORD_BYTES)?)?;
    *packed = rest;
    let (table, _) = table.as_chunks();
    let count = take_number(packed)?;
    let stamp = take_bytes(packed)?;
    let [control, output_length] = take_numbers(packed)?;
    let table = table.iter().map(unpacked_record).collect();
    Some(WriteCase { message, table, count, stamp, control, output_length: output_length as usize })
}

fn take_numbers<const N: usize>(packed: &mut &[u8]) -> Option<[u32; N]> {
    let mut numbers = [0; N];
    for number in &mut numbers {
        *number = take_number(packed)?;
    }
    Some(numbers)
}

fn take_number(packed: &mut &[u8]) -> Option<u32> {
    let (number, rest) = packed.split_first_chunk()?;
    *packed = rest;
    Some(u32::from_be_bytes(*number))
}

fn take_bytes(packed: &mut &[u8]) -> Option<Vec<u8>> {
    let length = take_number(packed)? as usize;
    let (bytes, rest) = packed.split_at_checked(length)?;
    *packed = rest;
    Some(bytes.to_vec())
}

/// An answer or a check.
pub fn number_and_detail(result: u64) -> (u8, u64) {
    ((result % 256) as u8, result / 256)
}

/// An answer about books as text. A length takes all of the detail; a line leaves room for a section above it.
pub fn told(result: u64) -> Told {
    match number_and_detail(result) {
        (number @ (0 | TOO_SHORT), length) => (number, length).into(),
        (number, detail) => Told { number, detail: detail % (1 << 32), section: detail >> 32 },
    }
}

/// A place.
pub fn start_and_length(result: u64) -> (usize, usize) {
    ((result / 65_536) as usize, (result % 65_536) as usize)
}

#[cfg(test)]
mod tests {
    use super::*;

    #[test]
    fn what_is_packed_comes_back() {
        let case = AnyCase::Message(Case {
            message: b"MSH".to_vec(),
            book: vec![],
            stamp: b"20".to_vec(),
            control: 0xFFEE_DDCC,
            output_length: 65_536,
            place: [1, 0, u32::MAX, 258],
        });
        let batch = AnyCase::Batch(BatchCase {
            file: b"FHS\r".to_vec(),
            book: b"VXB".to_vec(),
            stamp: vec![],
            control: 1,
            output_length: 0x0102_0304,
        });
        let calls = [BookCall::Compile, BookCall::Show, BookCall::Legend];
        let books = calls.map(|call| AnyCase::Book(BookCase { call, given: b"book".to_vec(), output_length: 258 }));
        let packed = pack_all(&books);
        assert_eq!(packed[..16], [0, 0, 0, 3, 0, 0, 0, 4, b'b', b'o', b'o', b'k', 0, 0, 1, 2]);
        assert_eq!((packed[19], packed[35]), (4, 5));
        assert_eq!(unpack(&packed), Some(books.to_vec()));
        assert_eq!(unpack(&packed[..47]), None);
        let diff = [AnyCase::Diff(DiffCase { old: b"VXB".to_vec(), new: vec![], output_length: 513 })];
        let packed = pack_all(&diff);
        assert_eq!(packed, *b"\0\0\0\x06\0\0\0\x03VXB\0\0\0\0\0\0\x02\x01");
        assert_eq!(unpack(&packed), Some(diff.to_vec()));
        let mut packed = pack_all(&[batch.clone(), case.clone(), case.clone()]);
        assert_eq!(packed[..12], [0, 0, 0, 2, 0, 0, 0, 4, b'F', b'H', b'S', b'\r']);
        assert_eq!(packed[26..41], [1, 1, 2, 3, 4, 0, 0, 0, 1, 0, 0, 0, 3, b'M', b'S']);
        assert_eq!(packed[packed.len() - 8..], [255, 255, 255, 255, 0, 0, 1, 2]);
        assert_eq!(unpack(&packed), Some(vec![batch.clone(), case.clone(), case]));
        packed.pop();
        assert_eq!(unpack(&packed), None);
        let mut other = pack_all(&[batch]);
        other[3] = 8;
        assert_eq!(unpack(&other), None);
    }

    #[test]
    fn records_are_packed_field_by_field() {
        let record = Record {
            ordinal: 0x0102_0304,
            repetition: 0x0506_0708,
            rule: 0x090A,
            code: 0x0B0C,
            name: 13,
            field: 14,
            component: 15,
            severity: 16,
        };
        let case = [AnyCase::Write(WriteCase {
            message: b"MSH".to_vec(),
            table: vec![record, Record::default()],
            count: 0xFFEE_DDCC,
            stamp: b"20".to_vec(),
            control: 0x1112_1314,
            output_length: 258,
        })];
        let packed = pack_all(&case);
        assert_eq!(packed[..15], *b"\0\0\0\x07\0\0\0\x03MSH\0\0\0\x02");
        assert_eq!(packed[15..31], std::array::from_fn::<u8, 16, _>(|at| at as u8 + 1));
        assert_eq!(packed[31..47], [0; 16]);
        assert_eq!(packed[47..], *b"\xFF\xEE\xDD\xCC\0\0\0\x0220\x11\x12\x13\x14\0\0\x01\x02");
        assert_eq!(unpack(&packed), Some(case.to_vec()));
        assert_eq!(unpack(&packed[..40]), None);
    }

    #[test]
    fn answers_have_a_line_and_a_section_or_a_length() {
        let above = 0xFFEE_DDCC + (1 << 32) * 1_048_577;
        assert_eq!(told(56 + 256 * above), Told { number: 56, detail: 0xFFEE_DDCC, section: 1_048_577 });
        for number in [0, TOO_SHORT] {
            assert_eq!(told(u64::from(number) + 256 * above), Told { number, detail: above, section: 0 });
        }
    }
}
