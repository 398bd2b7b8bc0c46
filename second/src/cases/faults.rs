//! One fault for each refusal, put into a case that would be answered.

use super::near;
use super::places;
use super::random::Random;
use super::Case;
use crate::book::BOOK_LIMIT;
use crate::cutting::MESSAGE_LIMIT;

/// Makes the condition of a refusal true. Several faults are put in from the last to the first, so
/// that a later call does not undo an earlier one.
pub fn put(random: &mut Random, case: &mut Case, refusal: u8) {
    let message = &mut case.message;
    match refusal {
        1 => message.clear(),
        2 => lengthen(random, message),
        3 => foreign_byte(random, message),
        4 => other_beginning(random, message),
        5 => wrong_segment(random, message),
        6 => {
            let length = random.pick(&[0, 0, 200, 201, 255, 256, 455]);
            let id = random.text(b"M~^", length);
            set_part(message, 9, &id);
        }
        7 => malformed(random, &mut case.book),
        8 => {
            let version = random.pick(&[[0, 0], [0, 2], [1, 1], [1, 0], [0, 255], [255, 255], [0, 49]]);
            case.book[3..5].copy_from_slice(&version);
        }
        9 => other_key(random, message),
        10 => case.stamp = near::bad_stamp(random),
        _ => case.output_length = 0,
    }
}

fn lengthen(random: &mut Random, message: &mut Vec<u8>) {
    let length = MESSAGE_LIMIT + random.pick(&[1, 1, 1, 2, 9, 32_768]);
    message.extend(b"ZZZ|");
    message.resize(length - 1, b'x');
    message.push(b'\r');
}

fn foreign_byte(random: &mut Random, message: &mut Vec<u8>) {
    for _ in 0..random.pick(&[1, 1, 1, 2, 3]) {
        let byte = random.letter(b"\0\x01\t\n\x0C\x0E\x1F\x7F\x80\xA0\xFE\xFF");
        let at = random.below(message.len() + 1);
        message.insert(at, byte);
    }
}

/// Breaks one of row 4's conditions, or more where a byte is missing or too many.
fn other_beginning(random: &mut Random, message: &mut Vec<u8>) {
    // Bytes beside those that may delimit, and what a careless test takes for one of them.
    const FORBIDDEN: &[u8] = b" \"+-.09AZ_az\r";
    match random.below(8) {
        0 => message.truncate(random.between(1, 8)),
        // Without byte 3 it would be sound where MSH-3 begins with a caret.
        1 => drop(message.remove(random.pick(&[0, 1, 2, 4, 5, 6, 7]))),
        2 => message.insert(random.below(9), random.letter(FORBIDDEN)),
        3 => message[random.below(3)] = random.letter(b"msh/ A\r"),
        4 => message[8] = random.letter(b"^~\\&#!A \r"),
        5 => {
            let at = random.between(4, 7);
            message[at] = message[random.between(3, at - 1)];
        }
        _ => {
            let at = random.between(3, 7);
            message[at] = random.letter(FORBIDDEN);
            // Byte 8 follows byte 3, so that the forbidden byte is the only fault.
            message[8] = message[3];
        }
    }
}

fn wrong_segment(random: &mut Random, message: &mut Vec<u8>) {
    let at = places::segment_start(random, message);
    let wrong: [&[u8]; 14] = [
        b"\r",
        b"PI\r",
        b"P\r",
        b"pID\r",
        b"PIDX|\r",
        b"PID^\r",
        b" PID|\r",
        b"1ID|\r",
        b"PI |\r",
        b"|\r",
        b"PI|\r",
        b"P1d|\r",
        b"PID~\r",
        b"PID\\F\\\r",
    ];
    match random.below(4) {
        0 => drop(message.pop()),
        1 => message.extend(random.pick(&[b"PID".as_slice(), b"P", b"PID|1", b"pid"])),
        _ => {
            let wrong = random.pick(&wrong);
            message.splice(at..at, wrong.iter().copied());
        }
    }
}

/// Puts text in the place of a part of the first segment.
fn set_part(message: &mut Vec<u8>, part: usize, text: &[u8]) {
    let end = message.iter().position(|b| *b == b'\r').unwrap_or(message.len());
    let mut parts: Vec<Vec<u8>> = message[..end].split(|b| *b == b'|').map(<[u8]>::to_vec).collect();
    parts.resize(parts.len().max(part + 1), Vec::new());
    parts[part] = text.to_vec();
    message.splice(..end, parts.join(&b'|'));
}

/// A key near to a key of the book, but a space, a component or a missing value away from it.
fn other_key(random: &mut Random, message: &mut Vec<u8>) {
    let end = message.iter().position(|b| *b == b'\r').unwrap_or(message.len());
    let field = message[..end].split(|b| *b == b'|').nth(5).unwrap_or(b"").to_vec();
    let key = field.split(|b| b"^~".contains(b)).next().unwrap_or(b"").to_vec();
    let other = match random.below(6) {
        0 => Vec::new(),
        1 => [b"^".as_slice(), &key].concat(),
        2 => [b"~".as_slice(), &key].concat(),
        3 => [&key, b"&1".as_slice()].concat(),
        4 => [&key, b" ^x".as_slice()].concat(),
        _ => [b" ".as_slice(), &key].concat(),
    };
    set_part(message, 5, &other);
}

fn malformed(random: &mut Random, book: &mut Vec<u8>) {
    // Faults that come before the version, then those that come after it.
    match random.below(14) {
        0 => book.truncate(random.below(5)),
        1 => book[random.below(3)] ^= 0x20,
        2 => book.resize(BOOK_LIMIT + random.pick(&[1, 2, 900]), 0),
        3 => book.truncate(5),
        4 => book[5] = random.pick(&[0, 65, 255]),
        5 => book[5] += 1,
        6 => book[6] = random.pick(&[0, 21, 255]),
        7 => book[7] = random.letter(b" |^~\\&\x7F\0\x80\xFF"),
        8 => drop(book.pop()),
        9 => book.push(random.letter(b"\0\x01A")),
        10 => append_key_twice(book),
        11 => add_section(book, &[b"\0\x01\0".as_slice(), random.pick(&FAULTY_RULES).as_slice()].concat()),
        12 => {
            let set: [&[u8]; 7] = [
                b"\0\0",
                b"\0\x01\0",
                b"\0\x01\x15123456789012345678901",
                b"\0\x01\x02A ",
                b"\0\x01\x02A&",
                b"\0\x01\x02A",
                b"\x04\x01\x01A",
            ];
            add_section(book, &[b"\0\0\x01".as_slice(), random.pick(&set)].concat());
        }
        _ => add_section(book, random.pick(&[b"\0".as_slice(), b"\0\0", b"\x01\x01\0", b"\0\0\x41", b"\xFF\xFF\0"])),
    }
}

/// A further section under a key of its own, from its rule count on.
fn add_section(book: &mut Vec<u8>, rest: &[u8]) {
    book[5] += 1;
    book.extend(b"\x05OTHER");
    book.extend(rest);
}

fn append_key_twice(book: &mut Vec<u8>) {
    let key = book[6..7 + usize::from(book[6])].to_vec();
    book[5] += 1;
    book.extend(key);
    book.extend(b"\0\0\0");
}

/// Rules that a section without sets may not hold.
pub const FAULTY_RULES: [&[u8; 10]; 29] = [
    b"MSH\x02\0\x01W\0\0\0",
    b"MSH\x01\0\x01W\0\0\0",
    b"PID\0\0\x01E\0\0\0",
    b"PID\x64\0\x01E\0\0\0",
    b"PID\x01\x15\x01E\0\0\0",
    b"IN1\x01\0\x01E\0\0\0",
    b"pid\x01\0\x01E\0\0\0",
    b"PID\x01\0\0E\0\0\0",
    b"PID\x01\0\x07E\0\0\0",
    b"PID\x01\0\x08E\0\0\0",
    b"PID\x01\0\x01e\0\0\0",
    b"PID\x01\0\x01A\0\0\0",
    b"PID\x01\0\x01E\x01\0\0",
    b"PID\x01\0\x03E\0\x01\0",
    b"PID\x01\0\x04E\0\0\x01",
    b"PID\x01\0\x02E\x01\x01\x02",
    b"PID\x01\0\x02E\0\0\x02",
    b"PID\x01\0\x02E\0\x03\x02",
    b"PID\x01\0\x05E\0\x02\0",
    b"PID\x01\0\x05E\0\x05\0",
    b"PID\x01\0\x05E\0\x07\0",
    b"PID\x01\0\x05E\0\x10\0",
    b"PID\x01\0\x05E\0\x08\x01",
    b"PID\x01\0\x05E\x01\x08\0",
    b"PID\x01\0\x06E\0\0\0",
    b"PID\x01\0\x06E\x01\0\0",
    b"PID\x01\0\x06E\x03\0\0",
    b"PID\x01\0\x06E\x01\x01\0",
    b"PID\x01\0\x06E\x01\0\x01",
];
