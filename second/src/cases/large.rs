//! Messages and books at their limits and one past them.

use super::near;
use super::plans;
use super::random::Random;
use crate::book::BOOK_LIMIT;
use crate::books::{self, RuleBytes, SectionPlan};
use crate::cutting::MESSAGE_LIMIT;
use crate::limits::HEADER;
use crate::order::NAMES;

/// A message near 32,768 bytes and the book for it; `heavy` ones have many rules too.
pub fn message(random: &mut Random, heavy: bool) -> (Vec<u8>, Vec<u8>) {
    let length = MESSAGE_LIMIT + random.pick(&[0, 0, 0, 0, 1]) - random.pick(&[0, 0, 0, 1, 3]);
    let name = NAMES[random.below(NAMES.len())].bytes();
    let mut section = SectionPlan::new("AX");
    section.sets = vec![(0..random.pick(&[1, 20, 1024])).map(|_| near::word_or_quotes(random)).collect()];
    let rules = if heavy { random.pick(&[64, 256]) } else { random.pick(&[0, 1, 2, 4]) };
    section.rules = (0..rules).map(|_| rule_on(random, name)).collect();
    let mut message = HEADER.to_vec();
    match random.below(4) {
        0 => many_segments(random, &mut message, name, length),
        1 => many_pieces(random, &mut message, name, b'~', length),
        2 => many_pieces(random, &mut message, name, b'^', length),
        _ => many_pieces(random, &mut message, name, b'|', length),
    }
    (message, books::encode(&[section]))
}

fn rule_on(random: &mut Random, name: &[u8]) -> RuleBytes {
    let mut rule = plans::rule(random, 1);
    rule[..3].copy_from_slice(name);
    rule[3] = 3;
    rule[4] = random.pick(&[0, 0, 1, 2]);
    rule
}

/// Segments of four bytes, the last one with what is left.
fn many_segments(random: &mut Random, message: &mut Vec<u8>, name: &[u8], length: usize) {
    let mixed = random.one_in(2);
    while message.len() + 8 <= length {
        let name = if mixed { NAMES[random.below(NAMES.len())].bytes() } else { name };
        message.extend(name);
        message.push(b'\r');
    }
    message.extend(name);
    message.push(b'|');
    message.resize(length - 1, b'~');
    message.push(b'\r');
}

/// One field of many repetitions or components, or many fields.
fn many_pieces(random: &mut Random, message: &mut Vec<u8>, name: &[u8], delimiter: u8, length: usize) {
    message.extend(name);
    // Field 3 of MSH is part 2, of others part 3.
    message.extend(if name == b"MSH" { b"|^~|".as_slice() } else { b"|||" });
    let pieces: [&[u8]; 7] = [b"", b"1", b"x", b"A", b"2024", b"20240229", near::QUOTES];
    let piece = random.pick(&pieces);
    let mixed = random.one_in(3);
    while message.len() + 10 <= length {
        message.extend(if mixed { random.pick(&pieces) } else { piece });
        message.push(delimiter);
    }
    message.resize(length - 1, b'1');
    message.push(b'\r');
}

/// A book at one of its limits or one past it; the section AX has the rules that were given.
pub fn book(random: &mut Random, rules: Vec<RuleBytes>) -> Vec<u8> {
    let past = random.below(2);
    let mut section = SectionPlan { rules, ..SectionPlan::new("AX") };
    match random.below(6) {
        0 => {
            let mut sections: Vec<SectionPlan> = (1..64 + past).map(|k| SectionPlan::new(&format!("AX{k}"))).collect();
            let at = random.below(sections.len() + 1);
            sections.insert(at, section);
            books::encode(&sections)
        }
        1 => {
            section.rules.extend((0..).map(|_| plans::rule(random, 0)).take(256 + past - section.rules.len()));
            books::encode(&[section])
        }
        2 => {
            let count = 64 + past;
            section.sets = (0..count).map(|_| vec![near::word(random)]).collect();
            let mut rule = plans::rule_of_kind(random, 6, count);
            rule[7] = random.pick(&[1, 63, 64, 65]);
            section.rules.push(rule);
            books::encode(&[section])
        }
        3 => {
            section.sets.push((0..1024 + past).map(|_| near::word(random)).collect());
            section.rules.push(plans::rule_of_kind(random, 6, 1));
            books::encode(&[section])
        }
        _ => {
            let mut book = books::encode_largest(vec![section]);
            if random.one_in(3) {
                book[4] = 2;
            }
            book.resize(BOOK_LIMIT + past, 0);
            book
        }
    }
}
