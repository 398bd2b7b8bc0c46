//! Values, words and stamps near both sides of their boundaries.

use super::random::Random;
use crate::books::{RuleBytes, SectionPlan};

const WORD: &[u8] = b"ABXYabxy019.-_!#}\"";
const FILLER: &[u8] = b"abcXYZ 019.&\\\"-+#!$'";
/// What is no value although it is not empty.
pub const QUOTES: &[u8] = b"\"\"";
/// February more often, since its last day depends on the year too.
const MONTHS: [&str; 14] = ["01", "02", "02", "02", "03", "04", "05", "06", "07", "08", "09", "10", "11", "12"];

/// A value for the rule's component, good, bad, empty or odd.
pub fn value(random: &mut Random, rule: &RuleBytes, section: &SectionPlan) -> Vec<u8> {
    let [.., kind, _, set, low, high] = *rule;
    match (random.below(16), kind) {
        (0, _) => Vec::new(),
        (1, _) => filler(random),
        (2 | 3, _) => quotes(random),
        (_, 2) => length(random, low, high),
        (_, 3) => number(random),
        (_, 4) => date(random),
        (_, 5) => time(random),
        (_, 6) => code(random, section.sets.get(usize::from(set).wrapping_sub(1))),
        _ if random.one_in(2) => Vec::new(),
        _ => filler(random),
    }
}

pub fn filler(random: &mut Random) -> Vec<u8> {
    let length = random.below(6);
    random.text(FILLER, length)
}

/// Two quotes, or an ordinary value near to them, at component 0 also one with another component.
pub fn quotes(random: &mut Random) -> Vec<u8> {
    let near: [&[u8]; 14] = [
        b"\"",
        b"\"\"\"",
        b"\"\"\"\"",
        b"\"\"x",
        b"x\"\"",
        b" \"\"",
        b"\"\" ",
        b"\" \"",
        b"\"\"&\"\"",
        b"&\"\"",
        b"\"x",
        b"''",
        b"\"\"^",
        b"\"\"^x",
    ];
    let value = if random.one_in(2) { QUOTES } else { random.pick(&near) };
    value.to_vec()
}

fn length(random: &mut Random, low: u8, high: u8) -> Vec<u8> {
    let (low, high) = (usize::from(low), usize::from(high));
    let length = random.pick(&[1, low.saturating_sub(1), low, low + 1, high.saturating_sub(1), high, high + 1, 300]);
    random.text(FILLER, length)
}

fn number(random: &mut Random) -> Vec<u8> {
    let near: [&[u8]; 16] = [
        b".5", b"5.", b"+", b"1.2.3", b"+.5", b"-5.", b"007", b".", b"+.", b" 5", b"5 ", b"1e5", b"1,5", b"-", b"+-1",
        b"1-",
    ];
    if random.one_in(2) {
        return random.pick(&near).to_vec();
    }
    let length = random.between(1, 6);
    random.text(b"0123456789.+-", length)
}

/// The pair, or now and then a pair that is worse.
fn pair(random: &mut Random, good: &[&'static str], bad: &[&'static str]) -> &'static str {
    if random.one_in(12) {
        random.pick(bad)
    } else {
        random.pick(good)
    }
}

fn digits_of_a_time(random: &mut Random) -> String {
    let year = pair(random, &["0001", "0004", "1900", "2000", "2023", "2024", "2400", "9999"], &["0000"]);
    let month = pair(random, &MONTHS, &["00", "13", "99"]);
    let day = pair(random, &["01", "28", "29", "30", "31", "32"], &["00", "99"]);
    let hour = pair(random, &["00", "09", "23"], &["24", "99"]);
    let minute = pair(random, &["00", "59"], &["60", "99"]);
    let second = pair(random, &["00", "59"], &["60", "61"]);
    [year, month, day, hour, minute, second].concat()
}

fn spoil(random: &mut Random, value: &mut Vec<u8>) {
    if random.one_in(10) && !value.is_empty() {
        let at = random.below(value.len());
        match random.below(3) {
            0 => value[at] = random.letter(b"0129 x./:-+"),
            1 => value.insert(at, random.letter(b"0129 x./:-+")),
            _ => drop(value.remove(at)),
        }
    }
}

fn date(random: &mut Random) -> Vec<u8> {
    let mut value = digits_of_a_time(random).into_bytes();
    let length = random.pick(&[8, 8, 8, 8, 8, 8, 7, 9, 6, 10, 4, 14]);
    value.truncate(length);
    spoil(random, &mut value);
    value
}

fn zone(random: &mut Random) -> String {
    let sign = random.pick(&["+", "-"]);
    let hour = pair(random, &["00", "05", "23"], &["24", "2", ""]);
    let minute = pair(random, &["00", "30", "59"], &["60", "6", ""]);
    [sign, hour, minute].concat()
}

fn time(random: &mut Random) -> Vec<u8> {
    let mut value = digits_of_a_time(random);
    let length = random.pick(&[4, 6, 8, 8, 10, 12, 14, 14, 14, 5, 7, 13]);
    value.truncate(length);
    let point = if length == 14 { random.one_in(2) } else { random.one_in(12) };
    if point {
        value += ".";
        let digits = random.pick(&[1, 2, 3, 4, 4, 0, 5]);
        value += &"1234567"[..digits];
    }
    if random.one_in(2) {
        value += &zone(random);
    }
    let mut value = value.into_bytes();
    spoil(random, &mut value);
    value
}

fn code(random: &mut Random, set: Option<&Vec<Vec<u8>>>) -> Vec<u8> {
    match set {
        Some(set) if !set.is_empty() => {
            let code = set[random.below(set.len())].clone();
            if random.one_in(2) {
                code
            } else {
                near_word(random, &code)
            }
        }
        _ => filler(random),
    }
}

/// A word that differs little from another one, or not at all.
pub fn near_word(random: &mut Random, word: &[u8]) -> Vec<u8> {
    let mut near = word.to_vec();
    match random.below(7) {
        0 => near.push(random.letter(WORD)),
        1 => drop(near.pop()),
        2 => near.insert(0, random.letter(WORD)),
        3 if !near.is_empty() => {
            let at = random.below(near.len());
            near[at] ^= if near[at].is_ascii_alphabetic() { 0x20 } else { 1 };
        }
        4 => near.push(b' '),
        5 => near.reverse(),
        _ => near.extend(word),
    }
    near
}

/// A key or a code that a book allows.
pub fn word(random: &mut Random) -> Vec<u8> {
    let length = random.pick(&[1, 1, 2, 2, 2, 3, 3, 4, 5, 6, 19, 20]);
    random.text(WORD, length)
}

/// The same, now and then two quotes.
pub fn word_or_quotes(random: &mut Random) -> Vec<u8> {
    if random.one_in(16) {
        QUOTES.to_vec()
    } else {
        word(random)
    }
}

/// Real in every year: the first day, and each month's last, of February the 28th.
const DAYS: [&str; 13] =
    ["0101", "0131", "0228", "0331", "0430", "0531", "0630", "0731", "0831", "0930", "1031", "1130", "1231"];
/// Real in no year: the day after each month's last.
const LATE_DAYS: [&str; 12] =
    ["0132", "0230", "0332", "0431", "0532", "0631", "0732", "0832", "0931", "1032", "1131", "1232"];

pub fn stamp(random: &mut Random) -> Vec<u8> {
    let year = random.pick(&["0001", "2024", "2025", "9999"]);
    let day = random.pick(&DAYS);
    let time = random.pick(&["000000", "235959", "120000"]);
    let zone = random.pick(&["+0000", "-0000", "+2359", "-0530"]);
    [year, day, time, zone].concat().into_bytes()
}

/// A stamp that is no good.
pub fn bad_stamp(random: &mut Random) -> Vec<u8> {
    let mut bad = stamp(random);
    let at = |pair: usize| pair * 2..pair * 2 + 2;
    match random.below(13) {
        0 => bad.clear(),
        1 => drop(bad.pop()),
        2 => bad.push(b'0'),
        3 => bad[..4].copy_from_slice(b"0000"),
        4 => bad[at(2)].copy_from_slice(random.pick(&[b"00", b"13"])),
        5 => bad[at(3)].copy_from_slice(random.pick(&[b"00", b"32"])),
        6 => bad[at(4)].copy_from_slice(b"24"),
        7 => bad[at(random.pick(&[5, 6]))].copy_from_slice(b"60"),
        8 => bad[14] = random.letter(b" .0\xFF"),
        9 => bad[15..17].copy_from_slice(b"24"),
        10 => bad[17..19].copy_from_slice(b"60"),
        11 => bad[4..8].copy_from_slice(random.pick(&LATE_DAYS).as_bytes()),
        _ => {
            let digits = [0, 3, 5, 7, 9, 11, 13, 15, 18];
            bad[random.pick(&digits)] = random.letter(b" +-.:x\0\xFF");
        }
    }
    bad
}
