//! Messages in parts: segments of parts between bars, so that single places can be changed.

use super::near;
use super::random::Random;
use crate::books::{RuleBytes, SectionPlan};
use crate::order::{Name, NAMES};

/// Part 0 of a segment is its name.
pub struct Draft {
    pub segments: Vec<Vec<Vec<u8>>>,
}

impl Draft {
    pub fn message(&self) -> Vec<u8> {
        let mut message = Vec::new();
        for segment in &self.segments {
            message.extend(segment.join(&b'|'));
            message.push(b'\r');
        }
        message
    }

    /// A field of the first MSH from 2 on.
    pub fn header(&mut self, field: usize) -> &mut Vec<u8> {
        place(&mut self.segments[0], field - 1)
    }
}

fn place(segment: &mut Vec<Vec<u8>>, part: usize) -> &mut Vec<u8> {
    if segment.len() <= part {
        segment.resize(part + 1, Vec::new());
    }
    &mut segment[part]
}

/// A sound message for a section, with values that its rules look at.
pub fn draft(random: &mut Random, section: &SectionPlan) -> Draft {
    let mut segments = Vec::new();
    for name in names(random) {
        segments.push(segment(random, name, section));
    }
    let mut draft = Draft { segments };
    header(random, &mut draft, &section.key);
    draft
}

/// MSH and a walk through the order that goes astray now and then.
fn names(random: &mut Random) -> Vec<&'static [u8]> {
    const OTHERS: [&[u8]; 9] = [b"SFT", b"IN1", b"ZSA", b"ZZZ", b"Z01", b"MSA", b"PD2", b"OBR", b"NK2"];
    let mut names: Vec<&[u8]> = vec![b"MSH"];
    let mut before = Name::Msh;
    let astray = random.pick(&[0, 0, 0, 1, 4]);
    for _ in 0..random.pick(&[0, 1, 2, 3, 4, 5, 6, 8, 10, 14]) {
        if random.one_in(8) {
            names.push(random.pick(&OTHERS));
            continue;
        }
        let followers: Vec<Name> = NAMES.into_iter().filter(|name| name.may_follow(before)).collect();
        let wanders = random.below(10) < astray;
        before = random.pick(if wanders { &NAMES } else { &followers });
        names.push(before.bytes());
    }
    // A message that stops where the end may follow is as likely as one that does not.
    if !before.may_end() && random.one_in(2) {
        names.push(if before == Name::Msh { b"PID" } else { b"RXA" });
    }
    names
}

fn segment(random: &mut Random, name: &[u8], section: &SectionPlan) -> Vec<Vec<u8>> {
    let shift = usize::from(name == b"MSH");
    let mut segment = vec![name.to_vec()];
    for _ in 0..random.below(5) {
        segment.push(match random.below(8) {
            0..4 => Vec::new(),
            4..7 => near::filler(random),
            // In a later MSH-2 these delimiters do not cut.
            _ => [near::filler(random), b"~x^".to_vec(), near::filler(random)].concat(),
        });
    }
    for rule in section.rules.iter().filter(|rule| rule[..3] == *name) {
        // An absent field is left absent now and then.
        if !random.one_in(5) {
            *place(&mut segment, usize::from(rule[3]) - shift) = field(random, rule, section);
        }
    }
    if random.one_in(8) {
        segment.push(Vec::new());
    }
    segment
}

fn field(random: &mut Random, rule: &RuleBytes, section: &SectionPlan) -> Vec<u8> {
    let count = random.pick(&[1, 1, 1, 1, 2, 3, 5, 11]);
    let repetitions: Vec<_> = (0..count).map(|_| repetition(random, rule, section)).collect();
    repetitions.join(&b'~')
}

fn repetition(random: &mut Random, rule: &RuleBytes, section: &SectionPlan) -> Vec<u8> {
    let mut components = Vec::new();
    for _ in 1..rule[4] {
        components.push(match random.below(8) {
            0 | 1 => near::filler(random),
            2 => near::quotes(random),
            _ => Vec::new(),
        });
    }
    // Sometimes the repetition stops before the rule's component.
    if rule[4] == 0 || !random.one_in(8) {
        components.push(near::value(random, rule, section));
    }
    if random.one_in(6) {
        components.push(near::filler(random));
    }
    components.join(&b'^')
}

/// Puts a header over the first MSH; sometimes one or more header findings.
fn header(random: &mut Random, draft: &mut Draft, key: &[u8]) {
    *draft.header(2) = b"^~\\&".to_vec();
    for field in [3, 4, 5] {
        if random.one_in(2) {
            *draft.header(field) = random.pick(&[b"CAB".as_slice(), b"C1^x&y~z", b"", b"REG", near::QUOTES]).to_vec();
        }
    }
    let rest = random.pick(&[b"".as_slice(), b"", b"", b"^1.2^ISO", b"~BX", b"^", b"~", b"^\"\""]);
    *draft.header(6) = [key, rest].concat();
    *draft.header(10) = control_id(random);
    let wrong = if random.one_in(6) { random.below(16) } else { 0 };
    set_header(random, draft, wrong);
}

/// Supported or, where its bit is set, unsupported values for findings 200 to 203.
pub fn set_header(random: &mut Random, draft: &mut Draft, wrong: usize) {
    let bit = |k: usize| wrong & (1 << k) != 0;
    let kind: &[&[u8]] =
        if bit(0) { &[b"ADT", b"", near::QUOTES, b"vxu", b"VXU&x", b"VX", b"VXUX", b"~VXU"] } else { &[b"VXU"] };
    let event: &[&[u8]] =
        if bit(1) { &[b"^A01", b"^", b"", b"^\"\"", b"^V04&", b"^v04", b"^^V04"] } else { &[b"^V04"] };
    let kind = random.pick(kind).to_vec();
    // A tilde would hide the event in the second repetition.
    let kind = if kind[..] == *b"~VXU" && !bit(1) { b"V".to_vec() } else { kind };
    let rest = random.pick(&[b"^VXU_V04".as_slice(), b"", b"~ADT^A01", b"^\"\""]);
    let event = random.pick(event);
    *draft.header(9) = if event.is_empty() { kind } else { [&kind, event, rest].concat() };
    let processing: &[&[u8]] = match bit(2) {
        true => &[b"X", b"", near::QUOTES, b"p", b"PT", b"P&", b"^P", b"~P"],
        false => &[b"P", b"T", b"D", b"P^T", b"T~X", b"D^\"\""],
    };
    *draft.header(11) = random.pick(processing).to_vec();
    let version: &[&[u8]] = match bit(3) {
        true => &[b"2.5", b"", near::QUOTES, b"2.5.1 ", b"2.5.10", b"2.3.1", b"^2.5.1"],
        false => &[b"2.5.1", b"2.5.1^USA", b"2.5.1~2.3", b"2.5.1~\"\""],
    };
    *draft.header(12) = random.pick(version).to_vec();
}

fn control_id(random: &mut Random) -> Vec<u8> {
    if random.one_in(16) {
        return random.pick(&[near::QUOTES, near::QUOTES, b"\"\"^x", b"~\"\""]).to_vec();
    }
    let length = random.pick(&[1, 2, 2, 8, 20, 198, 199]);
    random.text(b"M019~^& ", length)
}
