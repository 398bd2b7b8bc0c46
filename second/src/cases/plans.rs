//! Sections and books with rules on every counted segment.

use super::near;
use super::random::Random;
use crate::books::{RuleBytes, SectionPlan};
use crate::order::NAMES;

/// Some sections and which of them the message is to name.
pub fn sections(random: &mut Random) -> (Vec<SectionPlan>, usize) {
    let key = match random.below(4) {
        0 => near::word_or_quotes(random),
        _ => random.pick(&[b"AX".as_slice(), b"ND0000", b"NJDOH", b"A", b"12345678901234567890"]).to_vec(),
    };
    let mut sections = vec![section(random, key.clone())];
    for _ in 0..random.pick(&[0, 0, 0, 1, 1, 2, 3]) {
        let other = near::near_word(random, &key);
        let allowed = (1..=20).contains(&other.len()) && !other.iter().any(|b| b" |^~\\&\x7F".contains(b));
        if allowed && sections.iter().all(|section| section.key != other) {
            let section = small_section(random, other);
            sections.push(section);
        }
    }
    let chosen = random.below(sections.len());
    sections.swap(0, chosen);
    (sections, chosen)
}

fn section(random: &mut Random, key: Vec<u8>) -> SectionPlan {
    let mut section = SectionPlan { key, ..SectionPlan::default() };
    for _ in 0..random.pick(&[0, 1, 1, 2, 3]) {
        let count = random.pick(&[1, 1, 2, 3, 6, 17, 18, 40]);
        let set = (0..count).map(|_| near::word_or_quotes(random)).collect();
        section.sets.push(set);
    }
    let count = random.pick(&[0, 1, 1, 2, 3, 4, 5, 6, 8, 12, 30]);
    section.rules = (0..count).map(|_| rule(random, section.sets.len())).collect();
    section
}

fn small_section(random: &mut Random, key: Vec<u8>) -> SectionPlan {
    let rules = (0..random.below(3)).map(|_| rule(random, 0)).collect();
    SectionPlan { key, rules, sets: Vec::new() }
}

/// A rule that a book with so many sets allows.
pub fn rule(random: &mut Random, sets: usize) -> RuleBytes {
    let kind = random.between(1, if sets == 0 { 5 } else { 6 }) as u8;
    rule_of_kind(random, kind, sets)
}

pub fn rule_of_kind(random: &mut Random, kind: u8, sets: usize) -> RuleBytes {
    let name = NAMES[random.below(NAMES.len())].bytes();
    // Few places, so that several rules meet in one.
    let field = match random.below(12) {
        0 => random.between(3, 99) as u8,
        1 => 99,
        _ => random.between(3, 7) as u8,
    };
    let field = if name != b"MSH" && random.one_in(4) { random.between(1, 2) as u8 } else { field };
    let component = random.pick(&[0, 0, 0, 1, 1, 1, 2, 3, 20]);
    let severity = random.letter(b"EWI");
    let [set, low, high] = match kind {
        2 => {
            let low: u8 = random.pick(&[1, 1, 2, 3, 9, 36, 255]);
            [0, low, low.saturating_add(random.pick(&[0, 0, 1, 3, 35, 255]))]
        }
        5 => [0, random.pick(&[4, 6, 8, 8, 10, 12, 14]), 0],
        6 => [random.between(1, sets) as u8, 0, 0],
        _ => [0, 0, 0],
    };
    [name[0], name[1], name[2], field, component, kind, severity, set, low, high]
}
