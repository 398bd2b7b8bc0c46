//! Sections that are slightly other ones, with and without a difference that is told.

use super::{near, plans, Random};
use crate::books::{RuleBytes, SectionPlan};

/// What no message can tell: another order of sections, of sets or of codes, a code twice, a set that no rule uses.
pub fn quiet(random: &mut Random, sections: &[SectionPlan]) -> Vec<SectionPlan> {
    let mut sections = sections.to_vec();
    for _ in 0..random.between(1, 4) {
        let count = sections.len();
        let section = &mut sections[random.below(count)];
        match random.below(5) {
            0 => sections.rotate_left(random.below(count)),
            1 => section.sets.push(vec![near::word(random)]),
            2 => swap_sets(random, section),
            3 => with_set(random, section, |random, set| {
                let count = random.below(set.len());
                set.rotate_left(count);
            }),
            _ => with_set(random, section, |random, set| {
                let code = set[random.below(set.len())].clone();
                set.push(code);
            }),
        }
    }
    sections
}

/// The first set becomes another one, and its rules go with it.
fn swap_sets(random: &mut Random, section: &mut SectionPlan) {
    if section.sets.len() > 1 {
        let other = random.between(1, section.sets.len() - 1);
        section.sets.swap(0, other);
        let (first, other) = (1, other as u8 + 1);
        for [.., kind, _, set, _, _] in &mut section.rules {
            match *set {
                _ if *kind != 6 => {}
                number if number == first => *set = other,
                number if number == other => *set = first,
                _ => {}
            }
        }
    }
}

fn with_set(random: &mut Random, section: &mut SectionPlan, change: impl Fn(&mut Random, &mut Vec<Vec<u8>>)) {
    if !section.sets.is_empty() {
        let at = random.below(section.sets.len());
        change(random, &mut section.sets[at]);
    }
}

/// A few things are other ones.
pub fn varied(random: &mut Random, sections: &[SectionPlan]) -> Vec<SectionPlan> {
    let mut sections = sections.to_vec();
    for _ in 0..random.pick(&[1, 2, 4, 8]) {
        let count = sections.len();
        let at = random.below(count);
        match random.below(10) {
            0 => rekey(random, &mut sections, at),
            1 if count > 1 => drop(sections.remove(at)),
            2 => {
                let other = SectionPlan { key: Vec::new(), ..sections[at].clone() };
                sections.insert(at, other);
                rekey(random, &mut sections, at);
            }
            3 | 4 => with_set(random, &mut sections[at], change_codes),
            5 => sections = quiet(random, &sections),
            _ => change_rules(random, &mut sections[at]),
        }
    }
    sections
}

fn rekey(random: &mut Random, sections: &mut [SectionPlan], at: usize) {
    let key = near::word(random);
    if sections.iter().all(|section| section.key != key) {
        sections[at].key = key;
    } else {
        sections[at].key = format!("other-{}", sections.len()).into();
    }
}

fn change_codes(random: &mut Random, set: &mut Vec<Vec<u8>>) {
    let at = random.below(set.len());
    match random.below(3) {
        0 => set[at] = near::word(random),
        1 if set.len() > 1 => drop(set.remove(at)),
        _ => set.insert(at, near::word(random)),
    }
}

fn change_rules(random: &mut Random, section: &mut SectionPlan) {
    let sets = section.sets.len();
    let count = section.rules.len();
    if count == 0 || random.one_in(5) {
        let rule = plans::rule(random, sets);
        section.rules.insert(random.below(count + 1), rule);
        return;
    }
    let at = random.below(count);
    match random.below(6) {
        0 => drop(section.rules.remove(at)),
        1 => section.rules.swap(at, random.below(count)),
        2 => section.rules.insert(random.below(count + 1), section.rules[at]),
        3 => section.rules[at][6] = random.letter(b"EWI"),
        _ => rebound(random, &mut section.rules[at], sets),
    }
}

/// Another bound, if the kind has one.
fn rebound(random: &mut Random, rule: &mut RuleBytes, sets: usize) {
    let other = plans::rule_of_kind(random, rule[5], sets);
    rule[7..].copy_from_slice(&other[7..]);
}
