//! Statements about what a section has: sound ones.

use super::drafts::{rule_of_kind, severity, Statement, Word};
use super::state::{Ruled, State};
use crate::cases::{near, Random};

const KINDS: [&str; 6] = ["REQUIRED", "LENGTH", "NUMBER", "DATE", "TIME", "CODE"];

/// One change or a few that belong together; none where there is nothing to change.
pub fn changes(random: &mut Random, state: &State, sets: &[Word]) -> Vec<Statement> {
    if !state.rules.is_empty() && (sets.is_empty() || random.one_in(2)) {
        let ruled = state.rules[random.below(state.rules.len())].clone();
        of_rule(random, &ruled, sets)
    } else if sets.is_empty() {
        Vec::new()
    } else {
        let name = sets[random.below(sets.len())].clone();
        of_set(random, &name, state.codes(&name))
    }
}

fn of_rule(random: &mut Random, ruled: &Ruled, sets: &[Word]) -> Vec<Statement> {
    let rule = of_kind(random, ruled, sets);
    match random.below(7) {
        0 | 1 => vec![changed(&rule, "severity")],
        2 | 3 if rule.words.len() > 4 => vec![changed(&rule, "bound")],
        2 | 3 => vec![changed(&rule, "severity"), changed(&of_kind(random, ruled, sets), "severity")],
        4 | 5 => vec![further(&rule)],
        _ if random.one_in(3) => vec![changed(&rule, "drop"), rule],
        _ => vec![changed(&rule, "drop")],
    }
}

/// A rule of the same place and kind.
pub fn of_kind(random: &mut Random, ruled: &Ruled, sets: &[Word]) -> Statement {
    let kind = KINDS.iter().position(|name| name.as_bytes() == ruled.kind).map_or(1, |at| at as u8 + 1);
    let mut rule = rule_of_kind(random, kind, sets);
    rule.words[1] = ruled.place.clone();
    rule
}

/// The same as an `also`.
pub fn further(rule: &Statement) -> Statement {
    Statement::new([&[b"also".to_vec()], &rule.words[1..]].concat())
}

/// What a `severity`, `bound` or `drop` says with a rule's words.
pub fn changed(rule: &Statement, verb: &str) -> Statement {
    let mut words = rule.words.clone();
    words[0] = verb.into();
    match verb {
        "severity" => words.truncate(4),
        "bound" => drop(words.remove(3)),
        _ => words.truncate(3),
    }
    Statement::new(words)
}

fn of_set(random: &mut Random, name: &Word, codes: &[Word]) -> Vec<Statement> {
    let said = |verb: &str, codes: &[Word]| Statement::new([&[verb.into(), name.clone()], codes].concat());
    let count = random.between(1, 3);
    match random.below(6) {
        0..3 => {
            let mut new: Vec<Word> = (0..count).map(|_| near::word(random)).collect();
            if random.one_in(6) {
                new.push(new[0].clone());
            }
            vec![said("more", &new)]
        }
        3 | 4 if !codes.is_empty() => {
            let some: Vec<Word> = (0..count).map(|_| codes[random.below(codes.len())].clone()).collect();
            vec![said("less", &some)]
        }
        _ if !codes.is_empty() => {
            // All or one go, and one of them comes back, sometimes to go again.
            let back = [codes[random.below(codes.len())].clone()];
            let gone = if random.one_in(2) { codes } else { &back };
            let mut lines = vec![said("less", gone), said("more", &back)];
            if random.one_in(3) {
                lines.extend([said("less", &back), said("more", &[severity(random)])]);
            }
            lines
        }
        _ => Vec::new(),
    }
}
