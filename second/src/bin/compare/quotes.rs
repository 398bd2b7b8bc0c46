//! Two quotes, and ordinary values near to them, under each kind of rule; and two quotes where they are what they were.

use crate::coverage::{kind_index, Row, KINDS, USUAL};
use crate::judged;
use second::book::{Kind, Rule, Section, Set};
use second::cases::QUOTES;
use second::cutting::{Fields, Message, Part};
use second::findings::first_value;
use second::order::Name;
use std::collections::{HashMap, HashSet};

const COMPONENTS: [&str; 3] =
    ["component 0", "another component, alone in the repetition", "another component, beside others"];
const REPETITIONS: [&str; 4] = ["only repetition", "first repetition", "middle repetition", "last repetition"];
const NEAR: [&str; 4] = ["one quote", "two quotes and more", "more and two quotes", "two quotes and a component"];
const HEADER: [&str; 10] = [
    "as the key of a section",
    "as MSH-10",
    "copied from MSH-3",
    "copied from MSH-4",
    "copied from MSH-5",
    "copied from MSH-11",
    "and finding 200",
    "and finding 201",
    "and finding 202",
    "and finding 203",
];

/// Something that an answered message can have; numbers are places in the lists.
#[derive(Clone, Copy, PartialEq, Eq, Hash)]
pub enum Hit {
    /// Two quotes under a rule.
    Component {
        kind: usize,
        at: usize,
    },
    Repetition {
        kind: usize,
        at: usize,
    },
    Code {
        in_set: bool,
    },
    HeaderRule,
    OtherDelimiters,
    /// A value that is taken by REQUIRED or breaks a rule of another kind.
    Near {
        kind: usize,
        near: usize,
    },
    /// Two quotes in the first MSH.
    Header(usize),
}

impl Hit {
    fn all() -> Vec<Hit> {
        let mut all = Vec::new();
        for kind in 0..KINDS.len() {
            all.extend((0..COMPONENTS.len()).map(|at| Hit::Component { kind, at }));
            all.extend((0..REPETITIONS.len()).map(|at| Hit::Repetition { kind, at }));
            all.extend((0..NEAR.len()).map(|near| Hit::Near { kind, near }));
        }
        all.extend([Hit::Code { in_set: true }, Hit::Code { in_set: false }, Hit::HeaderRule, Hit::OtherDelimiters]);
        all.extend((0..HEADER.len()).map(Hit::Header));
        all
    }

    fn label(self) -> String {
        match self {
            Hit::Component { kind, at } => format!("two quotes under {}, {}", KINDS[kind].1, COMPONENTS[at]),
            Hit::Repetition { kind, at } => format!("two quotes under {}, {}", KINDS[kind].1, REPETITIONS[at]),
            Hit::Code { in_set: true } => "two quotes under CODE, in the set".into(),
            Hit::Code { in_set: false } => "two quotes under CODE, not in the set".into(),
            Hit::HeaderRule => "two quotes under a rule on MSH".into(),
            Hit::OtherDelimiters => "two quotes under a rule, other delimiters".into(),
            Hit::Near { kind: 0, near } => format!("{} taken by REQUIRED", NEAR[near]),
            Hit::Near { kind, near } => format!("{} broken under {}", NEAR[near], KINDS[kind].1),
            Hit::Header(at) => format!("two quotes {}", HEADER[at]),
        }
    }
}

#[derive(Default)]
pub struct Quotes {
    counts: HashMap<Hit, u64>,
    /// Refusal 9 where MSH-6.1 is two quotes.
    no_key: u64,
}

impl Quotes {
    pub fn count(&mut self, hits: &HashSet<Hit>) {
        for hit in hits {
            *self.counts.entry(*hit).or_default() += 1;
        }
    }

    pub fn count_no_key(&mut self, key: &[u8]) {
        self.no_key += u64::from(key == QUOTES);
    }

    pub fn rows(&self) -> Vec<Row> {
        let mut rows: Vec<Row> =
            Hit::all().iter().map(|hit| (hit.label(), self.counts.get(hit).copied().unwrap_or(0))).collect();
        rows.push(("refusal 9 for two quotes in MSH-6.1".into(), self.no_key));
        rows
    }
}

/// Those of an answered message, whose rules are judged if no header finding rejects it.
pub fn hits(message: Message, header: &Fields, section: &Section, rejected: bool) -> HashSet<Hit> {
    let mut hits = HashSet::new();
    add_header(&mut hits, message, header);
    if !rejected {
        let sets = section.sets();
        section.rules().for_each(|rule| add_judged(&mut hits, message, &rule, &sets));
    }
    hits
}

fn add_header(hits: &mut HashSet<Hit>, message: Message, header: &Fields) {
    let first = |(field, component)| first_value(message, header, field, component);
    let copied = [10, 3, 4, 5, 11].map(|field| message.text(header.field(field)));
    let checked = [(9, 1), (9, 2), (11, 1), (12, 1)].map(first);
    let texts = [first((6, 1))].into_iter().chain(copied).chain(checked);
    hits.extend(texts.enumerate().filter(|(_, text)| *text == QUOTES).map(|(at, _)| Hit::Header(at)));
}

fn add_judged(hits: &mut HashSet<Hit>, message: Message, rule: &Rule, sets: &[Set]) {
    let kind = kind_index(rule.kind);
    for repetitions in judged::fields(message, rule) {
        for (at, part) in repetitions.iter().enumerate() {
            let value = judged::value(message, rule, *part);
            if value == QUOTES {
                hits.insert(Hit::Repetition { kind, at: repetition_index(at, repetitions.len()) });
            }
            // REQUIRED looks at repetition 1 alone.
            match value {
                _ if at > 0 && rule.kind == Kind::Required => {}
                QUOTES => add_quotes(hits, message, rule, sets, *part),
                _ => add_near(hits, message, rule, sets, value),
            }
        }
    }
}

fn add_quotes(hits: &mut HashSet<Hit>, message: Message, rule: &Rule, sets: &[Set], repetition: Part) {
    let is_alone = message.text(repetition) == QUOTES;
    hits.insert(Hit::Component { kind: kind_index(rule.kind), at: component_index(rule.component, is_alone) });
    if let Kind::Code { set } = rule.kind {
        hits.insert(Hit::Code { in_set: sets[usize::from(set) - 1].holds(QUOTES) });
    }
    hits.extend((rule.name == Name::Msh).then_some(Hit::HeaderRule));
    hits.extend((message.beginning()[3..8] != *USUAL).then_some(Hit::OtherDelimiters));
}

fn add_near(hits: &mut HashSet<Hit>, message: Message, rule: &Rule, sets: &[Set], value: &[u8]) {
    let kind = kind_index(rule.kind);
    let near = near(value, rule.component, message.own.caret);
    if near.contains(&true) && rule.broken(value, sets) == (rule.kind != Kind::Required) {
        hits.extend((0..NEAR.len()).filter(|k| near[*k]).map(|near| Hit::Near { kind, near }));
    }
}

fn component_index(component: u8, is_alone: bool) -> usize {
    match (component, is_alone) {
        (0, _) => 0,
        (_, true) => 1,
        (_, false) => 2,
    }
}

fn repetition_index(at: usize, count: usize) -> usize {
    match (at, count) {
        (0, 1) => 0,
        (0, _) => 1,
        _ if at + 1 < count => 2,
        _ => 3,
    }
}

fn near(value: &[u8], component: u8, caret: u8) -> [bool; NEAR.len()] {
    let begins = value.starts_with(QUOTES);
    let is_cut = component == 0 && value.get(QUOTES.len()) == Some(&caret);
    [value == b"\"", begins, value.ends_with(QUOTES), begins && is_cut]
}

#[cfg(test)]
mod tests {
    use super::*;
    use crate::coverage::Hits;
    use second::cases::Generator;

    fn labels(message: &str) -> Vec<String> {
        // Section AX: PID-3.1 NUMBER, PID-3 CODE with set 1, which holds two quotes.
        let book = b"VXB\0\x01\x01\x02AX\0\x02\x01PID\x03\x01\x03E\0\0\0PID\x03\0\x06E\x01\0\0\0\x01\x02\"\"";
        let header = "MSH|^~\\&|CAB|\"\"|REG|AX|||VXU^V04|\"\"\"|P|2.5.1\r";
        let hits = Hits::of(format!("{header}{message}\r").as_bytes(), book).unwrap_or_default();
        let mut labels: Vec<String> = hits.quotes.into_iter().map(Hit::label).collect();
        labels.sort();
        labels
    }

    #[test]
    fn what_a_message_has() {
        assert_eq!(
            labels("PID|||x~\"\"^y"),
            [
                "two quotes and a component broken under CODE",
                "two quotes and more broken under CODE",
                "two quotes copied from MSH-4",
                "two quotes under NUMBER, another component, beside others",
                "two quotes under NUMBER, last repetition",
            ]
        );
        assert_eq!(
            labels("PID|||x~\"\"~\"\"\""),
            [
                "more and two quotes broken under CODE",
                "more and two quotes broken under NUMBER",
                "two quotes and more broken under CODE",
                "two quotes and more broken under NUMBER",
                "two quotes copied from MSH-4",
                "two quotes under CODE, component 0",
                "two quotes under CODE, in the set",
                "two quotes under CODE, middle repetition",
                "two quotes under NUMBER, another component, alone in the repetition",
                "two quotes under NUMBER, middle repetition",
            ]
        );
        assert_eq!(
            labels("PID|||\""),
            ["one quote broken under CODE", "one quote broken under NUMBER", "two quotes copied from MSH-4",]
        );
    }

    #[test]
    fn random_messages_have_all_of_it_often() {
        let generator = Generator::new(1);
        let mut quotes = Quotes::default();
        for index in generator.firsts()..generator.firsts() + 10_000 {
            let case = generator.case(index).0;
            if case.answer(&mut vec![0; case.output_length]).0 == 0 {
                quotes.count(&Hits::of(&case.message, &case.book).unwrap_or_default().quotes);
            }
        }
        for hit in Hit::all() {
            assert!(quotes.counts.get(&hit).is_some_and(|count| *count >= 5), "{}", hit.label());
        }
    }
}
