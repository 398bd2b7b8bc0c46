//! Grading: header, order and rule findings in the order in which the ACK lists them.

use crate::book::{Kind, Rule, Section, Severity};
use crate::cutting::{Fields, Message, Part};
use crate::order::{Name, NAMES};
use std::ops::ControlFlow::{self, Continue};

#[derive(Clone, Copy, Debug, PartialEq, Eq)]
pub enum Place {
    End,
    Segment { name: Name, number: u32 },
    Value { name: Name, number: u32, field: u8, repetition: u32, component: u8 },
}

#[derive(Clone, Copy, Debug, PartialEq, Eq)]
pub struct Finding {
    pub place: Place,
    pub code: u8,
    pub severity: Severity,
    /// The rule's number, or 0 for header and order.
    pub rule: u16,
}

/// The text of ERR-3.
pub fn code_text(code: u8) -> &'static [u8] {
    match code {
        100 => b"Segment sequence error",
        101 => b"Required field missing",
        102 => b"Data type error",
        103 => b"Table value not found",
        200 => b"Unsupported message type",
        201 => b"Unsupported event code",
        202 => b"Unsupported processing id",
        _ => b"Unsupported version id",
    }
}

fn code_of(kind: Kind) -> u8 {
    match kind {
        Kind::Required => 101,
        Kind::Length { .. } | Kind::Number | Kind::Date | Kind::Time { .. } => 102,
        Kind::Code { .. } => 103,
    }
}

/// Gives `found` every finding in turn until it breaks off; says whether they are header findings.
pub fn grade<B>(
    message: Message,
    header: &Fields,
    section: &Section,
    mut found: impl FnMut(Finding) -> ControlFlow<B>,
) -> ControlFlow<B, bool> {
    let rejected = grade_header(message, header, &mut found)?;
    if !rejected {
        grade_segments(message, section, &mut found)?;
    }
    Continue(rejected)
}

fn grade_header<B>(
    message: Message,
    header: &Fields,
    found: &mut impl FnMut(Finding) -> ControlFlow<B>,
) -> ControlFlow<B, bool> {
    let checks: [(u8, u8, u8, &[&[u8]]); 4] =
        [(200, 9, 1, &[b"VXU"]), (201, 9, 2, &[b"V04"]), (202, 11, 1, &[b"P", b"T", b"D"]), (203, 12, 1, &[b"2.5.1"])];
    let mut any = false;
    for (code, field, component, supported) in checks {
        let value = first_value(message, header, field.into(), component.into());
        if !supported.contains(&value) {
            any = true;
            let place = Place::Value { name: Name::Msh, number: 1, field, repetition: 1, component };
            found(Finding { place, code, severity: Severity::Error, rule: 0 })?;
        }
    }
    Continue(any)
}

/// A component of a field's first repetition.
pub fn first_value<'m>(message: Message<'m>, fields: &Fields, field: usize, component: usize) -> &'m [u8] {
    let field = fields.field(field);
    let first = message.repetitions(field).next().unwrap_or(field);
    message.text(message.component(first, component))
}

fn grade_segments<B>(
    message: Message,
    section: &Section,
    found: &mut impl FnMut(Finding) -> ControlFlow<B>,
) -> ControlFlow<B> {
    let rules = RulesByName::new(section);
    let sets = section.sets();
    let mut fields = Fields::new();
    let mut numbers = [0u32; NAMES.len()];
    let mut before: Option<Name> = None;
    let counted = message.segments().filter_map(|segment| Some((segment, Name::of(message.name(segment))?)));
    for (segment, name) in counted {
        numbers[name as usize] += 1;
        let number = numbers[name as usize];
        if before.is_some_and(|before| !name.may_follow(before)) {
            found(order_finding(Place::Segment { name, number }))?;
        }
        before = Some(name);
        let rules = rules.of(name);
        if rules.is_empty() {
            continue;
        }
        fields.cut(message, segment);
        for &(rule_number, rule) in rules {
            let Rule { field, component, severity, kind, .. } = rule;
            for (repetition, part) in (1..).zip(judged(message, fields.field(field.into()), kind)) {
                let value = message.text(message.component(part, component.into()));
                if rule.broken(value, &sets) {
                    let place = Place::Value { name, number, field, repetition, component };
                    found(Finding { place, code: code_of(kind), severity, rule: rule_number })?;
                }
            }
        }
    }
    if before.is_some_and(|last| !last.may_end()) {
        found(order_finding(Place::End))?;
    }
    Continue(())
}

/// The repetitions that a kind looks at: REQUIRED at the first alone.
fn judged(message: Message<'_>, field: Part, kind: Kind) -> impl Iterator<Item = Part> + '_ {
    message.repetitions(field).take(if kind == Kind::Required { 1 } else { usize::MAX })
}

fn order_finding(place: Place) -> Finding {
    Finding { place, code: 100, severity: Severity::Error, rule: 0 }
}

/// A section's rules with their numbers, those of one name together, so that a segment meets only its own.
struct RulesByName {
    rules: Vec<(u16, Rule)>,
    starts: [usize; NAMES.len() + 1],
}

impl RulesByName {
    fn new(section: &Section) -> Self {
        let mut rules: Vec<(u16, Rule)> = (1..).zip(section.rules()).collect();
        // Stable, so numbers still rise within a name.
        rules.sort_by_key(|(_, rule)| rule.name as usize);
        let starts = std::array::from_fn(|name| rules.partition_point(|(_, rule)| (rule.name as usize) < name));
        RulesByName { rules, starts }
    }

    fn of(&self, name: Name) -> &[(u16, Rule)] {
        &self.rules[self.starts[name as usize]..self.starts[name as usize + 1]]
    }
}

#[cfg(test)]
mod tests {
    use super::*;
    use crate::book::Book;
    use std::ops::ControlFlow::Break;

    /// The codes of the findings up to the one that breaks off, and what grading says.
    fn codes_until(m: &[u8], last: usize) -> (Vec<u8>, ControlFlow<(), bool>) {
        // Section AX: PID-3 NUMBER I, then PID-5 REQUIRED E.
        let book = b"VXB\0\x01\x01\x02AX\0\x02\0PID\x03\0\x03I\0\0\0PID\x05\0\x01E\0\0\0";
        let message = Message::read(m).unwrap_or_else(|_| panic!("the message"));
        let book = Book::read(book).unwrap_or_else(|_| panic!("the book"));
        let section = book.section(b"AX").unwrap_or_else(|_| panic!("the section"));
        let mut codes = Vec::new();
        let graded = grade(message, &message.header(), &section, |finding| {
            codes.push(finding.code);
            if codes.len() < last {
                Continue(())
            } else {
                Break(())
            }
        });
        (codes, graded)
    }

    #[test]
    fn whoever_breaks_off_is_given_nothing_more() {
        let m = b"MSH|^~\\&|CAB|C1|REG|AX|||VXU^V04|M1|P|2.5.1\rPID|||x~y\rRXA\rORC\r";
        let all = [102, 102, 101, 100, 100];
        for last in 1..=all.len() {
            assert_eq!(codes_until(m, last), (all[..last].to_vec(), Break(())));
        }
        assert_eq!(codes_until(m, 6), (all.to_vec(), Continue(false)));
        let m = b"MSH|^~\\&|CAB|C1|REG|AX|||ADT^A01|M1|X|2.5\rPID|||x\r";
        let all = [200, 201, 202, 203];
        for last in 1..=all.len() {
            assert_eq!(codes_until(m, last), (all[..last].to_vec(), Break(())));
        }
        assert_eq!(codes_until(m, 5), (all.to_vec(), Continue(true)));
    }
}
