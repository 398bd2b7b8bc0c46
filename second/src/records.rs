//! Finding records (A2 of 02): what a caller may hold between grading a message and writing its ACK.

use crate::book::{Book, Severity};
use crate::cutting::Refusal;
use crate::findings::{self, Finding, Place};
use crate::order::NAMES;
use crate::refusals::Accepted;
use std::convert::Infallible;
use std::ops::ControlFlow::Continue;

/// As a C program has it: 16 bytes without padding.
#[repr(C)]
#[derive(Clone, Copy, Debug, Default, PartialEq, Eq)]
pub struct Record {
    /// The segment's number among those of its name.
    pub ordinal: u32,
    pub repetition: u32,
    pub rule: u16,
    pub code: u16,
    /// 1 to 10 as in `NAMES`, or 0 for none: the message's end.
    pub name: u8,
    pub field: u8,
    pub component: u8,
    /// The letter.
    pub severity: u8,
}

/// Numbers of segments and repetitions go so far.
pub const MOST: u32 = 32_768;

/// What is out of range where a point of `row_13` fails.
pub const POINTS: [&str; 9] =
    ["code", "severity", "severity other than E", "name", "number", "field", "repetition", "component", "rule"];

/// Whether a record is in range, point by point. Code 100 and the header codes have rules of their own; a code that there
/// is not is held to those of the others.
pub fn row_13(record: &Record) -> [bool; POINTS.len()] {
    let Record { ordinal, repetition, rule, code, name, field, component, severity } = *record;
    let order = code == 100;
    let header = matches!(code, 200..=203);
    let end = order && name == 0;
    [
        matches!(code, 100..=103 | 200..=203),
        Severity::of(severity).is_some(),
        !((order || header) && matches!(severity, b'W' | b'I')),
        end || (1..=10).contains(&name),
        if end { ordinal == 0 } else { (1..=MOST).contains(&ordinal) },
        if order { field == 0 } else { (1..=99).contains(&field) },
        if order { repetition == 0 } else { (1..=MOST).contains(&repetition) },
        if order { component == 0 } else { component <= 20 },
        if order || header { rule == 0 } else { (1..=256).contains(&rule) },
    ]
}

impl Record {
    pub fn is_in_range(&self) -> bool {
        !row_13(self).contains(&false)
    }

    /// What a record in range says.
    pub fn finding(&self) -> Option<Finding> {
        if !self.is_in_range() {
            return None;
        }
        let Record { ordinal: number, repetition, rule, code, name, field, component, severity } = *self;
        let place = match (usize::from(name).checked_sub(1), code) {
            (None, _) => Place::End,
            (Some(at), 100) => Place::Segment { name: NAMES[at], number },
            (Some(at), _) => Place::Value { name: NAMES[at], number, field, repetition, component },
        };
        Some(Finding { place, code: code as u8, severity: Severity::of(severity)?, rule })
    }
}

impl From<Finding> for Record {
    fn from(Finding { place, code, severity, rule }: Finding) -> Self {
        let found = Record { rule, code: code.into(), severity: severity.letter()[0], ..Record::default() };
        match place {
            Place::End => found,
            Place::Segment { name, number } => Record { ordinal: number, name: name as u8 + 1, ..found },
            Place::Value { name, number, field, repetition, component } => {
                Record { ordinal: number, repetition, name: name as u8 + 1, field, component, ..found }
            }
        }
    }
}

/// Number 0 and the number of findings, which then stand in the table's first records, or a refusal that leaves the table
/// as it is: 1 to 9, or 12 with the number needed.
pub fn grade(m: &[u8], book: &[u8], table: &mut [Record]) -> (u8, u64) {
    match write_records(m, book, table) {
        Ok(count) => (0, count),
        Err(refusal) => refusal,
    }
}

fn write_records(m: &[u8], book: &[u8], table: &mut [Record]) -> Result<u64, Refusal> {
    let Accepted { message, header, section } = Accepted::of(m, &Book::read(book))?;
    // Whether all of them have room is known at the end, so the table has to wait.
    let mut kept: Vec<Record> = Vec::new();
    let mut count = 0;
    let Continue(_) = findings::grade(message, &header, &section, |finding| {
        count += 1;
        if kept.len() < table.len() {
            kept.push(finding.into());
        }
        Continue::<Infallible>(())
    });
    if count > kept.len() as u64 {
        return Err((12, count));
    }
    table[..kept.len()].copy_from_slice(&kept);
    Ok(count)
}

#[cfg(test)]
mod tests {
    use super::*;
    use crate::order::Name;

    #[test]
    fn a_record_has_sixteen_bytes_and_no_padding() {
        let fields = [4, 4, 2, 2, 1, 1, 1, 1];
        assert_eq!((size_of::<Record>(), align_of::<Record>()), (fields.iter().sum(), 4));
    }

    #[test]
    fn a_finding_is_what_its_record_says() {
        for name in NAMES {
            for code in [100, 101, 102, 103, 200, 201, 202, 203] {
                let place = match code {
                    100 => Place::Segment { name, number: MOST },
                    _ => Place::Value { name, number: 1, field: 99, repetition: MOST, component: 20 },
                };
                let rule = if matches!(code, 101..=103) { 256 } else { 0 };
                let finding = Finding { place, code, severity: Severity::Error, rule };
                assert_eq!(Record::from(finding).finding(), Some(finding));
            }
        }
        let end = Finding { place: Place::End, code: 100, severity: Severity::Error, rule: 0 };
        let record = Record { code: 100, severity: b'E', ..Record::default() };
        assert_eq!((Record::from(end), record.finding()), (record, Some(end)));
        let place = Place::Value { name: Name::Rxa, number: 2, field: 5, repetition: 3, component: 0 };
        let found = Finding { place, code: 103, severity: Severity::Warning, rule: 7 };
        let numbered = Record { ordinal: 2, repetition: 3, rule: 7, code: 103, name: 7, field: 5, ..Record::default() };
        assert_eq!(Record::from(found), Record { severity: b'W', ..numbered });
    }

    #[test]
    fn a_code_takes_one_of_eight_numbers_and_a_severity_one_of_three() {
        let record =
            Record { ordinal: 1, repetition: 1, rule: 1, code: 101, name: 2, field: 3, component: 0, severity: b'E' };
        let in_range = |record: Record| record.is_in_range();
        let codes = (0..=u16::MAX).filter(|code| in_range(Record { code: *code, ..record }));
        assert_eq!(codes.collect::<Vec<_>>(), [101, 102, 103]);
        let codes = (0..=u16::MAX).filter(|code| in_range(Record { code: *code, rule: 0, ..record }));
        assert_eq!(codes.collect::<Vec<_>>(), [200, 201, 202, 203]);
        let order = Record { ordinal: 1, code: 100, name: 2, severity: b'E', ..Record::default() };
        for (record, letters) in
            [(record, b"EIW".as_slice()), (Record { code: 200, rule: 0, ..record }, b"E"), (order, b"E")]
        {
            let severities = (0..=u8::MAX).filter(|severity| in_range(Record { severity: *severity, ..record }));
            assert_eq!(severities.collect::<Vec<_>>(), letters);
        }
    }
}
