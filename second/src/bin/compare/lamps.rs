//! What the lamp says of the messages among the cases, and by what.

use crate::coverage::{kind_index, Row, KINDS};
use second::book::{Rule, Severity};
use second::cutting::Message;
use second::findings::{Finding, Place};
use second::order::Name;

/// Why it says yes or no, as `reasons` has them.
const REASONS: [&str; 14] = [
    "yes without findings",
    "yes with I alone",
    "no by 200 alone",
    "no by 201 alone",
    "no by 202 alone",
    "no by 203 alone",
    "no by the order at the end alone",
    "no by the order before the end alone",
    "no by an E first, a W later",
    "no by a W first, an E later",
    "no by an E alone",
    "no by a W alone",
    "no with an I before the first E or W",
    "no by the last segment alone",
];

/// What decides about an answered message or one whose ACK is too long.
#[derive(Default)]
pub struct Decided {
    reasons: [bool; REASONS.len()],
    /// Kind and severity of the rule that the first finding of severity E or W is of.
    first: Option<(usize, usize)>,
}

impl Decided {
    /// By all findings in their order.
    pub fn of(message: Message, rules: &[Rule], findings: &[Finding]) -> Self {
        let grave: Vec<&Finding> = findings.iter().filter(|finding| finding.severity.is_grave()).collect();
        let broken = grave.first().filter(|finding| finding.rule != 0);
        let first = broken.map(|finding| (kind_index(rules[usize::from(finding.rule) - 1].kind), finding.severity));
        let first = first.map(|(kind, severity)| (kind, severity as usize));
        Decided { reasons: reasons(message, findings, &grave), first }
    }
}

/// Grave are the findings of severity E or W.
fn reasons(message: Message, findings: &[Finding], grave: &[&Finding]) -> [bool; REASONS.len()] {
    let codes: Vec<u8> = grave.iter().map(|finding| finding.code).collect();
    let severities: Vec<Severity> = grave.iter().map(|finding| finding.severity).collect();
    let (error, warning) = (Severity::Error, Severity::Warning);
    let is_order = codes == [100];
    let at_end = grave.last().is_some_and(|finding| finding.place == Place::End);
    // Of a rule, and not of the order or the header.
    let broken = grave.first().is_some_and(|finding| finding.rule != 0);
    let informed = findings.first().is_some_and(|finding| !finding.severity.is_grave());
    [
        findings.is_empty(),
        grave.is_empty() && informed,
        codes == [200],
        codes == [201],
        codes == [202],
        codes == [203],
        is_order && at_end,
        is_order && !at_end,
        broken && severities[0] == error && severities.contains(&warning),
        broken && severities[0] == warning && severities.contains(&error),
        broken && severities == [error],
        broken && severities == [warning],
        informed && !grave.is_empty(),
        broken && is_in_last_segment(message, grave),
    ]
}

/// Whether all of them are of rules on the last segment.
fn is_in_last_segment(message: Message, findings: &[&Finding]) -> bool {
    let names: Vec<&[u8]> = message.segments().map(|segment| message.name(segment)).collect();
    let last = names.last().copied().unwrap_or_default();
    let count = names.iter().filter(|name| **name == last).count() as u32;
    findings.iter().all(|finding| match finding.place {
        Place::Value { name, number, .. } => Name::of(last) == Some(name) && number == count,
        Place::Segment { .. } | Place::End => false,
    })
}

#[derive(Default)]
pub struct Lamps {
    /// Refusals 1 to 10.
    refusals: [u64; 10],
    /// No and yes where the answer is 11.
    too_short: [u64; 2],
    reasons: [u64; REASONS.len()],
    /// By kind, then by severity E and W.
    firsts: [[u64; 2]; KINDS.len()],
}

impl Lamps {
    /// What it says beside the number of the answer.
    pub fn count(&mut self, (number, detail): (u8, u64), answer: u8) {
        match number {
            0 if answer == 11 => self.too_short[detail as usize] += 1,
            0 => {}
            refusal => self.refusals[usize::from(refusal) - 1] += 1,
        }
    }

    pub fn count_decided(&mut self, decided: &Decided) {
        for (count, holds) in self.reasons.iter_mut().zip(decided.reasons) {
            *count += u64::from(holds);
        }
        if let Some((kind, severity)) = decided.first {
            self.firsts[kind][severity] += 1;
        }
    }

    pub fn rows(&self) -> Vec<Row> {
        let mut rows = Vec::new();
        let mut add = |label: String, count: u64| rows.push((format!("lamp: {label}"), count));
        for (number, count) in (1..).zip(self.refusals) {
            add(format!("refusal {number}"), count);
        }
        for (said, count) in ["no", "yes"].iter().zip(self.too_short) {
            add(format!("{said} where the answer is 11"), count);
        }
        for (reason, count) in REASONS.iter().zip(self.reasons) {
            add(reason.to_string(), count);
        }
        for ((_, kind), counts) in KINDS.iter().zip(self.firsts) {
            for (letter, count) in "EW".chars().zip(counts) {
                add(format!("no by {kind} {letter} first"), count);
            }
        }
        rows
    }
}

#[cfg(test)]
mod tests {
    use super::*;
    use crate::coverage::Hits;

    /// The kind and severity of the first finding of severity E or W.
    type First = Option<(&'static str, usize)>;

    fn decided(header: &str, segments: &str) -> (Vec<&'static str>, First) {
        // Section AX: PID-3 NUMBER I, PID-5 REQUIRED W, OBX-1 NUMBER E.
        let book = b"VXB\0\x01\x01\x02AX\0\x03\0PID\x03\0\x03I\0\0\0PID\x05\0\x01W\0\0\0OBX\x01\0\x03E\0\0\0";
        let message = format!("MSH|^~\\&|CAB|C1|REG|AX|||{header}\r{segments}");
        let Decided { reasons, first } = Hits::of(message.as_bytes(), book).unwrap_or_default().decided;
        let reasons = REASONS.into_iter().zip(reasons).filter(|(_, holds)| *holds).map(|(reason, _)| reason);
        (reasons.collect(), first.map(|(kind, severity)| (KINDS[kind].1, severity)))
    }

    #[test]
    fn what_decides() {
        let sound = "VXU^V04|M1|P|2.5.1";
        let warned = Some(("REQUIRED", 1));
        let erred = Some(("NUMBER", 0));
        let rows: [(&str, &str, &[&str], First); 10] = [
            (sound, "PID|||1||ROE\r", &["yes without findings"], None),
            (sound, "PID|||x||ROE\r", &["yes with I alone"], None),
            ("VXU^A01|M1|P|2.5.1", "PID|||x\r", &["no by 201 alone"], None),
            ("ADT^A01|M1|P|2.5.1", "PID|||1||ROE\r", &[], None),
            (sound, "PID|||1||ROE\rORC\r", &["no by the order at the end alone"], None),
            (
                sound,
                "PID|||x||ROE\rRXA\r",
                &["no by the order before the end alone", "no with an I before the first E or W"],
                None,
            ),
            (sound, "PID|||1\r", &["no by a W alone", "no by the last segment alone"], warned),
            (sound, "PID|||1\rORC\rRXA\rOBX|x\r", &["no by a W first, an E later"], warned),
            (
                sound,
                "PID|||1||ROE\rORC\rRXA\rOBX|1\rOBX|x\r",
                &["no by an E alone", "no by the last segment alone"],
                erred,
            ),
            (sound, "PID|||1||ROE\rORC\rRXA\rOBX|x\rPID|||1\r", &["no by an E first, a W later"], erred),
        ];
        for (header, segments, reasons, first) in rows {
            assert_eq!(decided(header, segments), (reasons.to_vec(), first), "{header} {segments:?}");
        }
    }
}
