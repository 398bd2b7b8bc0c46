//! Grading now and writing later (A2 of 02): what is found in a message, what an ACK says of records, and messages with
//! more findings than the relay program has room for.

use super::{book_ax, case, lines, sample, worked_example, Sample, ACK_HEADER, HEADER, STAMP};
use crate::books::{self, rule, SectionPlan};
use crate::cases::{exchange, Case, WriteCase};
use crate::cutting::MESSAGE_LIMIT;
use crate::limits;
use crate::records::Record;

/// A message to be graded into a table of so many records.
pub struct GradeSample {
    pub name: String,
    pub message: Vec<u8>,
    pub book: Vec<u8>,
    pub lent: usize,
    /// Number and detail.
    pub told: (u8, u64),
    /// What stands in the table's first records afterwards.
    pub found: Vec<Record>,
}

/// Records to be written, and what the relay program would print of it.
pub struct WriteSample {
    pub name: String,
    pub case: WriteCase,
    pub expected: String,
}

/// The names in the order of their numbers from 1.
const NAMES: [&str; 10] = ["MSH", "PID", "PD1", "NK1", "PV1", "ORC", "RXA", "RXR", "OBX", "NTE"];

fn number_of(name: &str) -> u8 {
    NAMES.iter().position(|listed| *listed == name).map_or(0, |at| at as u8 + 1)
}

const END: Record =
    Record { ordinal: 0, repetition: 0, rule: 0, code: 100, name: 0, field: 0, component: 0, severity: b'E' };

/// A finding of the order.
fn order(name: &str, ordinal: u32) -> Record {
    Record { ordinal, name: number_of(name), ..END }
}

/// A finding of a rule, or with rule 0 of the header, at number, field, repetition and component of a segment.
fn found(code: u16, name: &str, [ordinal, field, repetition, component]: [u32; 4], severity: u8, rule: u16) -> Record {
    let (name, field, component) = (number_of(name), field as u8, component as u8);
    Record { ordinal, repetition, rule, code, name, field, component, severity }
}

/// The worked example's first finding.
fn broken_date() -> Record {
    found(102, "PID", [1, 7, 1, 1], b'E', 1)
}

/// What is found, by tables of just enough records, of more and of fewer.
fn tables(name: &str, message: &[u8], book: &[u8], found: &[Record]) -> Vec<GradeSample> {
    let count = found.len();
    let mut lent = vec![0, count / 2, count.saturating_sub(1), count, count + 1, count + 7];
    lent.dedup();
    let of = |lent: usize| GradeSample {
        name: format!("{name}, a table of {lent}"),
        message: message.to_vec(),
        book: book.to_vec(),
        lent,
        told: (if lent < count { 12 } else { 0 }, count as u64),
        found: if lent < count { Vec::new() } else { found.to_vec() },
    };
    lent.into_iter().map(of).collect()
}

/// Every sample of grading.
pub fn graded() -> Vec<GradeSample> {
    let Case { message, book, .. } = worked_example().case;
    let example = [broken_date(), found(101, "PID", [1, 8, 1, 0], b'W', 3)];
    let mut all = tables("worked example", &message, &book, &example);
    for five in [b"!#$%'", b"^|&~\\"] {
        let mut message = message.clone();
        exchange(&mut message, five);
        all.extend(tables(&format!("worked example, {}", five.escape_ascii()), &message, &book, &example));
    }
    all.extend(found_headers());
    all.extend(found_orders());
    all.extend(found_values());
    all.extend(found_much());
    all.extend(refused_gradings());
    all
}

fn found_headers() -> Vec<GradeSample> {
    let [type_, event, processing, version] = [(200, 9, 1), (201, 9, 2), (202, 11, 1), (203, 12, 1)]
        .map(|(code, field, component)| found(code, "MSH", [1, field, 1, component], b'E', 0));
    let rows: [(&str, &[Record]); 7] = [
        ("ADT^V04|M1|P|2.5.1", &[type_]),
        ("VXU^A01|M1|P|2.5.1", &[event]),
        ("VXU^V04|M1|X|2.5.1", &[processing]),
        ("VXU^V04|M1|P|2.5", &[version]),
        ("|M1|P|2.5.1", &[type_, event]),
        ("ADT^A01|M1||2.3.1", &[type_, event, processing, version]),
        ("VXU^V04^x~ADT|M1|T^x|2.5.1^x", &[]),
    ];
    // A rule on MSH and one on PID, which a header finding keeps from being listed, and an order finding likewise.
    let book = book_ax(&[rule("MSH", 3, 0, 3, b'W', [0, 0, 0]), rule("PID", 3, 0, 1, b'E', [0, 0, 0])]);
    let mut all = Vec::new();
    for (header, found_there) in rows {
        let message = format!("MSH|^~\\&|1|C1|REG|AX|||{header}\rPID\rPID\r");
        let others =
            [found(101, "PID", [1, 3, 1, 0], b'E', 2), order("PID", 2), found(101, "PID", [2, 3, 1, 0], b'E', 2)];
        let found_there = if found_there.is_empty() { &others } else { found_there };
        all.extend(tables(&format!("header {header}"), message.as_bytes(), &book, found_there));
    }
    all
}

fn found_orders() -> Vec<GradeSample> {
    let rows: [(&str, Vec<Record>); 7] = [
        ("PID\n", vec![]),
        ("", vec![END]),
        ("PID\nORC\n", vec![END]),
        ("PID\nORC\nORC\nRXA\n", vec![order("ORC", 2)]),
        ("PID\nMSH\nPID\nPID\n", vec![order("MSH", 2), order("PID", 3)]),
        ("ZZZ\nPID\nZZZ\n", vec![]),
        // Each name where it may not stand, and the end.
        (
            "PID\nNTE\nRXR\nMSH\nPV1\nNK1\nPD1\nRXA\nPID\nOBX\nORC\nORC\n",
            vec![
                order("NTE", 1),
                order("RXR", 1),
                order("MSH", 2),
                order("PV1", 1),
                order("NK1", 1),
                order("PD1", 1),
                order("RXA", 1),
                order("PID", 2),
                order("OBX", 1),
                order("ORC", 2),
                END,
            ],
        ),
    ];
    let rows = rows.iter().map(|(segments, found)| {
        tables(&format!("order {segments:?}"), &lines(&format!("{HEADER}{segments}")), &book_ax(&[]), found)
    });
    rows.flatten().collect()
}

fn found_values() -> Vec<GradeSample> {
    // NUMBER W on PID-3, component 20; CODE I on PID-3, whole; REQUIRED E on OBX-99; LENGTH 1 to 2 W on MSH-3.
    let rules = vec![
        rule("PID", 3, 20, 3, b'W', [0, 0, 0]),
        rule("PID", 3, 0, 6, b'I', [1, 0, 0]),
        rule("OBX", 99, 0, 1, b'E', [0, 0, 0]),
        rule("MSH", 3, 0, 2, b'W', [0, 1, 2]),
    ];
    let book = books::encode(&[super::with_sets(rules, &[&["7", "\"\""]])]);
    let carets = "^".repeat(19);
    let segments = format!("PID|||7~x~~{carets}y~\"\"\nORC\nRXA\nOBX\nOBX|{}\"\"\n", "|".repeat(98));
    let expected = [
        found(102, "MSH", [1, 3, 1, 0], b'W', 4),
        found(102, "PID", [1, 3, 4, 20], b'W', 1),
        found(103, "PID", [1, 3, 2, 0], b'I', 2),
        found(103, "PID", [1, 3, 4, 0], b'I', 2),
        found(101, "OBX", [1, 99, 1, 0], b'E', 3),
        found(101, "OBX", [2, 99, 1, 0], b'E', 3),
    ];
    tables("each kind of place", &lines(&format!("{HEADER}{segments}")), &book, &expected)
}

/// Rules, repetitions and segments with high numbers.
fn found_much() -> Vec<GradeSample> {
    let required = rule("PID", 3, 0, 1, b'I', [0, 0, 0]);
    let by_rule: Vec<Record> = (1..=256).map(|number| found(101, "PID", [1, 3, 1, 0], b'I', number)).collect();
    let message = lines(&format!("{HEADER}PID\n"));
    let mut all = tables("256 rules", &message, &book_ax(&[required; 256]), &by_rule);
    let (message, book) = limits::repetitions(16_000, 1);
    let by_repetition: Vec<Record> =
        (1..=16_000).map(|repetition| found(102, "PID", [1, 3, repetition, 0], b'E', 1)).collect();
    all.extend(tables("16,000 repetitions", &message, &book, &by_repetition));
    let (message, book) = limits::short_segments(MESSAGE_LIMIT, 1);
    let by_segment = (1..=8_180).flat_map(|number| {
        let of_order = (number > 1).then(|| order("PID", number));
        of_order.into_iter().chain([found(101, "PID", [number, 3, 1, 1], b'W', 1)])
    });
    all.extend(tables("8,180 segments", &message, &book, &by_segment.collect::<Vec<_>>()));
    all
}

/// Each refusal before 12, with a table of two records that stay as they are.
fn refused_gradings() -> Vec<GradeSample> {
    let sound = || lines(&format!("{HEADER}PID\nPID\n"));
    let with = |text: &str| lines(&format!("{HEADER}{text}"));
    let keyed = |key: &str| books::encode(&[SectionPlan::new(key)]);
    let no_id = || b"MSH|^~\\&|CAB|C1|REG|AX|||ADT^V04||P|2.5.1\r".to_vec();
    let refused = |name: &str, message, book, told| {
        let name = format!("refused by {name}");
        GradeSample { name, message, book, lent: 2, told, found: Vec::new() }
    };
    vec![
        refused("1", vec![], vec![], (1, 0)),
        refused("2", vec![b'\t'; MESSAGE_LIMIT + 1], keyed("AX"), (2, 0)),
        refused("3 before 5", with("PID|\t\n\n"), keyed("AX"), (3, 75)),
        refused("4", b"MSH|^~\\^|\r".to_vec(), keyed("AX"), (4, 0)),
        refused("5", with("PID\n\n"), keyed("AX"), (5, 75)),
        refused("6 before 7", no_id(), vec![], (6, 0)),
        refused("6", no_id(), keyed("AX"), (6, 0)),
        refused("7", sound(), vec![], (7, 0)),
        refused("8", sound(), b"VXB\0\x02".to_vec(), (8, 0)),
        refused("9", sound(), keyed("ax"), (9, 0)),
        refused("9 before a header finding", b"MSH|^~\\&||||A&X|||ADT|M1\r".to_vec(), keyed("A"), (9, 0)),
        refused("12", sound(), book_ax(&[rule("PID", 3, 0, 1, b'E', [0, 0, 0])]), (12, 3)),
    ]
}

/// Messages with about as many findings as the relay program lends records, and with more. Up to 8,192 findings nothing
/// is told that was not told before; that their ACK is too long is told after them.
pub fn relayed() -> Vec<Sample> {
    let bad_stamp = |case: Case| Case { stamp: b"20250113120000".to_vec(), ..case };
    let of = |count: usize, rules: usize| {
        let (message, book) = limits::repetitions(count, rules);
        case(message, book)
    };
    // Each repetition has its finding: ERR||PID^1^3^r|102^Data type error^HL70357|E|1^^L and CR.
    let digits = |number: usize| number.to_string().len();
    let each = |number: usize| "ERR||PID^1^3^|102^Data type error^HL70357|E|1^^L\r".len() + digits(number);
    let length = 92 + 10 + (1..=8_192).map(each).sum::<usize>();
    let mut other = of(8_193, 1);
    exchange(&mut other.message, b"!#$%'");
    let replaced = |case: &Case, from: &str, to: &str| {
        let text = String::from_utf8_lossy(&case.message).replacen(from, to, 1);
        Case { message: text.into_bytes(), ..case.clone() }
    };
    let unsupported = replaced(&of(8_193, 1), "VXU", "ADT");
    let rejected = ACK_HEADER.to_owned() + "MSA|AR|M1\nERR||MSH^1^9^1^1|200^Unsupported message type^HL70357|E|0^^L\n";
    let (message, segmented) = limits::short_segments(MESSAGE_LIMIT, 1);
    let segments = case(message, segmented);
    let informed = Case { book: book_ax(&[rule("PID", 3, 0, 3, b'I', [0, 0, 0])]), ..of(8_193, 1) };
    vec![
        sample("8,192 findings", of(8_192, 1), &format!("refused 11 {length}\n")),
        sample("8,192 findings, a bad stamp", bad_stamp(of(8_192, 1)), "refused 10 0\n"),
        sample("8,193 findings", of(8_193, 1), "refused 12 8193\n"),
        sample("8,193 findings, a bad stamp", bad_stamp(of(8_193, 1)), "refused 12 8193\n"),
        sample("8,193 findings, no output", Case { output_length: 0, ..of(8_193, 1) }, "refused 12 8193\n"),
        sample("8,193 findings, other delimiters", other, "refused 12 8193\n"),
        sample("8,194 findings by two rules", of(4_097, 2), "refused 12 8194\n"),
        // Each PID breaks the rule, and each but the first breaks the order.
        sample("8,180 segments", segments, "refused 12 16359\n"),
        sample("80,000 findings", of(16_000, 5), "refused 12 80000\n"),
        sample("4,096,000 findings", of(16_000, 256), "refused 12 4096000\n"),
        sample("8,193 informational findings", informed, "refused 12 8193\n"),
        sample("a header finding instead of 8,193 others", unsupported.clone(), &rejected),
        sample("a header finding, a bad stamp", bad_stamp(unsupported), "refused 10 0\n"),
        sample("no section instead of 8,193 findings", replaced(&of(8_193, 1), "|AX|", "|AY|"), "refused 9 0\n"),
    ]
}

/// Every sample of writing.
pub fn written() -> Vec<WriteSample> {
    let mut all = layouts();
    all.extend(verdicts());
    all.extend(within());
    all.extend(outside());
    all.extend(counts());
    all.extend(refused_writings());
    all.extend(other_messages());
    all
}

/// The worked example's header and a PID, with a table of which all records are counted.
fn writing(table: &[Record]) -> WriteCase {
    WriteCase {
        message: lines(&format!("{HEADER}PID\n")),
        table: table.to_vec(),
        count: table.len() as u32,
        stamp: STAMP.to_vec(),
        control: 7,
        output_length: 65_536,
    }
}

fn write_sample(name: &str, case: WriteCase, expected: &str) -> WriteSample {
    WriteSample { name: name.into(), case, expected: expected.into() }
}

/// What the ACK says after its own header.
fn said(name: &str, table: &[Record], expected: &str) -> WriteSample {
    write_sample(name, writing(table), &format!("{ACK_HEADER}{expected}"))
}

/// Each code and each form of a place, with its ERR.
const FOUND: [(Record, &str); 10] = {
    let at = Record { ordinal: 1, repetition: 1, name: 2, field: 7, component: 1, ..END };
    [
        (END, "ERR|||100^Segment sequence error^HL70357|E|0^^L\n"),
        (Record { ordinal: 2, name: 6, ..END }, "ERR||ORC^2|100^Segment sequence error^HL70357|E|0^^L\n"),
        (Record { code: 101, rule: 3, ..at }, "ERR||PID^1^7^1^1|101^Required field missing^HL70357|E|3^^L\n"),
        (Record { code: 102, rule: 256, ..at }, "ERR||PID^1^7^1^1|102^Data type error^HL70357|E|256^^L\n"),
        (
            Record { code: 103, rule: 10, component: 0, ..at },
            "ERR||PID^1^7^1|103^Table value not found^HL70357|E|10^^L\n",
        ),
        (
            Record { code: 103, rule: 1, component: 0, severity: b'I', ..at },
            "ERR||PID^1^7^1|103^Table value not found^HL70357|I|1^^L\n",
        ),
        (Record { code: 200, ..at }, "ERR||PID^1^7^1^1|200^Unsupported message type^HL70357|E|0^^L\n"),
        (Record { code: 201, name: 1, ..at }, "ERR||MSH^1^7^1^1|201^Unsupported event code^HL70357|E|0^^L\n"),
        (Record { code: 202, name: 10, ..at }, "ERR||NTE^1^7^1^1|202^Unsupported processing id^HL70357|E|0^^L\n"),
        (Record { code: 203, component: 0, ..at }, "ERR||PID^1^7^1|203^Unsupported version id^HL70357|E|0^^L\n"),
    ]
};

fn layouts() -> Vec<WriteSample> {
    let verdict = |record: &Record| match (record.code, record.severity) {
        (200.., _) => "MSA|AR|M1\n",
        (_, b'I') => "MSA|AA|M1\n",
        _ => "MSA|AE|M1\n",
    };
    let alone = |(record, err): &(Record, &str)| said(err, &[*record], &format!("{}{err}", verdict(record)));
    let mut all: Vec<WriteSample> = FOUND.iter().map(alone).collect();
    let example = worked_example();
    let table = [broken_date(), found(101, "PID", [1, 8, 1, 0], b'W', 3)];
    all.push(write_sample(
        "worked example",
        WriteCase { message: example.case.message, ..writing(&table) },
        &example.expected,
    ));
    // As they stand in the table, whatever grading would have listed first, also twice.
    for (name, order) in [("all in order", [0, 1, 2, 3, 4, 5]), ("all, the last first", [5, 4, 3, 2, 1, 0])] {
        let table = order.map(|at| FOUND[at].0);
        let errs: String = order.iter().map(|at| FOUND[*at].1).collect();
        all.push(said(name, &table, &format!("MSA|AE|M1\n{errs}")));
    }
    let twice = format!("MSA|AE|M1\n{0}{0}", FOUND[2].1);
    all.push(said("a record twice", &[FOUND[2].0; 2], &twice));
    for (name, number) in NAMES.iter().zip(1..) {
        let expected = format!("MSA|AE|M1\nERR||{name}^12|100^Segment sequence error^HL70357|E|0^^L\n");
        all.push(said(&format!("order at {name}"), &[Record { ordinal: 12, name: number, ..END }], &expected));
        let expected = format!("MSA|AE|M1\nERR||{name}^3^4^5^6|102^Data type error^HL70357|W|7^^L\n");
        all.push(said(&format!("value at {name}"), &[found(102, name, [3, 4, 5, 6], b'W', 7)], &expected));
    }
    all
}

/// MSA-1 comes from the records, and not from the message.
fn verdicts() -> Vec<WriteSample> {
    let [i, w, e] = [b'I', b'W', b'E'].map(|severity| {
        let err = format!("ERR||PID^1^3^1|102^Data type error^HL70357|{}|1^^L\n", severity as char);
        (found(102, "PID", [1, 3, 1, 0], severity, 1), err)
    });
    let [order, end, h200, h201, h202, h203] = [1, 0, 6, 7, 8, 9].map(|at| (FOUND[at].0, FOUND[at].1.to_string()));
    let rows = [
        ("AA", vec![]),
        ("AA", vec![&i]),
        ("AE", vec![&w]),
        ("AE", vec![&e]),
        ("AE", vec![&i, &w]),
        ("AE", vec![&w, &i]),
        ("AE", vec![&i, &i, &e]),
        ("AE", vec![&end]),
        ("AE", vec![&i, &order]),
        ("AR", vec![&h200]),
        ("AR", vec![&h201]),
        ("AR", vec![&h202]),
        ("AR", vec![&h203]),
        ("AR", vec![&h203, &h200]),
        ("AR", vec![&h200, &i]),
        ("AR", vec![&i, &h201]),
        ("AR", vec![&e, &w, &i, &h202]),
        ("AR", vec![&h203, &order, &end]),
    ];
    let mut all = Vec::new();
    for (verdict, found) in rows {
        let table: Vec<Record> = found.iter().map(|(record, _)| *record).collect();
        let errs: String = found.iter().map(|(_, err)| err.as_str()).collect();
        for (header, processing) in [("VXU^V04|M1|P|2.5.1", "P"), ("ADT^A01|M1|X|2.3", "X")] {
            let message = format!("MSH|^~\\&|CAB|C1|REG|AX|||{header}\r").into_bytes();
            let head = ACK_HEADER.replace("|7|P|", &format!("|7|{processing}|"));
            let case = WriteCase { message, ..writing(&table) };
            all.push(write_sample(&format!("{header}: {errs}"), case, &format!("{head}MSA|{verdict}|M1\n{errs}")));
        }
    }
    all
}

/// A record of a rule and one of the header, which differ in what their code asks of severity and rule.
fn rule_and_header() -> [Record; 2] {
    [found(102, "PID", [1, 3, 1, 1], b'W', 1), found(203, "PID", [1, 3, 1, 1], b'E', 0)]
}

/// Each field of a record at each of its bounds.
fn within() -> Vec<WriteSample> {
    let [rule, header] = rule_and_header();
    let rows = [
        (
            Record { ordinal: 32_768, repetition: 32_768, ..rule },
            "AE",
            "PID^32768^3^32768^1|102^Data type error^HL70357|W|1",
        ),
        (Record { field: 1, name: 1, ..rule }, "AE", "MSH^1^1^1^1|102^Data type error^HL70357|W|1"),
        (Record { field: 99, component: 20, ..rule }, "AE", "PID^1^99^1^20|102^Data type error^HL70357|W|1"),
        (Record { component: 0, rule: 256, ..rule }, "AE", "PID^1^3^1|102^Data type error^HL70357|W|256"),
        (Record { severity: b'I', name: 10, ..rule }, "AA", "NTE^1^3^1^1|102^Data type error^HL70357|I|1"),
        (
            Record { ordinal: 32_768, repetition: 32_768, ..header },
            "AR",
            "PID^32768^3^32768^1|203^Unsupported version id^HL70357|E|0",
        ),
        (Record { field: 1, name: 1, ..header }, "AR", "MSH^1^1^1^1|203^Unsupported version id^HL70357|E|0"),
        (
            Record { field: 99, component: 20, name: 10, ..header },
            "AR",
            "NTE^1^99^1^20|203^Unsupported version id^HL70357|E|0",
        ),
        (order("PID", 32_768), "AE", "PID^32768|100^Segment sequence error^HL70357|E|0"),
    ];
    let of = |(record, verdict, err)| said(err, &[record], &format!("MSA|{verdict}|M1\nERR||{err}^^L\n"));
    rows.map(of).into()
}

/// Each field of a record beyond each of its bounds.
fn outside() -> Vec<WriteSample> {
    let [rule, header] = rule_and_header();
    let segment = order("PID", 1);
    let mut bad: Vec<Record> = [rule, header].into_iter().flat_map(beyond).collect();
    bad.extend([0, 257, 65_535].map(|number| Record { rule: number, ..rule }));
    bad.extend([1, 256, 257].map(|rule| Record { rule, ..header }));
    bad.extend([b'W', b'I', b'e', 0].map(|severity| Record { severity, ..header }));
    for record in [segment, END] {
        bad.extend([b'W', b'I', b'e', 0].map(|severity| Record { severity, ..record }));
        bad.extend([1, 3, 99].map(|field| Record { field, ..record }));
        bad.extend([1, 32_768].map(|repetition| Record { repetition, ..record }));
        bad.extend([1, 20].map(|component| Record { component, ..record }));
        bad.extend([1, 256].map(|rule| Record { rule, ..record }));
    }
    bad.extend([0, 32_769, u32::MAX].map(|ordinal| Record { ordinal, ..segment }));
    bad.extend([0, 11, 255].map(|name| Record { name, ..segment }));
    bad.extend([1, 32_768].map(|ordinal| Record { ordinal, ..END }));
    bad.extend([1, 10].map(|name| Record { name, ..END }));
    let refused = |record: Record| write_sample(&format!("{record:?}"), writing(&[record]), REFUSED_13);
    bad.into_iter().map(refused).collect()
}

const REFUSED_13: &str = "refused 13 0\n";

/// What is out of range with a rule and with a header code alike: first by what both name, then by the code.
fn beyond(record: Record) -> [Record; 23] {
    [
        Record { name: 0, ..record },
        Record { name: 11, ..record },
        Record { name: 255, ..record },
        Record { ordinal: 0, ..record },
        Record { ordinal: 32_769, ..record },
        Record { ordinal: u32::MAX, ..record },
        Record { repetition: 0, ..record },
        Record { repetition: 32_769, ..record },
        Record { repetition: u32::MAX, ..record },
        Record { field: 0, ..record },
        Record { field: 100, ..record },
        Record { field: 255, ..record },
        Record { component: 21, ..record },
        Record { component: 255, ..record },
        Record { severity: b'F', ..record },
        Record { severity: b'w', ..record },
        Record { code: 0, ..record },
        Record { code: 99, ..record },
        Record { code: 100, ..record },
        Record { code: 104, ..record },
        Record { code: 199, ..record },
        Record { code: 204, ..record },
        Record { code: record.code + 256, ..record },
    ]
}

/// What the count says, and records that it leaves out.
fn counts() -> Vec<WriteSample> {
    let [(first, first_err), (second, second_err)] = [FOUND[5], FOUND[2]];
    let bad = Record { code: 204, ..first };
    let none = "MSA|AA|M1\n".to_string();
    let one = format!("MSA|AA|M1\n{first_err}");
    let both = format!("MSA|AE|M1\n{first_err}{second_err}");
    let ack = |said: &str| format!("{ACK_HEADER}{said}");
    let rows: [(&[Record], u32, String); 18] = [
        (&[], 0, ack(&none)),
        (&[], 1, REFUSED_13.into()),
        (&[], u32::MAX, REFUSED_13.into()),
        (&[first, second], 0, ack(&none)),
        (&[first, second], 1, ack(&one)),
        (&[first, second], 2, ack(&both)),
        (&[first, second], 3, REFUSED_13.into()),
        (&[first, second], 65_538, REFUSED_13.into()),
        (&[first, second], u32::MAX, REFUSED_13.into()),
        (&[bad], 0, ack(&none)),
        (&[first, bad], 1, ack(&one)),
        (&[first, bad], 2, REFUSED_13.into()),
        (&[bad, first], 1, REFUSED_13.into()),
        (&[first, second, bad], 2, ack(&both)),
        (&[first, bad, second], 3, REFUSED_13.into()),
        (&[first, second, bad], 3, REFUSED_13.into()),
        // A header code that is not counted makes no AR.
        (&[first, FOUND[6].0], 1, ack(&one)),
        (&[first, Record { name: 0, ..second }, FOUND[6].0], 1, ack(&one)),
    ];
    let rows = rows.iter().map(|(table, count, expected)| {
        let codes: Vec<u16> = table.iter().map(|record| record.code).collect();
        let case = WriteCase { count: *count, ..writing(table) };
        write_sample(&format!("{count} of {codes:?}"), case, expected)
    });
    rows.collect()
}

/// The order in which refusals are tried, and outputs.
fn refused_writings() -> Vec<WriteSample> {
    let good = || writing(&[broken_date()]);
    let bad = || writing(&[Record { rule: 0, ..broken_date() }]);
    let over = || WriteCase { count: 2, ..good() };
    let no_id = || b"MSH|^~\\&|CAB|C1|REG|AX|||VXU^V04||P|2.5.1\r".to_vec();
    let stamped = |stamp: &[u8], case: WriteCase| WriteCase { stamp: stamp.to_vec(), ..case };
    let lent = |output_length: usize, case: WriteCase| WriteCase { output_length, ..case };
    let sent = |message: &[u8], case: WriteCase| WriteCase { message: message.to_vec(), ..case };
    let ack = format!("{ACK_HEADER}MSA|AE|M1\nERR||PID^1^7^1^1|102^Data type error^HL70357|E|1^^L\n");
    // The ACK's three lines: 92 + 10 + 52.
    let rows: [(&str, WriteCase, &str); 22] = [
        ("1 before 13", sent(b"", bad()), "refused 1 0\n"),
        ("1 before a count over the table", sent(b"", over()), "refused 1 0\n"),
        ("2 before 13", sent(&[b'x'; MESSAGE_LIMIT + 1], bad()), "refused 2 0\n"),
        ("3 before 13", sent(b"MSH|^~\\&|\x7F\r", bad()), "refused 3 9\n"),
        ("4 before 13", sent(b"MSH|^~\\&\r", bad()), "refused 4 0\n"),
        ("5 before 13", sent(b"MSH|^~\\&|\rPI\r", bad()), "refused 5 10\n"),
        ("6 before 13", sent(&no_id(), bad()), "refused 6 0\n"),
        ("6 before a count over the table", sent(&no_id(), over()), "refused 6 0\n"),
        ("6 before 10", sent(&no_id(), stamped(b"", good())), "refused 6 0\n"),
        ("13 before 10", stamped(b"", bad()), REFUSED_13),
        ("a count over the table before 10", stamped(b"20250113120000", over()), REFUSED_13),
        ("13 before 11", lent(0, bad()), REFUSED_13),
        ("a count over the table before 11", lent(0, over()), REFUSED_13),
        ("13 before 10 and 11", stamped(b"", lent(0, bad())), REFUSED_13),
        ("10", stamped(b"20250229120000+0000", good()), "refused 10 0\n"),
        ("10 before 11", stamped(b"", lent(0, good())), "refused 10 0\n"),
        ("11 for no output", lent(0, good()), "refused 11 154\n"),
        ("11 for a byte too few", lent(153, good()), "refused 11 154\n"),
        ("just enough", lent(154, good()), &ack),
        ("a byte more", lent(155, good()), &ack),
        ("no records, just enough", lent(102, writing(&[])), &format!("{ACK_HEADER}MSA|AA|M1\n")),
        ("no records, a byte too few", lent(101, writing(&[])), "refused 11 102\n"),
    ];
    rows.into_iter().map(|(name, case, expected)| write_sample(name, case, expected)).collect()
}

/// Messages with other delimiters, other headers and no segment that a record names; control numbers; many records.
fn other_messages() -> Vec<WriteSample> {
    let record = found(103, "RXA", [5, 5, 2, 3], b'W', 12);
    let table = [record, order("NTE", 9), END];
    let sent = |message: &str, table: &[Record]| WriteCase { message: lines(message), ..writing(table) };
    let errs = "ERR||RXA^5^5^2^3|103^Table value not found^HL70357|W|12^^L\n\
                ERR||NTE^9|100^Segment sequence error^HL70357|E|0^^L\n\
                ERR|||100^Segment sequence error^HL70357|E|0^^L\n";
    let exchanged = "MSH!#$%'!CAB!C1!REG!AX!!!VXU#V04!M|1!P!2.5.1\n";
    let other = "MSH!#$%'!REG!AX!CAB!C1!20250113120000+0000!!ACK#V04#ACK!7!P!2.5.1!!!NE!NE!!!!!Z23#CDCPHINVS\n\
                 MSA!AE!M|1\n\
                 ERR!!RXA#5#5#2#3!103#Table value not found#HL70357!W!12##L\n\
                 ERR!!NTE#9!100#Segment sequence error#HL70357!E!0##L\n\
                 ERR!!!100#Segment sequence error#HL70357!E!0##L\n";
    let verdict = |code: &str, rest: &str| {
        let head = other.split_inclusive('\n').next().unwrap_or_default();
        format!("{head}MSA!{code}!M|1\n{rest}")
    };
    let unsupported = "ERR!!MSH#1#12#1!203#Unsupported version id#HL70357!E!0##L\n";
    let bare = "MSH|^~\\&|||||20250113120000+0000||ACK^V04^ACK|4294967295||2.5.1|||NE|NE|||||Z23^CDCPHINVS\n\
                MSA|AA|\"\"\n";
    let many = vec![FOUND[5].0; 9_000];
    let long = 92 + 10 + 9_000 * FOUND[5].1.len();
    vec![
        write_sample(
            "records of segments that are not there",
            sent(HEADER, &table),
            &format!("{ACK_HEADER}MSA|AE|M1\n{errs}"),
        ),
        write_sample("other delimiters", sent(exchanged, &table), other),
        write_sample("other delimiters, AA", sent(exchanged, &[]), &verdict("AA", "")),
        write_sample(
            "other delimiters, AR",
            sent(exchanged, &[found(203, "MSH", [1, 12, 1, 0], b'E', 0)]),
            &verdict("AR", unsupported),
        ),
        write_sample("a bare header", WriteCase { control: u32::MAX, ..sent("MSH|^~\\&||||||||\"\"\n", &[]) }, bare),
        write_sample("9,000 records", writing(&many), &format!("refused 11 {long}\n")),
    ]
}

#[cfg(test)]
mod tests {
    use super::*;
    use crate::cases::{filled_table, tables};

    #[test]
    fn every_sample_is_graded_as_written_by_hand() {
        for GradeSample { name, message, book, lent, told, found } in graded() {
            let before = filled_table(lent + 3);
            let mut table = before.clone();
            assert_eq!(crate::grade(&message, &book, &mut table[..lent]), told, "{name}");
            assert_eq!(table[..found.len()], found, "{name}");
            assert_eq!(table[found.len()..], before[found.len()..], "{name}");
            assert!(found.iter().all(Record::is_in_range), "{name}");
        }
    }

    #[test]
    fn every_sample_is_written_as_written_by_hand() {
        for WriteSample { name, case, expected } in written() {
            assert_eq!(String::from_utf8_lossy(&case.printed()), expected, "{name}");
            let mut out = vec![0xA5; 1_000];
            let length = case.output_length.min(out.len());
            let (number, _) = case.answer(&mut out[..length]);
            let after = if number == 0 { expected.len() } else { 0 };
            assert!(out[after..].iter().all(|b| *b == 0xA5), "{name}");
        }
    }

    #[test]
    fn grading_and_writing_equal_the_old_call_where_the_table_has_room() {
        for Sample { name, case, .. } in super::super::samples() {
            let mut expected = vec![0xA5; case.output_length];
            let told = case.answer(&mut expected);
            let needed = case.findings();
            for lent in tables(needed.unwrap_or(0), name.len()) {
                let mut out = vec![0xA5; case.output_length];
                let Case { message, book, stamp, control, .. } = &case;
                let relayed = crate::relay(message, book, stamp, *control, &mut filled_table(lent), &mut out);
                match needed {
                    Ok(needed) if needed > lent as u64 => assert_eq!(relayed, (12, needed), "{name}"),
                    _ => assert!((relayed, &out) == (told, &expected), "{name}"),
                }
            }
        }
    }
}
