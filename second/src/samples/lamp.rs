//! What the lamp says (A8 of 02): yes or no, or one of refusals 1 to 10.

use super::{book_ax, case, lines, with_sets, HEADER, PLACES, STAMPS};
use crate::books::{self, rule, RuleBytes, SectionPlan};
use crate::cases::Case;
use crate::cutting::MESSAGE_LIMIT;

pub struct LampSample {
    pub name: String,
    pub case: Case,
    /// Number and detail.
    pub told: (u8, u64),
}

const YES: (u8, u64) = (0, 1);
const NO: (u8, u64) = (0, 0);

/// A PID that breaks none of the rules of `book`, one that breaks an informational one, and one that breaks another.
const CLEAN: &str = "PID|||1||ROE|||F\n";
const INFORMED: &str = "PID|||x||ROE|||F\n";
const BROKEN: &str = "PID|||1||ROE|||X\n";

pub fn samples() -> Vec<LampSample> {
    let mut all = severities();
    all.extend(kinds());
    all.extend(many_rules());
    all.extend(long_messages());
    all.extend(orders());
    all.extend(headers());
    all.extend(stamps());
    all.extend(message_refusals());
    all.extend(book_refusals());
    all.extend(delimiters());
    all.extend(quotes());
    all.extend(months());
    all.extend(outputs());
    for (sample, place) in all.iter_mut().zip(PLACES.into_iter().cycle()) {
        sample.case.place = place;
    }
    all
}

fn sample(name: &str, case: Case, told: (u8, u64)) -> LampSample {
    LampSample { name: format!("lamp: {name}"), case, told }
}

/// A whole message that is named by itself.
fn message(text: &str, book: Vec<u8>, told: (u8, u64)) -> LampSample {
    sample(&format!("{text:?}"), case(lines(text), book), told)
}

/// The worked example's header and further segments.
fn segments(text: &str, book: Vec<u8>, told: (u8, u64)) -> LampSample {
    message(&format!("{HEADER}{text}"), book, told)
}

fn with_codes(rules: &[RuleBytes], codes: &[&str]) -> Vec<u8> {
    books::encode(&[with_sets(rules.to_vec(), &[codes])])
}

/// PID-3 NUMBER I, PID-5 REQUIRED W, PID-8 CODE E with F and M, RXA-3 DATE I, OBX-1 NUMBER E, NTE-1 LENGTH 1 to 2 W.
fn book() -> Vec<u8> {
    let rules = [
        rule("PID", 3, 0, 3, b'I', [0, 0, 0]),
        rule("PID", 5, 0, 1, b'W', [0, 0, 0]),
        rule("PID", 8, 0, 6, b'E', [1, 0, 0]),
        rule("RXA", 3, 0, 4, b'I', [0, 0, 0]),
        rule("OBX", 1, 0, 3, b'E', [0, 0, 0]),
        rule("NTE", 1, 0, 2, b'W', [0, 1, 2]),
    ];
    with_codes(&rules, &["F", "M"])
}

fn severities() -> Vec<LampSample> {
    let rows: [(&str, (u8, u64)); 23] = [
        (CLEAN, YES),
        ("PID|||1||ROE|||\n", YES),
        ("PID|||1||ROE|||F\nORC\nRXA|||20240229\nOBX|1\nNTE|xy\n", YES),
        // I alone.
        (INFORMED, YES),
        ("PID|||x~1~y||ROE|||M\n", YES),
        ("PID|||1||ROE|||F\nORC\nRXA|||20230229\n", YES),
        ("PID|||x||ROE|||F\nORC\nRXA|||x~y\nOBX|1\nORC\nRXA|||z\n", YES),
        // W alone, E alone.
        ("PID|||1|||||F\n", NO),
        (BROKEN, NO),
        ("PID|||1||ROE|||F~M~X\n", NO),
        // In one segment: I then W, I then E, W then E, all three.
        ("PID|||x|||||F\n", NO),
        ("PID|||x||ROE|||X\n", NO),
        ("PID|||1|||||X\n", NO),
        ("PID|||x|||||X\n", NO),
        // W or E in the first PID, I later.
        ("PID|||1|||||F\nORC\nRXA|||x\n", NO),
        ("PID|||1||ROE|||X\nORC\nRXA|||x\n", NO),
        // The last segment: E, W, with I before it, and with one after it that is not counted.
        ("PID|||1||ROE|||F\nORC\nRXA|||20240229\nOBX|1\nOBX|x\n", NO),
        ("PID|||1||ROE|||F\nORC\nRXA|||20240229\nOBX|1\nNTE|xyz\n", NO),
        ("PID|||x||ROE|||F\nORC\nRXA|||x\nOBX|x\n", NO),
        ("PID|||x||ROE|||F\nORC\nRXA|||x\nOBX|1\nNTE|xyz\n", NO),
        ("PID|||1||ROE|||F\nORC\nRXA\nOBX|1~x\nZZZ|x\n", NO),
        // Segments that are not counted break nothing.
        ("ZZZ|x\nPID|||1||ROE|||F\nIN1|x\n", YES),
        ("SFT|x\nPID|||x||ROE|||F\nZZZ|x\n", YES),
    ];
    rows.map(|(text, told)| segments(text, book(), told)).into()
}

/// Each kind, kept and broken in each severity.
fn kinds() -> Vec<LampSample> {
    let rows: [(u8, [u8; 3], &str, &str); 6] = [
        (1, [0, 0, 0], "x", ""),
        (2, [0, 2, 3], "xy", "x"),
        (3, [0, 0, 0], "-.5", "1.2.3"),
        (4, [0, 0, 0], "20240229", "20230229"),
        (5, [0, 8, 0], "20240229120000.1234-0500", "202402"),
        (6, [1, 0, 0], "X", "x"),
    ];
    let mut all = Vec::new();
    for (kind, uses, kept, broken) in rows {
        for (severity, told) in [(b'E', NO), (b'W', NO), (b'I', YES)] {
            let book = with_codes(&[rule("PID", 3, 1, kind, severity, uses)], &["X"]);
            let named = |value: &str| format!("kind {kind} {} {value:?}", severity as char);
            let graded = |value: &str| case(lines(&format!("{HEADER}PID|||{value}^z\n")), book.clone());
            all.push(sample(&named(kept), graded(kept), YES));
            all.push(sample(&named(broken), graded(broken), told));
        }
    }
    all
}

/// Rules that are all broken up to the last one, and sections of which the message names one.
fn many_rules() -> Vec<LampSample> {
    let required = |severity| rule("PID", 3, 0, 1, severity, [0, 0, 0]);
    let informed = vec![required(b'I'); 255];
    let last = |severity| book_ax(&[informed.as_slice(), &[required(severity)]].concat());
    // The first rule's findings are all listed before the second one's.
    let by_number =
        |first, second| book_ax(&[rule("PID", 3, 0, 3, first, [0, 0, 0]), rule("PID", 3, 0, 2, second, [0, 1, 1])]);
    let values = "x~".repeat(100);
    let named =
        |name: &str, text: String, book, told| sample(name, case(lines(&format!("{HEADER}{text}")), book), told);
    let section = |key: &str, severity| SectionPlan::new(key).rule(required(severity));
    vec![
        named("256 I", "PID\n".into(), last(b'I'), YES),
        named("255 I, then W", "PID\n".into(), last(b'W'), NO),
        named("255 I, then E", "PID\n".into(), last(b'E'), NO),
        named("100 I, then W nowhere", format!("PID|||{values}y\n"), by_number(b'I', b'W'), YES),
        named("100 I, then W in the last repetition", format!("PID|||{values}yy\n"), by_number(b'I', b'W'), NO),
        named("W in each repetition", format!("PID|||{values}1\n"), by_number(b'W', b'I'), NO),
        named(
            "the other section's rule is broken",
            "PID\n".into(),
            books::encode(&[section("BX", b'E'), section("AX", b'I')]),
            YES,
        ),
        named(
            "its own section's rule is broken",
            "PID\n".into(),
            books::encode(&[section("BX", b'I'), section("AX", b'W')]),
            NO,
        ),
    ]
}

/// The worked example's header and segments, brought to a length before the last ones.
fn long(beginning: &str, end: &str, length: usize) -> String {
    let filler = length - HEADER.len() - beginning.len() - "ZZZ|\n".len() - end.len();
    format!("{HEADER}{beginning}ZZZ|{}\n{end}", "z".repeat(filler))
}

/// As long as messages may be.
fn long_messages() -> Vec<LampSample> {
    let longest = |beginning: &str, end: &str| long(beginning, end, MESSAGE_LIMIT);
    let informed = "ORC\nRXA|||x\n".repeat(200);
    let rows: [(&str, String, (u8, u64)); 5] = [
        ("32,768 bytes, clean", longest(CLEAN, "ORC\nRXA\nOBX|1\n"), YES),
        ("32,768 bytes, the last segment breaks a rule", longest(CLEAN, "ORC\nRXA\nOBX|x\n"), NO),
        ("32,768 bytes, the last segment breaks the order", longest(CLEAN, "RXA\n"), NO),
        ("32,768 bytes, the first segments break a rule", longest(BROKEN, "ORC\nRXA\nOBX|1\n"), NO),
        ("32,768 bytes with 200 I", longest(CLEAN, &informed), YES),
    ];
    rows.map(|(name, text, told)| sample(name, case(lines(&text), book()), told)).into()
}

/// By the order alone, and with I findings.
fn orders() -> Vec<LampSample> {
    let rows: [(&str, (u8, u64)); 19] = [
        ("PID\n", YES),
        ("PID\nPD1\nNK1\nNK1\nPV1\n", YES),
        ("PID\nORC\nRXA\n", YES),
        ("PID\nPD1\nNK1\nSFT\nPV1\nORC\nRXA\nRXR\nOBX\nNTE\nNTE\nOBX\nORC\nIN1\nRXA\nOBX\n", YES),
        ("ZZZ\nPID\nZZZ\n", YES),
        // At the end alone.
        ("", NO),
        ("ZZZ\n", NO),
        ("PID\nORC\n", NO),
        ("PID\nORC\nRXA\nORC\nZZZ\n", NO),
        ("PID|||x\nORC\n", NO),
        // Before the end.
        ("PID\nPID\n", NO),
        ("PID\nRXA\n", NO),
        ("PID\nORC\nORC\nRXA\n", NO),
        ("ORC\nRXA\n", NO),
        ("PID\nMSH\nPID\n", NO),
        ("PID\nNK1\nPD1\nORC\nRXA\n", NO),
        ("PID|||x\nRXA\nOBX\n", NO),
        // Both.
        ("PID\nRXA\nORC\n", NO),
        ("PID\nMSH\n", NO),
    ];
    let book = book_ax(&[rule("PID", 3, 0, 3, b'I', [0, 0, 0])]);
    rows.map(|(text, told)| segments(text, book.clone(), told)).into()
}

/// MSH-9, MSH-11 and MSH-12, each before a PID that is clean, that breaks a rule, and with the order broken.
fn headers() -> Vec<LampSample> {
    let rows: [(&str, &str, &str, bool); 16] = [
        ("VXU^V04", "P", "2.5.1", true),
        ("VXU^V04^VXU_V04", "T", "2.5.1^x", true),
        ("VXU^V04~ADT", "D~X", "2.5.1~2.3", true),
        ("ADT^V04", "P", "2.5.1", false),
        ("VXU^A01", "P", "2.5.1", false),
        ("VXU^V04", "X", "2.5.1", false),
        ("VXU^V04", "P", "2.5", false),
        ("VXU&x^V04", "P", "2.5.1", false),
        ("VXU", "P", "2.5.1", false),
        ("VXU^V04", "", "2.5.1", false),
        ("VXU^V04", "P", "", false),
        ("vxu^V04", "P", "2.5.1", false),
        ("VXU^V04", "p", "2.5.1", false),
        ("ADT^A01", "P", "2.5.1", false),
        ("VXU^V04", "X", "2.3.1", false),
        ("", "", "", false),
    ];
    let mut all = Vec::new();
    for (kind, processing, version, supported) in rows {
        let header = format!("MSH|^~\\&|CAB|C1|REG|AX|||{kind}|M1|{processing}|{version}\n");
        let said = if supported { YES } else { NO };
        for (rest, told) in [(CLEAN, said), (INFORMED, said), (BROKEN, NO), ("", NO)] {
            all.push(message(&format!("{header}{rest}"), book(), told));
        }
    }
    all
}

/// Good and bad stamps with a message that is clean, that breaks a rule, and that has a header finding.
fn stamps() -> Vec<LampSample> {
    let rejected = format!("{}{CLEAN}", HEADER.replace("VXU^", "ADT^"));
    let messages = [(format!("{HEADER}{CLEAN}"), YES), (format!("{HEADER}{BROKEN}"), NO), (rejected, NO)];
    let mut all = Vec::new();
    for (stamp, good) in STAMPS {
        for (text, told) in &messages {
            let case = Case { stamp: stamp.into(), ..case(lines(text), book()) };
            all.push(sample(&format!("stamp {stamp:?} and {text:?}"), case, if good { *told } else { (10, 0) }));
        }
    }
    all
}

/// Refusals 1 to 6, each also with a book and a stamp that are refused later. The header and its CR are 71 bytes.
fn message_refusals() -> Vec<LampSample> {
    let rows: [(String, (u8, u64)); 9] = [
        (String::new(), (1, 0)),
        (long(BROKEN, "", MESSAGE_LIMIT + 1), (2, 0)),
        (format!("{HEADER}PID\t\n"), (3, 74)),
        ("\0".into(), (3, 0)),
        (format!("{}{CLEAN}", HEADER.replace("|^~", "|^^")), (4, 0)),
        (format!("{HEADER}{CLEAN}").trim_end().into(), (5, 71)),
        (format!("{HEADER}{BROKEN}pid\n"), (5, 88)),
        (format!("{}{CLEAN}", HEADER.replace("|M1|", "||")), (6, 0)),
        (format!("{}{BROKEN}", HEADER.replace("|M1|", &format!("|{}|", "M".repeat(200)))), (6, 0)),
    ];
    let mut all = Vec::new();
    for (text, told) in rows {
        for (given, stamp) in
            [(book(), "20250113120000+0000"), (vec![], ""), (book(), "20250113120000"), (book_bx(), "")]
        {
            let case = Case { stamp: stamp.into(), ..case(lines(&text), given) };
            all.push(sample(
                &format!("refusal {} beside {} bytes of book and stamp {stamp:?}", told.0, case.book.len()),
                case,
                told,
            ));
        }
    }
    all
}

/// No section has the key AX.
fn book_bx() -> Vec<u8> {
    books::encode(&[SectionPlan::new("BX")])
}

/// Refusals 7 to 9, each also with a stamp that is refused later, and with a message that would get AA, AE or AR.
fn book_refusals() -> Vec<LampSample> {
    let version = |mut book: Vec<u8>| {
        book[4] = 2;
        book
    };
    let longer = |mut book: Vec<u8>| {
        book.push(0);
        book
    };
    let rows: [(&str, Vec<u8>, u8); 7] = [
        ("no book", vec![], 7),
        ("a byte after the book", longer(book()), 7),
        ("a byte after a book without the key", longer(book_bx()), 7),
        ("version 2", version(book()), 8),
        ("version 2 and a byte after the book", version(longer(book())), 8),
        ("version 2 without the key", version(book_bx()), 8),
        ("another key", book_bx(), 9),
    ];
    let mut all = Vec::new();
    for (name, given, number) in rows {
        for stamp in ["20250113120000+0000", "20250113120000+2400"] {
            for header in [HEADER.into(), HEADER.replace("VXU^", "ADT^")] {
                for rest in [CLEAN, BROKEN] {
                    let message = lines(&format!("{header}{rest}"));
                    let case = Case { stamp: stamp.into(), ..case(message, given.clone()) };
                    all.push(sample(&format!("{name} and stamp {stamp}: {header:?} {rest:?}"), case, (number, 0)));
                }
            }
        }
    }
    all
}

/// Messages with delimiters of their own.
fn delimiters() -> Vec<LampSample> {
    let rows: [(&str, (u8, u64)); 13] = [
        ("MSH|#~\\&|CAB|C1|REG|AX|||VXU#V04|M1|P|2.5.1\nPID|||1||ROE|||F\n", YES),
        ("MSH|#~\\&|CAB|C1|REG|AX|||VXU#V04|M1|P|2.5.1\nPID|||1^||ROE|||F\n", YES),
        ("MSH|#~\\&|CAB|C1|REG|AX|||VXU#V04|M1|P|2.5.1\nPID|||1||ROE|||F^\n", NO),
        ("MSH|#~\\&|CAB|C1|REG|AX|||VXU^V04|M1|P|2.5.1\nPID|||1||ROE|||F\n", NO),
        ("MSH!#$%'!CAB!C1!REG!AX!!!VXU#V04!M1!P!2.5.1\nPID!!!1!!ROE!!!F\n", YES),
        ("MSH!#$%'!CAB!C1!REG!AX!!!VXU#V04!M1!P!2.5.1\nPID!!!x$1!!ROE!!!F$M\n", YES),
        ("MSH!#$%'!CAB!C1!REG!AX!!!VXU#V04!M1!P!2.5.1\nPID!!!1!!!!!F\n", NO),
        ("MSH!#$%'!CAB!C1!REG!AX!!!VXU#V04!M1!P!2.5.1\nPID!!!1!!ROE!!!F~M\n", NO),
        ("MSH!#$%'!CAB!C1!REG!AX!!!VXU#V04!M1!P!2.5.1\nPID!!!1!!ROE!!!F\nORC\n", NO),
        ("MSH!#$%'!CAB!C1!REG!AX!!!VXU#V04!M1!P!2.5.1\nPID|||1||ROE|||F\n", (5, 44)),
        ("MSH|~^\\&|CAB|C1|REG|AX|||VXU~V04|M1|P|2.5.1\nPID|||1||ROE|||F^M\n", YES),
        ("MSH|~^\\&|CAB|C1|REG|AX|||VXU~V04|M1|P|2.5.1\nPID|||1||ROE|||F~M\n", NO),
        ("MSH|#~\\&|CAB|C1|REG|AX^|||VXU#V04|M1|P|2.5.1\nPID|||1||ROE|||F\n", (9, 0)),
    ];
    rows.map(|(text, told)| message(text, book(), told)).into()
}

/// Two quotes break REQUIRED and pass the other kinds; elsewhere they are what they were.
fn quotes() -> Vec<LampSample> {
    let required = |component, severity| book_ax(&[rule("PID", 3, component, 1, severity, [0, 0, 0])]);
    let date = || book_ax(&[rule("PID", 3, 1, 4, b'E', [0, 0, 0])]);
    let code = || with_codes(&[rule("PID", 3, 1, 6, b'W', [1, 0, 0])], &["X"]);
    let rows: [(&str, Vec<u8>, (u8, u64)); 15] = [
        ("PID|||\"\"\n", required(0, b'E'), NO),
        ("PID|||\"\"\n", required(1, b'W'), NO),
        ("PID|||\"\"\n", required(1, b'I'), YES),
        ("PID|||\"\"^x\n", required(0, b'E'), YES),
        ("PID|||\"\"^x\n", required(1, b'E'), NO),
        ("PID|||\"\"~x\n", required(0, b'E'), NO),
        ("PID|||x~\"\"\n", required(0, b'E'), YES),
        ("PID|||\"\n", required(0, b'E'), YES),
        ("PID|||\"\"\n", date(), YES),
        ("PID|||\"\"~20240229~\"\"\n", date(), YES),
        ("PID|||\"\"~20230229~\"\"\n", date(), NO),
        ("PID|||\"\"\"\n", date(), NO),
        ("PID|||\"\"^x\n", code(), YES),
        ("PID|||\"\"~X\n", code(), YES),
        ("PID|||X~\"\"~\"\n", code(), NO),
    ];
    let mut all: Vec<LampSample> = rows.map(|(text, book, told)| segments(text, book, told)).into();
    let header = "MSH|^~\\&|\"\"|\"\"|\"\"|\"\"|||VXU^V04|\"\"|P|2.5.1\nPID\n";
    all.push(message(header, books::encode(&[SectionPlan::new("\"\"")]), YES));
    all.push(message(header, book(), (9, 0)));
    all.push(message(&header.replace("|P|", "|\"\"|"), books::encode(&[SectionPlan::new("\"\"")]), NO));
    all
}

/// The last day of each month is taken, and the day after it is not: as a DATE, as a TIME, and in the stamp.
fn months() -> Vec<LampSample> {
    let rows: [(&str, &str); 15] = [
        ("20250131", "20250132"),
        ("20250228", "20250229"),
        ("20240229", "20240230"),
        ("19000228", "19000229"),
        ("20000229", "20000230"),
        ("20250331", "20250332"),
        ("20250430", "20250431"),
        ("20250531", "20250532"),
        ("20250630", "20250631"),
        ("20250731", "20250732"),
        ("20250831", "20250832"),
        ("20250930", "20250931"),
        ("20251031", "20251032"),
        ("20251130", "20251131"),
        ("20251231", "20251232"),
    ];
    let judged = book_ax(&[rule("PID", 3, 1, 4, b'E', [0, 0, 0]), rule("PID", 3, 2, 5, b'W', [0, 14, 0])]);
    let mut all = Vec::new();
    for (last, after) in rows {
        for (date, time, told) in [(last, last, YES), (after, last, NO), (last, after, NO)] {
            all.push(segments(&format!("PID|||{date}^{time}235959-0500\n"), judged.clone(), told));
        }
        for (day, told) in [(last, YES), (after, (10, 0))] {
            let stamp = format!("{day}235959-0500").into_bytes();
            let case = Case { stamp, ..case(lines(&format!("{HEADER}{CLEAN}")), book()) };
            all.push(sample(&format!("stamp of {day}"), case, told));
        }
    }
    all
}

/// Where the output is too short for an ACK, the lamp says the same as where it is not.
fn outputs() -> Vec<LampSample> {
    let rows = [(CLEAN, YES), (INFORMED, YES), (BROKEN, NO), ("PID|||1|||||F\n", NO), ("", NO)];
    rows.map(|(rest, told)| {
        let case = Case { output_length: 0, ..case(lines(&format!("{HEADER}{rest}")), book()) };
        sample(&format!("no output, {rest:?}"), case, told)
    })
    .into()
}

#[cfg(test)]
mod tests {
    use super::*;
    use crate::lamp::agrees;

    #[test]
    fn the_lamp_says_what_is_written_by_hand_and_goes_with_the_answer() {
        for LampSample { name, case, told } in samples() {
            assert_eq!(case.lamp(), told, "{name}");
            let mut out = vec![0; case.output_length];
            let answer = case.answer(&mut out);
            assert!(agrees(told, answer, &out), "{name}");
        }
    }
}
