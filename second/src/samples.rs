//! The samples of 01, the boundaries of its refusals and the slips to shut out, as cases, and those of the requests
//! that have landed. What is to be said of them is written here by hand and not worked out by this program.

pub mod batches;
mod delimiters;
pub mod diffs;
pub mod lamp;
mod months;
mod quotes;
pub mod records;
pub mod sources;

use crate::book::BOOK_LIMIT;
use crate::books::{self, rule, RuleBytes, SectionPlan};
use crate::cases::Case;
use crate::cutting::MESSAGE_LIMIT;

pub struct Sample {
    pub name: String,
    pub case: Case,
    /// What has to be printed.
    pub expected: String,
    /// What stands at the case's place, where that is written by hand too.
    pub located: Option<String>,
}

pub const STAMP: &[u8] = b"20250113120000+0000";
const HEADER: &str = "MSH|^~\\&|CAB|C1|REG|AX|20250113115900+0000||VXU^V04^VXU_V04|M1|P|2.5.1\n";
const ACK_HEADER: &str =
    "MSH|^~\\&|REG|AX|CAB|C1|20250113120000+0000||ACK^V04^ACK|7|P|2.5.1|||NE|NE|||||Z23^CDCPHINVS\n";
/// Places that tell something of most messages: MSH-1, MSH-2, whole and cut fields, later repetitions, missing places.
pub const PLACES: [[u32; 4]; 11] = [
    [1, 1, 1, 0],
    [2, 3, 1, 1],
    [1, 2, 1, 1],
    [2, 3, 2, 0],
    [1, 10, 1, 0],
    [2, 3, 4, 1],
    [1, 9, 1, 2],
    [2, 0, 1, 1],
    [3, 1, 1, 0],
    [2, 5, 1, 2],
    [1, 12, 2, 1],
];
const END_FINDING: &str = "ERR|||100^Segment sequence error^HL70357|E|0^^L\n";

/// A message or an answer as printed here, with a line feed for each CR.
fn lines(text: &str) -> Vec<u8> {
    text.replace('\n', "\r").into_bytes()
}

fn book_ax(rules: &[RuleBytes]) -> Vec<u8> {
    let section = SectionPlan { rules: rules.to_vec(), ..SectionPlan::new("AX") };
    books::encode(&[section])
}

fn with_sets(rules: Vec<RuleBytes>, sets: &[&[&str]]) -> SectionPlan {
    let sets = sets.iter().map(|codes| codes.iter().map(|code| code.as_bytes().to_vec()).collect()).collect();
    SectionPlan { rules, sets, ..SectionPlan::new("AX") }
}

/// Control number 7, the stamp of the worked example, 65,536 bytes of output, and MSH-1.
pub fn case(message: Vec<u8>, book: Vec<u8>) -> Case {
    Case { message, book, stamp: STAMP.to_vec(), control: 7, output_length: 65_536, place: PLACES[0] }
}

fn sample(name: &str, case: Case, expected: &str) -> Sample {
    Sample { name: name.into(), case, expected: expected.into(), located: None }
}

/// The sample with a place and what stands there.
fn at(place: [u32; 4], text: &str, sample: Sample) -> Sample {
    Sample { case: Case { place, ..sample.case }, located: Some(text.into()), ..sample }
}

/// The worked example's header, further segments, and what the ACK says after its own header.
fn graded(name: &str, segments: &str, book: Vec<u8>, expected: &str) -> Sample {
    let message = lines(&format!("{HEADER}{segments}"));
    sample(name, case(message, book), &format!("{ACK_HEADER}{expected}"))
}

/// Every sample with an expectation by hand.
pub fn samples() -> Vec<Sample> {
    let mut all = vec![worked_example()];
    all.extend(values());
    all.extend(orders());
    all.extend(headers());
    all.extend(verdicts());
    all.extend(slips());
    all.extend(places());
    all.extend(message_refusals());
    all.extend(book_refusals());
    all.extend(stamps());
    all.extend(outputs());
    for (sample, place) in all.iter_mut().zip(PLACES.into_iter().cycle()) {
        sample.case.place = place;
    }
    all.extend(located());
    all.extend(delimiters::samples());
    all.extend(months::samples());
    all.extend(quotes::samples());
    all.extend(records::relayed());
    all
}

pub fn worked_example() -> Sample {
    let rules = [
        rule("PID", 7, 1, 4, b'E', [0, 0, 0]),
        rule("PID", 3, 1, 1, b'E', [0, 0, 0]),
        rule("PID", 8, 0, 1, b'W', [0, 0, 0]),
    ];
    graded(
        "worked example",
        "PID|1||77||ROE^ANN||20240230\n",
        book_ax(&rules),
        "MSA|AE|M1\n\
         ERR||PID^1^7^1^1|102^Data type error^HL70357|E|1^^L\n\
         ERR||PID^1^8^1|101^Required field missing^HL70357|W|3^^L\n",
    )
}

/// One value in PID-3.1 under one rule of kind 2 to 5.
fn values() -> Vec<Sample> {
    let date: &[(&str, bool)] = &[
        ("20240229", true),
        ("20000229", true),
        ("20230229", false),
        ("19000229", false),
        ("00000101", false),
        ("00010101", true),
        ("99991231", true),
        ("20240431", false),
        ("20241301", false),
        ("2024022", false),
        ("202402290", false),
    ];
    let number: &[(&str, bool)] =
        &[(".5", true), ("5.", true), ("+", false), ("1.2.3", false), ("-007", true), (".", false), ("1e5", false)];
    let time: &[(&str, bool)] = &[
        ("20240229120000.1234-0500", true),
        ("2024022", false),
        ("202402291260", false),
        ("20240229.1", false),
        ("20240229+2400", false),
        ("20240229+2359", true),
        ("20240229+2360", false),
        ("20240229", true),
        ("202402", false),
        ("2024022924", false),
        ("20240229235959", true),
        ("20240229120060", false),
        ("20240229120000.", false),
        ("20240229120000.12345", false),
    ];
    let bytes_36 = "123456789012345678901234567890123456";
    let bytes_37 = "1234567890123456789012345678901234567";
    let length: &[(&str, bool)] = &[(bytes_36, true), (bytes_37, false)];
    let kinds = [
        ("DATE", rule("PID", 3, 1, 4, b'E', [0, 0, 0]), date),
        ("NUMBER", rule("PID", 3, 1, 3, b'E', [0, 0, 0]), number),
        ("TIME low 8", rule("PID", 3, 1, 5, b'E', [0, 8, 0]), time),
        ("LENGTH 1 to 36", rule("PID", 3, 1, 2, b'E', [0, 1, 36]), length),
    ];
    let mut all = Vec::new();
    for (kind, rule, values) in kinds {
        for (value, taken) in values {
            let expected = match taken {
                true => "MSA|AA|M1\n",
                false => "MSA|AE|M1\nERR||PID^1^3^1^1|102^Data type error^HL70357|E|1^^L\n",
            };
            let segments = format!("PID|||{value}\n");
            all.push(graded(&format!("{kind}: {value}"), &segments, book_ax(&[rule]), expected));
        }
    }
    all
}

fn orders() -> Vec<Sample> {
    let end = format!("MSA|AE|M1\n{END_FINDING}");
    let broken = |place: &str| format!("MSA|AE|M1\nERR||{place}|100^Segment sequence error^HL70357|E|0^^L\n");
    let rows: [(&str, String); 7] = [
        ("PID\nORC\nORC\nRXA\n", broken("ORC^2")),
        ("PID\nORC\n", end.clone()),
        ("", end.clone()),
        ("ZZZ\nPID\n", "MSA|AA|M1\n".into()),
        ("PID\nRXA\nOBX\n", broken("RXA^1")),
        ("PID\nMSH\nPID\nPID\n", broken("MSH^2") + "ERR||PID^3|100^Segment sequence error^HL70357|E|0^^L\n"),
        ("PID|1\nPD1\nNK1\nNK1\nSFT\nPV1\nORC\nRXA\nRXR\nOBX\nNTE\nNTE\nOBX\nORC\nIN1\nRXA\n", "MSA|AA|M1\n".into()),
    ];
    let mut all: Vec<Sample> = rows
        .iter()
        .map(|(segments, expected)| graded(&format!("order: {segments:?}"), segments, book_ax(&[]), expected))
        .collect();
    all.push(sample(
        "001's VXU",
        case(books::message("001-vxu-1"), books::encode(&[SectionPlan::new("ND0000")])),
        "MSH|^~\\&||ND0000|PROVIDERX|04999|20250113120000+0000||ACK^V04^ACK|7|T|2.5.1|||NE|NE|||||Z23^CDCPHINVS\n\
         MSA|AE|2377656\n\
         ERR||RXA^1|100^Segment sequence error^HL70357|E|0^^L\n",
    ));
    all
}

fn headers() -> Vec<Sample> {
    let e200 = "ERR||MSH^1^9^1^1|200^Unsupported message type^HL70357|E|0^^L\n";
    let e201 = "ERR||MSH^1^9^1^2|201^Unsupported event code^HL70357|E|0^^L\n";
    let e202 = "ERR||MSH^1^11^1^1|202^Unsupported processing id^HL70357|E|0^^L\n";
    let e203 = "ERR||MSH^1^12^1^1|203^Unsupported version id^HL70357|E|0^^L\n";
    // The rule and the order are broken, and under AR neither is listed.
    let broken = ("", book_ax(&[rule("MSH", 99, 0, 1, b'E', [0, 0, 0])]));
    let good = ("PID\n", book_ax(&[]));
    let rows: [(&str, &str, &str, &[&str]); 22] = [
        ("ADT^A01", "P", "2.5.1", &[e200, e201]),
        ("", "P", "2.5.1", &[e200, e201]),
        ("VXU^V03^VXU_V04", "P", "2.5.1", &[e201]),
        ("ACK^V04", "P", "2.5.1", &[e200]),
        ("VXU&x^V04", "P", "2.5.1", &[e200]),
        ("VXU^V04", "X", "2.5.1", &[e202]),
        ("VXU^V04", "t", "2.5", &[e202, e203]),
        ("QBP^Q11", "", "", &[e200, e201, e202, e203]),
        // Each of P, T and D is supported, and later components and repetitions are not looked at.
        ("VXU^V04~ADT", "T", "2.5.1^x", &[]),
        ("VXU^V04~ADT", "D", "2.5.1^x", &[]),
        ("VXU^V04~ADT", "P^T", "2.5.1^x", &[]),
        ("VXU^V04~ADT", "P~X", "2.5.1^x", &[]),
        // Two quotes are compared like other text (A3 of 02).
        ("\"\"", "P", "2.5.1", &[e200, e201]),
        ("\"\"^V04", "P", "2.5.1", &[e200]),
        ("VXU^\"\"", "P", "2.5.1", &[e201]),
        ("\"\"^\"\"", "P", "2.5.1", &[e200, e201]),
        ("VXU^V04", "\"\"", "2.5.1", &[e202]),
        ("VXU^V04", "P", "\"\"", &[e203]),
        ("VXU\"\"^V04", "P\"\"", "2.5.1\"\"", &[e200, e202, e203]),
        ("\"\"", "\"\"", "\"\"", &[e200, e201, e202, e203]),
        ("VXU^V04^\"\"", "P^\"\"", "2.5.1^\"\"", &[]),
        ("VXU^V04~\"\"", "D~\"\"", "2.5.1~\"\"", &[]),
    ];
    let mut all = Vec::new();
    for (kind, processing, version, findings) in rows {
        let (verdict, (segments, book)) = if findings.is_empty() { ("AA", &good) } else { ("AR", &broken) };
        let message = format!("MSH|^~\\&|CAB|C1|REG|AX|||{kind}|M1|{processing}|{version}\n{segments}");
        let ack = format!(
            "MSH|^~\\&|REG|AX|CAB|C1|20250113120000+0000||ACK^V04^ACK|7|{processing}|2.5.1|||NE|NE|||||Z23^CDCPHINVS\n\
             MSA|{verdict}|M1\n{}",
            findings.concat()
        );
        all.push(sample(&format!("header: {message:?}"), case(lines(&message), book.clone()), &ack));
    }
    all
}

/// MSA-1 for the severities that are found.
fn verdicts() -> Vec<Sample> {
    let rows =
        [("", "AA"), ("I", "AA"), ("W", "AE"), ("E", "AE"), ("WI", "AE"), ("IE", "AE"), ("WE", "AE"), ("IWE", "AE")];
    let mut all = Vec::new();
    for (severities, verdict) in rows {
        let rules: Vec<RuleBytes> = severities.bytes().map(|s| rule("PID", 3, 0, 1, s, [0, 0, 0])).collect();
        let mut expected = format!("MSA|{verdict}|M1\n");
        for (number, severity) in (1..).zip(severities.chars()) {
            expected += &format!("ERR||PID^1^3^1|101^Required field missing^HL70357|{severity}|{number}^^L\n");
        }
        all.push(graded(&format!("severities {severities:?}"), "PID\n", book_ax(&rules), &expected));
    }
    all
}

/// One sample or more for each of the slips to shut out.
fn slips() -> Vec<Sample> {
    let key = |field: &str| {
        let message = format!("MSH|^~\\&|A^B&C|D~E|F|{field}|||VXU^V04|M1~M2^x|P|2.5.1\nPID\n");
        let ack = format!(
            "MSH|^~\\&|F|{field}|A^B&C|D~E|20250113120000+0000||ACK^V04^ACK|7|P|2.5.1|||NE|NE|||||Z23^CDCPHINVS\n\
             MSA|AA|M1~M2^x\n"
        );
        sample(&format!("slip: MSH-6 {field}"), case(lines(&message), book_ax(&[])), &ack)
    };
    let optional: Vec<RuleBytes> = [(2, [0, 5, 9]), (3, [0, 0, 0]), (4, [0, 0, 0]), (5, [0, 4, 0]), (6, [1, 0, 0])]
        .into_iter()
        .flat_map(|(kind, uses)| [2, 3, 9].map(|field| rule("PID", field, 1, kind, b'E', uses)))
        .collect();
    let optional = SectionPlan { rules: optional, sets: vec![vec![b"X".to_vec()]], ..SectionPlan::new("AX") };
    vec![
        graded(
            "slip: numbering MSH like other segments",
            "PID\n",
            book_ax(&[rule("MSH", 7, 1, 5, b'E', [0, 14, 0]), rule("MSH", 8, 1, 1, b'I', [0, 0, 0])]),
            "MSA|AA|M1\nERR||MSH^1^8^1^1|101^Required field missing^HL70357|I|2^^L\n",
        ),
        graded(
            "slip: ending a rule at its first bad repetition",
            "PID|||x~20240229~~y\n",
            book_ax(&[rule("PID", 3, 1, 4, b'W', [0, 0, 0])]),
            "MSA|AE|M1\n\
             ERR||PID^1^3^1^1|102^Data type error^HL70357|W|1^^L\n\
             ERR||PID^1^3^4^1|102^Data type error^HL70357|W|1^^L\n",
        ),
        graded(
            "slip: resetting ERR-2's number at each order group",
            "PID\nORC\nRXA\nOBX|1\nORC\nRXA\nOBX|1\nOBX|x\n",
            book_ax(&[rule("OBX", 1, 0, 3, b'E', [0, 0, 0]), rule("RXA", 1, 0, 1, b'I', [0, 0, 0])]),
            "MSA|AE|M1\n\
             ERR||RXA^1^1^1|101^Required field missing^HL70357|I|2^^L\n\
             ERR||RXA^2^1^1|101^Required field missing^HL70357|I|2^^L\n\
             ERR||OBX^3^1^1|102^Data type error^HL70357|E|1^^L\n",
        ),
        key("AX^1.2^ISO"),
        key("AX~BX"),
        graded("slip: judging absent optional fields", "PID|||^x~^y\n", books::encode(&[optional]), "MSA|AA|M1\n"),
    ]
}

/// Places: REQUIRED looks at repetition 1, values at their own component, later MSH at their own fields.
fn places() -> Vec<Sample> {
    let set = SectionPlan {
        rules: vec![rule("PID", 8, 0, 6, b'W', [2, 0, 0])],
        sets: vec![vec![b"X".to_vec()], vec![b"F".to_vec(), b"M".to_vec(), b"F".to_vec()]],
        ..SectionPlan::new("AX")
    };
    vec![
        graded(
            "REQUIRED in repetition 1 alone",
            "PID|||~x\n",
            book_ax(&[rule("PID", 3, 0, 1, b'W', [0, 0, 0])]),
            "MSA|AE|M1\nERR||PID^1^3^1|101^Required field missing^HL70357|W|1^^L\n",
        ),
        graded(
            "components are judged by themselves",
            "PID|||1^x~^y~2~3^z\n",
            book_ax(&[rule("PID", 3, 2, 3, b'I', [0, 0, 0])]),
            "MSA|AA|M1\n\
             ERR||PID^1^3^1^2|102^Data type error^HL70357|I|1^^L\n\
             ERR||PID^1^3^2^2|102^Data type error^HL70357|I|1^^L\n\
             ERR||PID^1^3^4^2|102^Data type error^HL70357|I|1^^L\n",
        ),
        graded(
            "CODE counts case and takes whole repetitions",
            "PID||||||||F~f~F^~M~X~F \n",
            books::encode(&[set]),
            "MSA|AE|M1\n\
             ERR||PID^1^8^2|103^Table value not found^HL70357|W|1^^L\n\
             ERR||PID^1^8^3|103^Table value not found^HL70357|W|1^^L\n\
             ERR||PID^1^8^5|103^Table value not found^HL70357|W|1^^L\n\
             ERR||PID^1^8^6|103^Table value not found^HL70357|W|1^^L\n",
        ),
        graded(
            "later MSH segments",
            "MSH\nMSH|x~y^z|q~1\n",
            book_ax(&[rule("MSH", 3, 0, 3, b'E', [0, 0, 0]), rule("MSH", 3, 0, 1, b'W', [0, 0, 0])]),
            "MSA|AE|M1\n\
             ERR||MSH^1^3^1|102^Data type error^HL70357|E|1^^L\n\
             ERR||MSH^2|100^Segment sequence error^HL70357|E|0^^L\n\
             ERR||MSH^2^3^1|101^Required field missing^HL70357|W|2^^L\n\
             ERR||MSH^3|100^Segment sequence error^HL70357|E|0^^L\n\
             ERR||MSH^3^3^1|102^Data type error^HL70357|E|1^^L\n\
             ERR|||100^Segment sequence error^HL70357|E|0^^L\n",
        ),
    ]
}

/// The header and its CR are 71 bytes, so the next segment starts at 71.
fn message_refusals() -> Vec<Sample> {
    let header = String::from_utf8(lines(HEADER)).unwrap_or_default();
    let long = |length: usize| {
        let mut message = format!("{header}PID\rZZZ|");
        message.extend(std::iter::repeat_n('x', length - message.len() - 1));
        message + "\r"
    };
    let control_id = |id: &str| format!("MSH|^~\\&|CAB|C1|REG|AX|||VXU^V04|{id}|P|2.5.1\rPID\r");
    let answered = |id: &str| format!("{ACK_HEADER}MSA|AA|{id}\n");
    let m199 = "M".repeat(199);
    let m200 = "M".repeat(200);
    let refused = |number: u8, detail: u64| format!("refused {number} {detail}\n");
    let rows: Vec<(&str, String, String)> = vec![
        ("empty message", String::new(), refused(1, 0)),
        ("one byte", "M".into(), refused(4, 0)),
        ("a lone CR", "\r".into(), refused(4, 0)),
        ("eight bytes", "MSH|^~\\&".into(), refused(4, 0)),
        ("nine bytes", "MSH|^~\\&|".into(), refused(5, 0)),
        ("nine bytes and a CR", "MSH|^~\\&|\r".into(), refused(6, 0)),
        ("001's RSP", "MSH||NDIIS".into(), refused(4, 0)),
        ("another escape character", "MSH|^~/&|CAB\r".into(), refused(6, 0)),
        ("CR in the first nine bytes", "MSH|^~\r\\&|".into(), refused(4, 0)),
        ("32,768 bytes", long(MESSAGE_LIMIT), answered("M1")),
        ("32,769 bytes", long(MESSAGE_LIMIT + 1), refused(2, 0)),
        ("32,769 bytes, the first foreign", format!("\n{}", long(MESSAGE_LIMIT)), refused(2, 0)),
        ("a foreign byte", format!("{header}PID\r\n"), refused(3, 75)),
        ("a foreign byte first", "\tMSH".into(), refused(3, 0)),
        ("0x1F", format!("{header}PID|\x1f\x7f\r"), refused(3, 75)),
        ("0x7F", format!("{header}PID|~ \x7f\r"), refused(3, 77)),
        ("no final CR", format!("{header}PID"), refused(5, 71)),
        ("no CR at all", header.trim_end().into(), refused(5, 0)),
        ("two CRs", format!("{header}PID\r\r"), refused(5, 75)),
        ("two CRs after the header", format!("{header}\rPID\r"), refused(5, 71)),
        ("lower-case name", format!("{header}pID\rPID"), refused(5, 71)),
        ("name begins with a digit", format!("{header}PID\r1ID\r"), refused(5, 75)),
        ("name of two bytes", format!("{header}PI|\r"), refused(5, 71)),
        ("name of four bytes", format!("{header}PIDX\r"), refused(5, 71)),
        ("name before a caret", format!("{header}PID^\r"), refused(5, 71)),
        ("name with digits", format!("{header}Z01\rPID\r"), answered("M1")),
        ("MSH-10 empty", control_id(""), refused(6, 0)),
        ("MSH-10 of 1 byte", control_id("~"), answered("~")),
        ("MSH-10 of 199 bytes", control_id(&m199), answered(&m199)),
        ("MSH-10 of 200 bytes", control_id(&m200), refused(6, 0)),
        ("MSH-10 of 200 bytes in two repetitions", control_id(&format!("~{m199}")), refused(6, 0)),
        ("MSH-10 of two quotes", control_id("\"\""), answered("\"\"")),
    ];
    rows.into_iter()
        .map(|(name, message, expected)| sample(name, case(message.into_bytes(), book_ax(&[])), &expected))
        .collect()
}

fn book_refusals() -> Vec<Sample> {
    let empty = book_ax(&[]);
    let long = |version: u8, length: usize| {
        let mut book = books::encode(&[SectionPlan::new("AX"), books::filler("F", BOOK_LIMIT - 12)]);
        book[4] = version;
        book.resize(length, 0);
        book
    };
    let changed = |position: usize, byte: u8| {
        let mut book = empty.clone();
        book[position] = byte;
        book
    };
    let sections = |keys: &[&str]| books::encode(&keys.iter().map(|key| SectionPlan::new(key)).collect::<Vec<_>>());
    let many = |count: usize| {
        let mut keys: Vec<String> = (1..count).map(|k| format!("K{k}")).collect();
        keys.push("AX".into());
        sections(&keys.iter().map(String::as_str).collect::<Vec<_>>())
    };
    let rules = |count: usize| book_ax(&vec![rule("PV1", 1, 0, 1, b'E', [0, 0, 0]); count]);
    let sets = |count: usize, codes: usize, length: usize| {
        let sets = vec![vec![vec![b'x'; length]; codes]; count];
        books::encode(&[SectionPlan { sets, ..SectionPlan::new("AX") }])
    };
    let one_rule = |bytes: RuleBytes| book_ax(&[bytes]);
    let rows: Vec<(&str, Vec<u8>, u8)> = vec![
        ("no book", vec![], 7),
        ("book of 4 bytes", b"VXB\0".to_vec(), 7),
        ("book of 5 bytes", b"VXB\0\x01".to_vec(), 7),
        ("book of 5 bytes, version 7", b"VXB\0\x07".to_vec(), 8),
        ("book of 65,536 bytes", long(1, BOOK_LIMIT), 0),
        ("book of 65,537 bytes", long(1, BOOK_LIMIT + 1), 7),
        ("book of 65,536 bytes, version 2", long(2, BOOK_LIMIT), 8),
        ("book of 65,537 bytes, version 2", long(2, BOOK_LIMIT + 1), 7),
        ("wrong mark", changed(2, b'C'), 7),
        ("wrong mark, version 0", b"VXC\0\0".to_vec(), 7),
        ("version 0", changed(4, 0), 8),
        ("version 2", changed(4, 2), 8),
        ("version 257", changed(3, 1), 8),
        ("no section", changed(5, 0), 7),
        ("64 sections", many(64), 0),
        ("65 sections", many(65), 7),
        ("two sections counted, one there", changed(5, 2), 7),
        ("a byte after the sections", [empty.as_slice(), b"\0"].concat(), 7),
        ("equal keys", sections(&["BX", "AX", "BX"]), 7),
        ("keys that differ in case", sections(&["ax", "AX", "A", "AXX"]), 0),
        ("no key AX", sections(&["ax", "A", "AXX"]), 9),
        ("key of 20 bytes", sections(&["AX", "12345678901234567890"]), 0),
        ("key of 21 bytes", sections(&["AX", "123456789012345678901"]), 7),
        ("key of 0 bytes", sections(&["AX", ""]), 7),
        ("key with a space", sections(&["AX", "A X"]), 7),
        ("key with an ampersand", sections(&["AX", "A&X"]), 7),
        ("256 rules", rules(256), 0),
        ("257 rules", rules(257), 7),
        ("64 sets", sets(64, 1, 1), 0),
        ("65 sets", sets(65, 1, 1), 7),
        ("a set of 1,024 codes", sets(1, 1_024, 1), 0),
        ("a set of 1,025 codes", sets(1, 1_025, 1), 7),
        ("a set without codes", sets(1, 0, 1), 7),
        ("a code of 20 bytes", sets(1, 1, 20), 0),
        ("a code of 21 bytes", sets(1, 1, 21), 7),
        ("a code of 0 bytes", sets(1, 1, 0), 7),
        ("field 99, component 20", one_rule(rule("PV1", 99, 20, 1, b'E', [0, 0, 0])), 0),
        ("field 100", one_rule(rule("PV1", 100, 0, 1, b'E', [0, 0, 0])), 7),
        ("field 0", one_rule(rule("PV1", 0, 0, 1, b'E', [0, 0, 0])), 7),
        ("component 21", one_rule(rule("PV1", 1, 21, 1, b'E', [0, 0, 0])), 7),
        ("MSH-2", one_rule(rule("MSH", 2, 0, 3, b'E', [0, 0, 0])), 7),
        ("a segment that is not counted", one_rule(rule("IN1", 1, 0, 1, b'E', [0, 0, 0])), 7),
        ("kind 0", one_rule(rule("PV1", 1, 0, 0, b'E', [0, 0, 0])), 7),
        ("kind 7", one_rule(rule("PV1", 1, 0, 7, b'E', [0, 0, 0])), 7),
        ("severity F", one_rule(rule("PV1", 1, 0, 1, b'F', [0, 0, 0])), 7),
        ("an unused byte", one_rule(rule("PV1", 1, 0, 4, b'E', [0, 0, 1])), 7),
        ("LENGTH 0 to 5", one_rule(rule("PV1", 1, 0, 2, b'E', [0, 0, 5])), 7),
        ("LENGTH 5 to 4", one_rule(rule("PV1", 1, 0, 2, b'E', [0, 5, 4])), 7),
        ("LENGTH 5 to 5", one_rule(rule("PV1", 1, 0, 2, b'E', [0, 5, 5])), 0),
        ("TIME of 7 digits", one_rule(rule("PV1", 1, 0, 5, b'E', [0, 7, 0])), 7),
        ("TIME of 16 digits", one_rule(rule("PV1", 1, 0, 5, b'E', [0, 16, 0])), 7),
        ("CODE without a set", one_rule(rule("PV1", 1, 0, 6, b'E', [1, 0, 0])), 7),
    ];
    rows.into_iter()
        .map(|(name, book, number)| match number {
            0 => graded(name, "PID\n", book, "MSA|AA|M1\n"),
            _ => sample(name, case(lines(&format!("{HEADER}PID\n")), book), &format!("refused {number} 0\n")),
        })
        .collect()
}

/// Stamps, and whether they are good.
const STAMPS: [(&str, bool); 24] = [
    ("20250113120000+0000", true),
    ("20250113120000-0000", true),
    ("00010101000000+0000", true),
    ("00000101000000+0000", false),
    ("99991231235959+2359", true),
    ("20251231235959+2400", false),
    ("20251231235959+2360", false),
    ("20251231240000+0000", false),
    ("20251231236000+0000", false),
    ("20251231235960+0000", false),
    ("20251301000000+0000", false),
    ("20250001000000+0000", false),
    ("20250100000000+0000", false),
    ("20250431000000+0000", false),
    ("20230229000000+0000", false),
    ("20240229000000+0000", true),
    ("20250113120000 0000", false),
    ("20250113120000.1234", false),
    ("2025011312000+00000", false),
    ("20250113120000+000", false),
    ("20250113120000+00000", false),
    ("20250113120000", false),
    ("", false),
    ("2025011312000x+0000", false),
];

fn stamps() -> Vec<Sample> {
    STAMPS.into_iter().map(|(stamp, good)| stamped(stamp, good)).collect()
}

/// A message that breaks nothing, with a stamp that is good or not.
fn stamped(stamp: &str, good: bool) -> Sample {
    let ack = ACK_HEADER.replace("20250113120000+0000", stamp) + "MSA|AA|M1\n";
    let case = Case { stamp: stamp.into(), ..case(lines(&format!("{HEADER}PID\n")), book_ax(&[])) };
    let expected = if good { &ack } else { "refused 10 0\n" };
    sample(&format!("stamp {stamp:?}"), case, expected)
}

fn outputs() -> Vec<Sample> {
    let Sample { case, expected, .. } = worked_example();
    // The worked example's four lines and their ends: 92 + 10 + 52 + 57.
    let length = 211;
    let lent = |output_length, expected: &str| {
        let case = Case { output_length, ..case.clone() };
        sample(&format!("output of {output_length} bytes"), case, expected)
    };
    let numbered = |control: u32| {
        let expected = expected.replacen("|7|", &format!("|{control}|"), 1);
        sample(&format!("control number {control}"), Case { control, ..case.clone() }, &expected)
    };
    vec![
        lent(length, &expected),
        lent(length + 1, &expected),
        lent(length - 1, "refused 11 211\n"),
        lent(0, "refused 11 211\n"),
        numbered(0),
        numbered(u32::MAX),
    ]
}

/// Every kind of place in one message, and MSH-1 of messages that are refused.
fn located() -> Vec<Sample> {
    let segments = "PID|1||77^A~88^B&C~^D|\nMSH\nMSH|x~y^z|q\n";
    let expected = format!(
        "MSA|AE|M1\n\
         ERR||MSH^2|100^Segment sequence error^HL70357|E|0^^L\n\
         ERR||MSH^3|100^Segment sequence error^HL70357|E|0^^L\n{END_FINDING}"
    );
    let rows: [([u32; 4], &str); 39] = [
        ([1, 1, 1, 0], "|"),
        ([1, 1, 1, 1], "|"),
        ([1, 1, 1, 2], ""),
        ([1, 1, 2, 0], ""),
        ([1, 2, 1, 0], "^~\\&"),
        ([1, 2, 1, 1], "^~\\&"),
        ([1, 2, 1, 2], ""),
        ([1, 2, 2, 0], ""),
        ([1, 3, 1, 1], "CAB"),
        ([1, 8, 1, 0], ""),
        ([1, 9, 1, 0], "VXU^V04^VXU_V04"),
        ([1, 10, 1, 1], "M1"),
        ([1, 12, 1, 0], "2.5.1"),
        ([1, 13, 1, 0], ""),
        ([2, 1, 1, 1], "1"),
        ([2, 3, 1, 0], "77^A"),
        ([2, 3, 2, 1], "88"),
        ([2, 3, 2, 2], "B&C"),
        ([2, 3, 3, 1], ""),
        ([2, 3, 3, 2], "D"),
        ([2, 3, 4, 0], ""),
        ([2, 4, 1, 0], ""),
        ([3, 1, 1, 0], ""),
        ([4, 1, 1, 0], "|"),
        ([4, 2, 1, 1], "x~y^z"),
        ([4, 3, 1, 1], "q"),
        ([5, 1, 1, 0], ""),
        // A 0 that is not the component's is a missing place.
        ([0, 3, 1, 0], ""),
        ([2, 0, 1, 0], ""),
        ([2, 3, 0, 0], ""),
        // Numbers that a narrower type would take for 1 or for component 0.
        ([257, 1, 1, 0], ""),
        ([65_537, 1, 1, 0], ""),
        ([1, 257, 1, 0], ""),
        ([1, 65_537, 1, 0], ""),
        ([2, 3, 257, 1], ""),
        ([2, 3, 65_537, 1], ""),
        ([2, 3, 1, 256], ""),
        ([2, 3, 1, 65_536], ""),
        ([u32::MAX; 4], ""),
    ];
    let mut all = Vec::new();
    for (place, text) in rows {
        all.push(at(place, text, graded(&format!("place {place:?}"), segments, book_ax(&[]), &expected)));
    }
    // Refusal 6 is not about reading.
    for (message, refusal, text) in [
        ("", "1 0", ""),
        ("MSH|^~\\&|\t\n", "3 9", ""),
        ("MSH|^~~&|CAB\n", "4 0", ""),
        ("MSH|^~\\&|CAB", "5 0", ""),
        ("MSH|^~\\&|CAB\n", "6 0", "|"),
    ] {
        let case = case(lines(message), book_ax(&[]));
        let name = format!("MSH-1 under refusal {refusal}");
        all.push(at([1, 1, 1, 0], text, sample(&name, case, &format!("refused {refusal}\n"))));
    }
    // Nearly the whole of the longest message: 71 bytes of header, 8 before the place and a CR after it.
    let long = "x".repeat(MESSAGE_LIMIT - 80);
    let segments = format!("PID\nZZZ|{long}\n");
    all.push(at([3, 1, 1, 0], &long, graded("a long place", &segments, book_ax(&[]), "MSA|AA|M1\n")));
    all
}

#[cfg(test)]
mod tests {
    use super::*;
    use crate::cases::ALLOWED;

    #[test]
    fn every_sample_is_printed_and_located_as_written_by_hand() {
        for Sample { name, case, expected, located } in samples() {
            assert_eq!(String::from_utf8_lossy(&case.printed()), expected, "{name}");
            if let Some(text) = located {
                assert_eq!(String::from_utf8_lossy(case.located()), text, "{name}");
            }
        }
    }

    #[test]
    fn the_lamp_goes_with_every_answer() {
        for Sample { name, case, .. } in samples() {
            let mut out = vec![0; case.output_length];
            let answer = case.answer(&mut out);
            assert!(crate::lamp::agrees(case.lamp(), answer, &out), "{name}");
        }
    }

    #[test]
    fn every_byte_that_may_delimit_does_so_in_an_answered_sample() {
        let answered = samples().into_iter().filter(|sample| !sample.expected.starts_with("refused"));
        let mut bytes: Vec<u8> = answered.flat_map(|sample| sample.case.message[3..8].to_vec()).collect();
        bytes.sort();
        bytes.dedup();
        assert_eq!(bytes, ALLOWED);
    }

    #[test]
    fn refusals_leave_the_output_alone_and_answers_what_is_after_the_ack() {
        for Sample { name, case, expected, .. } in samples() {
            let mut out = vec![0xA5; 1000];
            let length = case.output_length.min(out.len());
            let (number, _) = case.answer(&mut out[..length]);
            let written = if number == 0 { expected.len() } else { 0 };
            assert!(out[written..].iter().all(|b| *b == 0xA5), "{name}");
        }
    }

    #[test]
    fn lines_of_the_program() {
        let Sample { case, expected, .. } = worked_example();
        let printed =
            |input: &[u8]| String::from_utf8(crate::line::RELAY.printed(&case.message, &case.book, input)).unwrap();
        assert_eq!(printed(b"20250113120000+0000 7\n"), expected);
        assert_eq!(printed(b"20250113120000+0000 007"), expected);
        assert_eq!(printed(b"20250113120000+0000  7\n"), "refused 10 0\n");
        assert_eq!(printed(b"20250113120000+0000 7\r\n"), "bad line\n");
        assert_eq!(printed(b""), "bad line\n");
    }
}
