//! Batch files (A4 of 02). As in the other samples, a file is printed here with a line feed for each CR.

use super::delimiters::WRONG_BEGINNINGS;
use super::{book_ax, lines, worked_example, STAMP};
use crate::books::{self, rule, SectionPlan};
use crate::cases::BatchCase;
use crate::cutting::MESSAGE_LIMIT;

pub struct BatchSample {
    pub name: String,
    pub case: BatchCase,
    /// What has to be printed.
    pub expected: String,
}

const REFUSED: &str = "refused 14 0\n";
/// The shortest frame around three messages that says their number.
const THREE: [&str; 2] = ["FHS|^~\\&|\nBHS\n", "BTS|3\nFTS|1\n"];

/// Every sample of a batch with an expectation by hand.
pub fn samples() -> Vec<BatchSample> {
    let mut all = examples();
    all.extend(single_answers());
    all.extend(sections());
    all.extend(quotes());
    all.extend(frames());
    all.extend(strays());
    all.extend(counts());
    all.extend(control_numbers());
    all.extend(frame_bytes());
    all.extend(file_delimiters());
    all.extend(wrong_openings());
    all.extend(later_headers());
    all.extend(bad_messages());
    all.extend(books_and_stamps());
    all.extend(without_messages());
    all.extend(outputs());
    all.extend(refusals_in_turn());
    all
}

/// Control number 7, the stamp of the worked example, a section AX without rules, and 65,536 bytes of output.
fn case(file: &str) -> BatchCase {
    BatchCase { file: lines(file), book: book_ax(&[]), stamp: STAMP.to_vec(), control: 7, output_length: 65_536 }
}

fn sample(name: &str, case: BatchCase, expected: &str) -> BatchSample {
    BatchSample { name: format!("batch: {name}"), case, expected: expected.into() }
}

fn message(id: &str) -> String {
    format!("MSH|^~\\&|CAB|C1|REG|AX|||VXU^V04|{id}|P|2.5.1\nPID\n")
}

/// The answer to `message`. With a control number of one digit and an id of two bytes it takes 92 + 10 bytes.
fn ack(control: u32, id: &str) -> String {
    answered("AX", control, &format!("AA|{id}\n"))
}

/// The answer to a message that names this key; the rest is what stands behind `MSA|`.
fn answered(key: &str, control: u32, rest: &str) -> String {
    format!(
        "MSH|^~\\&|REG|{key}|CAB|C1|20250113120000+0000||ACK^V04^ACK|{control}|P|2.5.1|||NE|NE|||||Z23^CDCPHINVS\n\
         MSA|{rest}"
    )
}

fn framed(body: &str) -> String {
    format!("FHS|^~\\&|\nBHS\n{body}BTS\nFTS\n")
}

fn three() -> String {
    message("M1") + &message("M2") + &message("M3")
}

fn three_acks() -> String {
    ack(7, "M1") + &ack(8, "M2") + &ack(9, "M3")
}

/// Every verdict in one file, graded by the worked example's rules, then plain ones.
fn examples() -> Vec<BatchSample> {
    let file = "FHS|^~\\&|CLINIC|C1|REG|AX|20250113115900+0000\n\
         BHS|^~\\&|CLINIC|C1|REG|AX|20250113115900+0000||||B1\n\
         MSH|^~\\&|CAB|C1|REG|AX|20250113115900+0000||VXU^V04^VXU_V04|M1|P|2.5.1\n\
         PID|1||77||ROE^ANN||20240230\n\
         MSH|^~\\&|CAB|C1|REG|AX|20250113115900+0000||VXU^V04^VXU_V04|M2|P|2.5.1\n\
         PID|1||78||ROE^BEN||20240229|M\n\
         MSH|^~\\&|CAB|C1|REG|AX|20250113115900+0000||ADT^A01|M3|T|2.5.1\n\
         PID|1||79||ROE^CYD||20240230\n\
         BTS|3|all doses of a day\n\
         FTS|1|\n";
    let acks = "MSH|^~\\&|REG|AX|CAB|C1|20250113120000+0000||ACK^V04^ACK|7|P|2.5.1|||NE|NE|||||Z23^CDCPHINVS\n\
         MSA|AE|M1\n\
         ERR||PID^1^7^1^1|102^Data type error^HL70357|E|1^^L\n\
         ERR||PID^1^8^1|101^Required field missing^HL70357|W|3^^L\n\
         MSH|^~\\&|REG|AX|CAB|C1|20250113120000+0000||ACK^V04^ACK|8|P|2.5.1|||NE|NE|||||Z23^CDCPHINVS\n\
         MSA|AA|M2\n\
         MSH|^~\\&|REG|AX|CAB|C1|20250113120000+0000||ACK^V04^ACK|9|T|2.5.1|||NE|NE|||||Z23^CDCPHINVS\n\
         MSA|AR|M3\n\
         ERR||MSH^1^9^1^1|200^Unsupported message type^HL70357|E|0^^L\n\
         ERR||MSH^1^9^1^2|201^Unsupported event code^HL70357|E|0^^L\n";
    let book = worked_example().case.book;
    vec![
        sample("AE, AA and AR", BatchCase { book, ..case(file) }, acks),
        sample("one message", case(&framed(&message("M1"))), &ack(7, "M1")),
        sample("three messages", case(&framed(&three())), &three_acks()),
    ]
}

/// Each ACK is that of its message alone: neither segments are counted on nor does the order go on, and a message may
/// stand twice.
fn single_answers() -> Vec<BatchSample> {
    let header = "MSH|^~\\&|CAB|C1|REG|AX|||VXU^V04|M1|P|2.5.1\n";
    let body = format!("{header}PID\nORC\n{header}PID|||x\nORC\nRXA\nRXA\n{header}{header}PID\nORC\n");
    let begin = |control: u32| answered("AX", control, "AE|M1\n");
    let missing = "ERR||PID^1^3^1|101^Required field missing^HL70357|I|1^^L\n";
    let end = "ERR|||100^Segment sequence error^HL70357|E|0^^L\n";
    let acks = [
        &begin(7),
        missing,
        end,
        &begin(8),
        "ERR||RXA^2|100^Segment sequence error^HL70357|E|0^^L\n",
        &begin(9),
        end,
        &begin(10),
        missing,
        end,
    ];
    let book = book_ax(&[rule("PID", 3, 0, 1, b'I', [0, 0, 0])]);
    vec![sample("messages by themselves", BatchCase { book, ..case(&framed(&body)) }, &acks.concat())]
}

/// Each message is graded by the section that it names, whoever was named before.
fn sections() -> Vec<BatchSample> {
    let required =
        |key: &str, field: u8, severity: u8| SectionPlan::new(key).rule(rule("PID", field, 0, 1, severity, [0, 0, 0]));
    let book = books::encode(&[required("AX", 3, b'E'), required("BX", 5, b'W'), SectionPlan::new("CX")]);
    let named = |key: &str| format!("MSH|^~\\&|CAB|C1|REG|{key}|||VXU^V04|M1|P|2.5.1\nPID\n");
    let ax = "AE|M1\nERR||PID^1^3^1|101^Required field missing^HL70357|E|1^^L\n";
    let bx = "AE|M1\nERR||PID^1^5^1|101^Required field missing^HL70357|W|1^^L\n";
    let cx = "AA|M1\n";
    let body = ["BX", "CX", "AX", "BX"].map(named).concat();
    let acks = [answered("BX", 7, bx), answered("CX", 8, cx), answered("AX", 9, ax), answered("BX", 10, bx)].concat();
    let other = ["BX", "DX", "AX"].map(named).concat();
    vec![
        sample("a section for each message", BatchCase { book: book.clone(), ..case(&framed(&body)) }, &acks),
        sample("a section that is not there", BatchCase { book, ..case(&framed(&other)) }, "refused 15 2\n"),
    ]
}

/// Two quotes in messages (A3 of 02): as a birth date under each kind, beside a component, as MSH-10, as the key of a
/// section, and near to them. In BTS-1 and FTS-1 they are counts that differ.
fn quotes() -> Vec<BatchSample> {
    let born = vec![rule("PID", 7, 1, 4, b'E', [0, 0, 0]), rule("PID", 7, 1, 1, b'W', [0, 0, 0])];
    let other_kinds = [(2, [0, 5, 9]), (3, [0, 0, 0]), (5, [0, 8, 0]), (6, [1, 0, 0])];
    let other = other_kinds.map(|(kind, uses)| rule("PID", 7, 0, kind, b'E', uses)).to_vec();
    let book = books::encode(&[
        SectionPlan { rules: born, ..SectionPlan::new("AX") },
        SectionPlan { rules: other, sets: vec![vec![b"X".to_vec()]], ..SectionPlan::new("\"\"") },
    ]);
    let named = |key: &str, id: &str, born: &str| {
        format!("MSH|^~\\&|CAB|C1|REG|{key}|||VXU^V04|{id}|P|2.5.1\nPID|||||||{born}\n")
    };
    let missing = "ERR||PID^1^7^1^1|101^Required field missing^HL70357|W|2^^L\n";
    let wrong = "ERR||PID^1^7^1^1|102^Data type error^HL70357|E|1^^L\n";
    let body = [
        named("AX", "M1", "\"\""),
        named("AX", "\"\"", "20240229~\"\""),
        named("\"\"", "M3", "\"\""),
        named("AX", "M4", "\"\"^x"),
        "MSH!#$%'!CAB!C1!REG!AX!!!VXU#V04!M5!P!2.5.1\nPID!!!!!!!\"\"#x$\"\"^x\n".into(),
        named("AX", "M6", "\"\" "),
    ];
    let acks = [
        answered("AX", 7, "AE|M1\n") + missing,
        answered("AX", 8, "AA|\"\"\n"),
        answered("\"\"", 9, "AA|M3\n"),
        answered("AX", 10, "AE|M4\n") + missing,
        "MSH!#$%'!REG!AX!CAB!C1!20250113120000+0000!!ACK#V04#ACK!11!P!2.5.1!!!NE!NE!!!!!Z23#CDCPHINVS\n\
         MSA!AE!M5\n\
         ERR!!PID#1#7#2#1!102#Data type error#HL70357!E!1##L\n\
         ERR!!PID#1#7#1#1!101#Required field missing#HL70357!W!2##L\n"
            .into(),
        answered("AX", 12, "AE|M6\n") + wrong,
    ];
    let unnamed = framed(&(named("AX", "M1", "\"\"") + &named("\"\"", "M2", "\"\"")));
    vec![
        sample("two quotes", BatchCase { book, ..case(&framed(&body.concat())) }, &acks.concat()),
        sample("two quotes that are no key", case(&unnamed), "refused 15 2\n"),
    ]
}

/// Frames that lack something or have too much of it.
fn frames() -> Vec<BatchSample> {
    let m = message("M1");
    let rows: Vec<(&str, String)> = vec![
        ("an empty file", String::new()),
        ("one CR", "\n".into()),
        ("four CRs", "\n\n\n\n".into()),
        ("one segment", "FHS|^~\\&|\n".into()),
        ("a frame that ends after BTS", "FHS|^~\\&|\nBHS\nBTS\n".into()),
        ("messages without a frame", m.clone()),
        ("FHS missing", format!("BHS\n{m}BTS\nFTS\n")),
        ("BHS missing", format!("FHS|^~\\&|\n{m}BTS\nFTS\n")),
        ("BTS missing", format!("FHS|^~\\&|\nBHS\n{m}FTS\n")),
        ("FTS missing", format!("FHS|^~\\&|\nBHS\n{m}BTS\n")),
        ("another name for FHS", format!("ZHS|^~\\&|\nBHS\n{m}BTS\nFTS\n")),
        ("another name for BHS", format!("FHS|^~\\&|\nZHS\n{m}BTS\nFTS\n")),
        ("another name for BTS", format!("FHS|^~\\&|\nBHS\n{m}ZTS\nFTS\n")),
        ("another name for FTS", format!("FHS|^~\\&|\nBHS\n{m}BTS\nZTS\n")),
        ("BHS and BTS missing", format!("FHS|^~\\&|\n{m}FTS\n")),
        ("FHS and FTS missing", format!("BHS|^~\\&|\n{m}BTS\n")),
        ("FHS twice", format!("FHS|^~\\&|\nFHS|^~\\&|\nBHS\n{m}BTS\nFTS\n")),
        ("BHS twice", format!("FHS|^~\\&|\nBHS\nBHS\n{m}BTS\nFTS\n")),
        ("BTS twice", format!("FHS|^~\\&|\nBHS\n{m}BTS\nBTS\nFTS\n")),
        ("FTS twice", format!("FHS|^~\\&|\nBHS\n{m}BTS\nFTS\nFTS\n")),
        ("FHS and BHS swapped", format!("BHS|^~\\&|\nFHS|^~\\&|\n{m}BTS\nFTS\n")),
        ("BTS and FTS swapped", format!("FHS|^~\\&|\nBHS\n{m}FTS\nBTS\n")),
        ("BHS and BTS swapped", format!("FHS|^~\\&|\nBTS\n{m}BHS\nFTS\n")),
        ("FHS and FTS swapped", format!("FTS|^~\\&|\nBHS\n{m}BTS\nFHS\n")),
        ("two batches", format!("FHS|^~\\&|\nBHS\n{m}BTS\nBHS\n{m}BTS\nFTS\n")),
        ("two files", framed(&m) + &framed(&m)),
        ("something before FHS", format!("ZZZ\n{}", framed(&m))),
        ("an empty segment before FHS", format!("\n{}", framed(&m))),
        ("a message before FHS", m.clone() + &framed("")),
        ("something between FHS and BHS", format!("FHS|^~\\&|\nSFT\nBHS\n{m}BTS\nFTS\n")),
        ("something between BTS and FTS", format!("FHS|^~\\&|\nBHS\n{m}BTS\nZZZ\nFTS\n")),
        ("a message between BTS and FTS", format!("FHS|^~\\&|\nBHS\nBTS\n{m}FTS\n")),
        ("something after FTS", format!("{}ZZZ\n", framed(&m))),
        ("an empty segment after FTS", format!("{}\n", framed(&m))),
        ("a byte after FTS", format!("{} ", framed(&m))),
        ("a message after FTS", framed("") + &m),
        ("no last CR", framed(&m).trim_end().into()),
        ("no last CR, FTS with fields", format!("FHS|^~\\&|\nBHS\n{m}BTS\nFTS|1")),
        ("names in lower case", framed(&m).to_lowercase()),
    ];
    let mut all: Vec<BatchSample> = rows.into_iter().map(|(name, file)| sample(name, case(&file), REFUSED)).collect();
    let feeds = BatchCase { file: framed(&m).into_bytes(), ..case("") };
    all.push(sample("line feeds for CRs", feeds, REFUSED));
    // What a frame segment holds beside its count is free.
    for (fhs, bhs, bts, fts) in [
        ("FHS|^~\\&|", "BHS", "BTS", "FTS"),
        ("FHS|^~\\&||", "BHS|", "BTS|", "FTS|"),
        ("FHS|^~\\&|MSH|BTS", "BHS|FTS", "BTS||BHS", "FTS||FHS"),
        ("FHS|^~\\&|a^b~c\\d&\"\"", "BHS| ~", "BTS|1|~^\\&|7", "FTS|1||7"),
    ] {
        let file = format!("{fhs}\n{bhs}\n{m}{bts}\n{fts}\n");
        all.push(sample(&format!("frame {fhs} {bhs} {bts} {fts}"), case(&file), &ack(7, "M1")));
    }
    all
}

/// Segments in the batch that are no message's, frame names that are out of place, and what only looks like them.
fn strays() -> Vec<BatchSample> {
    let m = message("M1");
    let mut all = Vec::new();
    for first in ["PID", "", "ZZZ|1", "MS", "msh|^~\\&|", " MSH|^~\\&|", "|"] {
        let file = framed(&format!("{first}\n{m}"));
        all.push(sample(&format!("{first:?} before the first MSH"), case(&file), REFUSED));
        let alone = framed(&format!("{first}\n"));
        all.push(sample(&format!("{first:?} and no message"), case(&alone), REFUSED));
    }
    let names = [
        "FHS",
        "BHS",
        "BTS",
        "FTS",
        "FHS|^~\\&|",
        "BHS|1",
        "BTS|1",
        "FTS|1",
        "BTSX",
        "FTS1",
        "FHSa|",
        "BHS\t",
        "BTS|\x7F",
    ];
    for name in names {
        all.push(sample(&format!("{name:?} in a message"), case(&framed(&format!("{m}{name}\nZZZ\n"))), REFUSED));
    }
    for name in ["BTS|1", "FHS", "BTSX"] {
        for (place, body) in [
            ("at the end of a message", format!("{m}{name}\n")),
            ("between messages", format!("{m}{name}\n{m}")),
            ("in a broken message", format!("MSH#\nzzz\n{name}\n{m}")),
        ] {
            all.push(sample(&format!("{name:?} {place}"), case(&framed(&body)), REFUSED));
        }
    }
    // Three bytes tell a name, and nothing else is one.
    for other in ["bts|1", "BT", "BTs", " BTS", "|BTS", "B", "", "bHS", "FT"] {
        let body = format!("{m}{other}\n{m}");
        all.push(sample(&format!("{other:?} in a message"), case(&framed(&body)), "refused 15 1\n"));
    }
    for other in ["ZZZ|BTS", "ZZZ|MSH|FTS", "BT1", "FSH", "BSH|", "MSA|FHS"] {
        let body = format!("{m}{other}\n{}", message("M2"));
        let acks = ack(7, "M1") + &ack(8, "M2");
        all.push(sample(&format!("{other:?} in a message"), case(&framed(&body)), &acks));
    }
    all
}

/// BTS-1 beside three messages, and FTS-1.
fn counts() -> Vec<BatchSample> {
    let zeros = "0".repeat(70_000);
    let [begin, _] = THREE;
    let good = ["BTS|3\nFTS|1\n", "BTS\nFTS\n", "BTS|\nFTS|\n", "BTS|03|4\nFTS|01|2\n", "BTS|0000000003\nFTS|00001\n"];
    let bad = [
        "BTS|2\nFTS\n",
        "BTS|4\nFTS\n",
        "BTS|0\nFTS\n",
        "BTS|30\nFTS\n",
        "BTS|13\nFTS\n",
        "BTS|3~\nFTS\n",
        "BTS|3~3\nFTS\n",
        "BTS|3^\nFTS\n",
        "BTS|3&\nFTS\n",
        "BTS| 3\nFTS\n",
        "BTS|3 \nFTS\n",
        "BTS| \nFTS\n",
        "BTS|+3\nFTS\n",
        "BTS|-3\nFTS\n",
        "BTS|3.\nFTS\n",
        "BTS|3.0\nFTS\n",
        "BTS|0x3\nFTS\n",
        "BTS|three\nFTS\n",
        "BTS|\"\"\nFTS\n",
        "BTS|~\nFTS\n",
        "BTS|259\nFTS\n",
        "BTS|65539\nFTS\n",
        "BTS|4294967299\nFTS\n",
        "BTS|18446744073709551619\nFTS\n",
        "BTS|4|3\nFTS\n",
        "BTS|3\nFTS|0\n",
        "BTS|3\nFTS|2\n",
        "BTS|3\nFTS|3\n",
        "BTS|3\nFTS|11\n",
        "BTS|3\nFTS|10\n",
        "BTS|3\nFTS|1~\n",
        "BTS|3\nFTS|1^\n",
        "BTS|3\nFTS| 1\n",
        "BTS|3\nFTS|+1\n",
        "BTS|3\nFTS|\"\"\n",
        "BTS|3\nFTS|257\n",
        "BTS|3\nFTS|4294967297\n",
        "BTS|3\nFTS|18446744073709551617\n",
        "BTS|3\nFTS|2|1\n",
    ];
    let good = good.iter().map(|end| (end.to_string(), three_acks()));
    let bad = bad.iter().map(|end| (end.to_string(), REFUSED.to_string()));
    let mut all: Vec<BatchSample> = good
        .chain(bad)
        .map(|(end, expected)| sample(&format!("{end:?}"), case(&format!("{begin}{}{end}", three())), &expected))
        .collect();
    for (name, end, expected) in [
        ("BTS-1 with 70,000 zeros", format!("BTS|{zeros}3\nFTS\n"), three_acks()),
        ("FTS-1 with 70,000 zeros", format!("BTS|3\nFTS|{zeros}1\n"), three_acks()),
        ("BTS-1 of 70,000 zeros", format!("BTS|{zeros}\nFTS\n"), REFUSED.into()),
        ("BTS-1 with 70,000 zeros after it", format!("BTS|3{zeros}\nFTS\n"), REFUSED.into()),
        ("FTS-1 of 70,000 zeros", format!("BTS|3\nFTS|{zeros}\n"), REFUSED.into()),
    ] {
        all.push(sample(name, case(&format!("{begin}{}{end}", three())), &expected));
    }
    // A number of two digits, and one that is not the number of segments or of lines.
    let ten: String = (1..=10).map(|k| message(&format!("M{k}"))).collect();
    let acks: String = (1..=10).map(|k| ack(6 + k, &format!("M{k}"))).collect();
    for (count, expected) in [("10", acks.as_str()), ("010", &acks), ("1", REFUSED), ("20", REFUSED), ("01", REFUSED)] {
        let file = format!("{begin}{ten}BTS|{count}\nFTS|1\n");
        all.push(sample(&format!("BTS-1 {count} for ten"), case(&file), expected));
    }
    all
}

fn control_numbers() -> Vec<BatchSample> {
    let two = message("M1") + &message("M2");
    let two_acks = |control: u32| ack(control, "M1") + &ack(control + 1, "M2");
    let rows = [
        ("none at the last number", u32::MAX, "", String::new()),
        ("one at the last number", u32::MAX, &message("M1"), ack(4_294_967_295, "M1")),
        ("two at the last number", u32::MAX, &two, REFUSED.into()),
        ("three at the last number but one", 4_294_967_294, &three(), REFUSED.into()),
        ("two at the last number but one", 4_294_967_294, &two, two_acks(4_294_967_294)),
        ("two at number 0", 0, &two, two_acks(0)),
        ("two at number 9", 9, &two, two_acks(9)),
        ("two at number 2,147,483,647", 2_147_483_647, &two, two_acks(2_147_483_647)),
    ];
    rows.into_iter()
        .map(|(name, control, body, acks)| sample(name, BatchCase { control, ..case(&framed(body)) }, &acks))
        .collect()
}

/// Rows 3 and 5 for the frame: foreign bytes in each segment and wrong forms of each, beside those of FHS.
fn frame_bytes() -> Vec<BatchSample> {
    let m = message("M1");
    let frame = ["FHS|^~\\&|", "BHS|", "BTS||", "FTS||"];
    let with = |at: usize, segment: &str| {
        let mut frame = frame.map(String::from);
        frame[at] = segment.into();
        let [fhs, bhs, bts, fts] = frame;
        format!("{fhs}\n{bhs}\n{m}{bts}\n{fts}\n")
    };
    let mut all = Vec::new();
    for (at, segment) in frame.iter().enumerate() {
        for byte in ["\0", "\x1F", "\x7F", "\u{80}"] {
            let file = with(at, &format!("{segment}a{byte}b"));
            all.push(sample(&format!("{byte:?} in {segment}"), case(&file), REFUSED));
        }
        // The replacement is undone for this byte, since `lines` would make it a CR.
        let mut feed = case(&with(at, &format!("{segment}\t")));
        for byte in feed.file.iter_mut().filter(|byte| **byte == b'\t') {
            *byte = b'\n';
        }
        all.push(sample(&format!("a line feed in {segment}"), feed, REFUSED));
        let file = with(at, &format!("{segment} ~}}"));
        all.push(sample(&format!("the first and the last bytes allowed in {segment}"), case(&file), &ack(7, "M1")));
    }
    let forms = [
        (0, "FHS"),
        (0, "FHSX|^~\\&|"),
        (0, "FHS |^~\\&|"),
        (1, "BHSX"),
        (1, "BHSX|1"),
        (1, "BHS!"),
        (1, "BHS^~\\&|"),
        (1, "BHS "),
        (1, "BHS1|"),
        (2, "BTSX"),
        (2, "BTS^"),
        (2, "BTS1"),
        (2, "BTS!1"),
        (2, "BTS |1"),
        (3, "FTSX"),
        (3, "FTS~"),
        (3, "FTS1"),
        (3, "FTS#1"),
        (3, "FTS "),
    ];
    all.extend(forms.map(|(at, segment)| sample(&format!("form {segment:?}"), case(&with(at, segment)), REFUSED)));
    all
}

/// The file's delimiters and the messages' are not the same.
fn file_delimiters() -> Vec<BatchSample> {
    let plain = message("M1");
    let other = "MSH!#$%'!CAB!C1!REG!AX!!!VXU#V04!M2!P!2.5.1\nPID\n";
    let other_ack = |control: u32| {
        format!(
            "MSH!#$%'!REG!AX!CAB!C1!20250113120000+0000!!ACK#V04#ACK!{control}!P!2.5.1!!!NE!NE!!!!!Z23#CDCPHINVS\n\
             MSA!AA!M2\n"
        )
    };
    let rows: Vec<(&str, String, String)> = vec![
        ("other delimiters of the file", format!("FHS!#$%'!\nBHS!a\n{plain}BTS!1!2\nFTS!01\n"), ack(7, "M1")),
        ("other delimiters of a message", framed(other), other_ack(7)),
        (
            "other delimiters of file and messages",
            format!("FHS:;<=>:\nBHS:;<=>:\n{plain}{other}{plain}BTS:3\nFTS:1\n"),
            ack(7, "M1") + &other_ack(8) + &ack(9, "M1"),
        ),
        ("delimiters in other places", format!("FHS^|&~\\^\nBHS^|\n{plain}BTS^1^|\nFTS^1\n"), ack(7, "M1")),
        // The count is cut by the file's bar alone.
        ("a bar in a count", format!("FHS!#$%'!\nBHS\n{plain}BTS!1|2\nFTS\n"), REFUSED.into()),
        ("another caret in a count", format!("FHS|#$%'|\nBHS\n{plain}BTS|1#\nFTS\n"), REFUSED.into()),
        ("the usual bar in BHS", format!("FHS!#$%'!\nBHS|^~\\&|\n{plain}BTS\nFTS\n"), REFUSED.into()),
        ("the usual bar in BTS", format!("FHS!#$%'!\nBHS\n{plain}BTS|1\nFTS\n"), REFUSED.into()),
        ("the usual bar in FTS", format!("FHS!#$%'!\nBHS\n{plain}BTS\nFTS|1\n"), REFUSED.into()),
        ("the messages' bar in BHS", format!("FHS|^~\\&|\nBHS!#$%'!\n{other}BTS\nFTS\n"), REFUSED.into()),
        ("the messages' bar in BTS", format!("FHS|^~\\&|\nBHS\n{other}BTS!1\nFTS\n"), REFUSED.into()),
        // BHS is asked for the bar alone, so what it names itself may be no good in FHS.
        ("BHS with other delimiters", format!("FHS|^~\\&|\nBHS|#!$%|\n{plain}BTS\nFTS\n"), ack(7, "M1")),
        ("BHS with equal delimiters", format!("FHS|^~\\&|\nBHS|^^^^|\n{plain}BTS\nFTS\n"), ack(7, "M1")),
        ("BHS with letters for delimiters", format!("FHS|^~\\&|\nBHS|ABCD|\n{plain}BTS\nFTS\n"), ack(7, "M1")),
        ("BHS without delimiters", format!("FHS|^~\\&|\nBHS|^\n{plain}BTS\nFTS\n"), ack(7, "M1")),
        ("FHS of nine bytes", format!("FHS!#$%'!\nBHS\n{plain}BTS\nFTS\n"), ack(7, "M1")),
    ];
    rows.into_iter().map(|(name, file, expected)| sample(name, case(&file), &expected)).collect()
}

/// A1's conditions, each broken in FHS; the rest of the frame stands bare, so that no other bar is wrong in it.
fn wrong_openings() -> Vec<BatchSample> {
    let m = message("M1");
    let long = WRONG_BEGINNINGS.iter().map(|six| format!("FHS{six}CLINIC"));
    long.chain(["FHS!#$%'".into()])
        .map(|fhs| sample(&format!("opening {fhs:?}"), case(&format!("{fhs}\nBHS\n{m}BTS\nFTS\n")), REFUSED))
        .collect()
}

/// A message begins at every MSH: what is a mere order finding in a message alone is another message in a batch.
fn later_headers() -> Vec<BatchSample> {
    let m = message("M1");
    let broken = "MSH|^~\\&|REG|AX|CAB|C1|20250113120000+0000||ACK^V04^ACK|7|P|2.5.1|||NE|NE|||||Z23^CDCPHINVS\n\
         MSA|AE|M1\n\
         ERR|||100^Segment sequence error^HL70357|E|0^^L\n";
    let header = "MSH|^~\\&|CAB|C1|REG|AX|||VXU^V04|M1|P|2.5.1\n";
    let rows: Vec<(&str, String, String)> = vec![
        ("a header and a message", format!("{header}{}", message("M2")), format!("{broken}{}", ack(8, "M2"))),
        ("MSH alone in a message", format!("{m}MSH\nPID\n"), "refused 15 2\n".into()),
        ("a short MSH in a message", format!("{m}MSH|^~\\&|CAB\nPID\n{m}"), "refused 15 2\n".into()),
        ("MSH with another bar in a message", format!("{m}MSH#^~\\&|CAB\n"), "refused 15 2\n".into()),
        ("MSHX first", format!("MSHX\n{m}"), "refused 15 1\n".into()),
        ("MSHX in a message", format!("{m}MSHX|^~\\&|\nPID\n{m}"), "refused 15 2\n".into()),
        ("MSH1", format!("{m}{m}MSH1\n"), "refused 15 3\n".into()),
        ("MSH and a foreign byte", format!("{m}MSH\x7F\n"), "refused 15 2\n".into()),
    ];
    let mut all: Vec<BatchSample> =
        rows.into_iter().map(|(name, body, expected)| sample(name, case(&framed(&body)), &expected)).collect();
    let counted = format!("FHS|^~\\&|\nBHS\n{m}MSHX\nBTS|2\nFTS\n");
    all.push(sample("MSHX counts", case(&counted), "refused 15 2\n"));
    let not_counted = format!("FHS|^~\\&|\nBHS\n{m}MSHX\nBTS|1\nFTS\n");
    all.push(sample("MSHX does not go without counting", case(&not_counted), REFUSED));
    all
}

/// Each row that a message can meet, at the first, the second or the last of three.
fn bad_messages() -> Vec<BatchSample> {
    let of_length = |length: usize| {
        let m = message("M2") + "ZZZ|";
        let filler = "x".repeat(length - m.len() - 1);
        format!("{m}{filler}\n")
    };
    let id_200 = "M".repeat(200);
    let rows: Vec<(&str, String)> = vec![
        ("row 2", of_length(MESSAGE_LIMIT + 1)),
        ("row 3, a tab", message("M\t2")),
        ("row 3, 0x7F", message("M2") + "ZZZ|\x7F\n"),
        ("row 3, outside ASCII", message("M2") + "ZZZ|\u{E9}\n"),
        ("row 4, a name alone", "MSH\n".into()),
        ("row 4, equal delimiters", "MSH|^~^&|CAB\n".into()),
        ("row 4, byte 8", "MSH|^~\\&#CAB\n".into()),
        ("row 4, a bar that may not be", "MSHX^~\\&X\n".into()),
        ("row 5, an empty segment", message("M2") + "\n"),
        ("row 5, an empty segment inside", message("M2") + "\nZZZ\n"),
        ("row 5, lower case", message("M2") + "pid\n"),
        ("row 5, another bar", message("M2") + "ZZZ#\n"),
        ("row 6, no MSH-10", message("")),
        ("row 6, MSH-10 of 200 bytes", message(&id_200)),
        ("row 9", message("M2").replace("|AX|", "|BX|")),
        ("row 9, no MSH-6", message("M2").replace("|AX|", "||")),
    ];
    let (first, last) = (message("M1"), message("M3"));
    let mut all = Vec::new();
    for (row, bad) in &rows {
        for (place, body, ordinal) in [
            ("first", format!("{bad}{first}{last}"), 1),
            ("second", format!("{first}{bad}{last}"), 2),
            ("last", format!("{first}{last}{bad}"), 3),
        ] {
            let name = format!("{row}, the {place} message");
            // The pack has room for so much; one place will do for a long message.
            if bad.len() < 1_000 || place == "second" {
                all.push(sample(&name, case(&framed(&body)), &format!("refused 15 {ordinal}\n")));
            }
        }
    }
    let longest = format!("{first}{}{last}", of_length(MESSAGE_LIMIT));
    all.push(sample("a message of 32,768 bytes", case(&framed(&longest)), &three_acks()));
    // Neither the row nor the number of bad ones counts, but who is first.
    let (row_3, row_9) = (message("M\t2"), message("M2").replace("|AX|", "|BX|"));
    for (name, body, ordinal) in [
        ("rows 9 and 3", format!("{first}{row_9}{row_3}"), 2),
        ("rows 3 and 9", format!("{first}{row_3}{last}{row_9}"), 2),
        ("all bad", row_9.repeat(3), 1),
        ("the last two of four", format!("{first}{last}{row_9}{row_9}"), 3),
    ] {
        all.push(sample(name, case(&framed(&body)), &format!("refused 15 {ordinal}\n")));
    }
    let many = first.repeat(300) + &row_9 + &first;
    all.push(sample("the 301st", case(&framed(&many)), "refused 15 301\n"));
    all
}

/// What all messages share is the first one's fault, whatever is wrong with a later one.
fn books_and_stamps() -> Vec<BatchSample> {
    let good = case(&framed(&three()));
    let bad_third = case(&framed(&(message("M1") + &message("M2") + &message(""))));
    let books: [(&str, &[u8]); 3] =
        [("no book", b""), ("a malformed book", b"VXB\0\x01\0"), ("version 2", b"VXB\0\x02\x01\x02AX\0\0\0")];
    let stamps = ["", "20250113120000", "20250230120000+0000", "20250113120000+0000 "];
    let mut all = Vec::new();
    for (messages, case) in [("sound messages", &good), ("a bad third message", &bad_third)] {
        for (name, book) in books {
            let case = BatchCase { book: book.to_vec(), ..case.clone() };
            all.push(sample(&format!("{name}, {messages}"), case, "refused 15 1\n"));
        }
        for stamp in stamps {
            let case = BatchCase { stamp: stamp.into(), ..case.clone() };
            all.push(sample(&format!("stamp {stamp:?}, {messages}"), case, "refused 15 1\n"));
        }
    }
    all.push(sample("a good book and stamp, a bad third message", bad_third, "refused 15 3\n"));
    all
}

/// Neither book nor stamp is looked at, and nothing is written.
fn without_messages() -> Vec<BatchSample> {
    let files = ["BTS\nFTS\n", "BTS|0\nFTS|1\n", "BTS|000\nFTS|01\n"];
    let mut all: Vec<BatchSample> = files
        .iter()
        .map(|end| sample(&format!("no message, {end:?}"), case(&format!("FHS|^~\\&|\nBHS\n{end}")), ""))
        .collect();
    for end in ["BTS|1\nFTS\n", "BTS| \nFTS\n", "BTS|0~\nFTS\n", "BTS|0\nFTS|0\n"] {
        all.push(sample(&format!("no message, {end:?}"), case(&format!("FHS|^~\\&|\nBHS\n{end}")), REFUSED));
    }
    let empty = BatchCase { output_length: 0, ..case(&framed("")) };
    let book = b"VXB\0\x02".to_vec();
    let nothing = BatchCase { book: Vec::new(), stamp: Vec::new(), control: u32::MAX, ..empty.clone() };
    all.extend([
        sample("no message, no output", empty.clone(), ""),
        sample("no message, a bad book", BatchCase { book: book.clone(), ..case(&framed("")) }, ""),
        sample("no message, a bad stamp", BatchCase { stamp: b"2025".to_vec(), ..case(&framed("")) }, ""),
        sample("no message, all bad", BatchCase { book, stamp: b"\0".to_vec(), ..empty }, ""),
        sample("no message, no book, no stamp, the last number", nothing, ""),
    ]);
    all
}

/// Three ACKs of 102 bytes; with control numbers 9 and 10, one of 102 and one of 103.
fn outputs() -> Vec<BatchSample> {
    let lent = |output_length: usize, expected: &str| {
        let name = format!("output of {output_length} bytes");
        sample(&name, BatchCase { output_length, ..case(&framed(&three())) }, expected)
    };
    let short = "refused 11 306\n";
    let nine = BatchCase { control: 9, ..case(&framed(&(message("M1") + &message("M2")))) };
    let nine_acks = ack(9, "M1") + &ack(10, "M2");
    vec![
        lent(306, &three_acks()),
        lent(307, &three_acks()),
        lent(305, short),
        lent(204, short),
        lent(102, short),
        lent(101, short),
        lent(0, short),
        sample("numbers 9 and 10, just enough", BatchCase { output_length: 205, ..nine.clone() }, &nine_acks),
        sample("numbers 9 and 10, one byte short", BatchCase { output_length: 204, ..nine }, "refused 11 205\n"),
    ]
}

/// 14 before 15 before 11, and 14 for the control numbers too.
fn refusals_in_turn() -> Vec<BatchSample> {
    let [begin, end] = THREE;
    let bad = format!("{begin}{}{}{end}", message("M1"), message("").repeat(2));
    let uncounted = format!("{begin}{}{}BTS|4\nFTS\n", message("M1"), message("").repeat(2));
    let sound = format!("{begin}{}BTS|4\nFTS\n", three());
    let short = |file: &str| BatchCase { output_length: 9, ..case(file) };
    vec![
        sample("14 before 15", case(&uncounted), REFUSED),
        sample("14 before 15 and 11", short(&uncounted), REFUSED),
        sample("14 before 11", short(&sound), REFUSED),
        sample("14 before 15 by the book", BatchCase { book: Vec::new(), ..case(&sound) }, REFUSED),
        sample("14 before 15 by the stamp", BatchCase { stamp: Vec::new(), ..case(&sound) }, REFUSED),
        sample("14 by control numbers before 15", BatchCase { control: u32::MAX - 1, ..case(&bad) }, REFUSED),
        sample("15 before 11", short(&bad), "refused 15 2\n"),
    ]
}

#[cfg(test)]
mod tests {
    use super::*;

    #[test]
    fn every_batch_is_printed_as_written_by_hand() {
        for BatchSample { name, case, expected } in samples() {
            assert_eq!(String::from_utf8_lossy(&case.printed()), expected, "{name}");
        }
    }

    #[test]
    fn refusals_leave_the_output_alone_and_answers_what_is_after_the_acks() {
        for BatchSample { name, case, expected } in samples() {
            let mut out = vec![0xA5; 2_000];
            let length = case.output_length.min(out.len());
            let (number, _) = case.answer(&mut out[..length]);
            let written = if number == 0 { expected.len() } else { 0 };
            assert!(out[written..].iter().all(|b| *b == 0xA5), "{name}");
        }
    }
}
