//! Two quotes, which are no value (A3 of 02), and values near to them, under each kind of rule; and places where they are
//! what they were: the key, MSH-10 and copied fields. Those of the header are among its samples.

use super::{at, book_ax, case, graded, lines, sample, with_sets, Sample, ACK_HEADER, END_FINDING};
use crate::books::{self, rule, RuleBytes, SectionPlan};

pub fn samples() -> Vec<Sample> {
    let mut all = birth_dates();
    all.extend(values());
    all.extend(components());
    all.extend(repetitions());
    all.extend(sets());
    all.extend(segments());
    all.extend(own_delimiters());
    all.extend(quotes_for_delimiters());
    all.extend(keys());
    all
}

/// Kinds and what they use, by the rule's number: REQUIRED, LENGTH 5 to 9, NUMBER, DATE, TIME of 8 digits, CODE with two
/// quotes in its set and CODE without them, LENGTH 1 to 1, LENGTH 3 to 255, LENGTH 2 to 2.
const RULES: [(u8, [u8; 3]); 10] = [
    (1, [0, 0, 0]),
    (2, [0, 5, 9]),
    (3, [0, 0, 0]),
    (4, [0, 0, 0]),
    (5, [0, 8, 0]),
    (6, [1, 0, 0]),
    (6, [2, 0, 0]),
    (2, [0, 1, 1]),
    (2, [0, 3, 255]),
    (2, [0, 2, 2]),
];

/// What of these is broken where there is no value: REQUIRED in repetition 1, nothing in later ones.
const MISSING: &[u16] = &[1];
const PASSED: &[u16] = &[];
/// What is broken by a value of so many bytes that is no number, no date, no time and no code.
const OF_1: &[u16] = &[2, 3, 4, 5, 6, 7, 9, 10];
const OF_2: &[u16] = &[2, 3, 4, 5, 6, 7, 8, 9];
const OF_3: &[u16] = &[2, 3, 4, 5, 6, 7, 8, 10];
const OF_4: &[u16] = OF_3;
const OF_5: &[u16] = &[3, 4, 5, 6, 7, 8, 10];
const OF_20: &[u16] = OF_3;

/// The ten rules on PID-3, all of severity E.
fn book(component: u8) -> Vec<u8> {
    let rules = RULES.map(|(kind, uses)| rule("PID", 3, component, kind, b'E', uses)).to_vec();
    books::encode(&[with_sets(rules, &[&["\"\"", "X"], &["X", "Y"]])])
}

/// What the ACK says after its header of a PID-3 whose repetitions each break these of the ten rules.
fn told(component: u8, broken: &[&[u16]]) -> String {
    let component = if component == 0 { String::new() } else { format!("^{component}") };
    let mut errs = String::new();
    for rule in 1..=10 {
        let error = match rule {
            1 => "101^Required field missing",
            6 | 7 => "103^Table value not found",
            _ => "102^Data type error",
        };
        for (repetition, _) in (1..).zip(broken).filter(|(_, rules)| rules.contains(&rule)) {
            errs += &format!("ERR||PID^1^3^{repetition}{component}|{error}^HL70357|E|{rule}^^L\n");
        }
    }
    format!("MSA|{}|M1\n{errs}", if errs.is_empty() { "AA" } else { "AE" })
}

/// A PID-3 under the ten rules.
fn judged(field: &str, component: u8, broken: &[&[u16]]) -> Sample {
    let name = format!("quotes: {field} at component {component}");
    graded(&name, &format!("PID|||{field}\n"), book(component), &told(component, broken))
}

/// What the clinic sent, under DATE, under REQUIRED and under both, and other fields of the worked example.
fn birth_dates() -> Vec<Sample> {
    let date = rule("PID", 7, 1, 4, b'E', [0, 0, 0]);
    let required = |severity: u8| rule("PID", 7, 1, 1, severity, [0, 0, 0]);
    let missing = |severity: &str, rule: u8| {
        format!("ERR||PID^1^7^1^1|101^Required field missing^HL70357|{severity}|{rule}^^L\n")
    };
    let wrong = "ERR||PID^1^7^1^1|102^Data type error^HL70357|E|1^^L\n";
    let rows: Vec<(&str, &str, Vec<RuleBytes>, String)> = vec![
        ("DATE", "\"\"", vec![date], "MSA|AA|M1\n".into()),
        ("REQUIRED E", "\"\"", vec![required(b'E')], format!("MSA|AE|M1\n{}", missing("E", 1))),
        ("REQUIRED W", "\"\"", vec![required(b'W')], format!("MSA|AE|M1\n{}", missing("W", 1))),
        ("REQUIRED I", "\"\"", vec![required(b'I')], format!("MSA|AA|M1\n{}", missing("I", 1))),
        ("DATE and REQUIRED", "\"\"", vec![date, required(b'W')], format!("MSA|AE|M1\n{}", missing("W", 2))),
        ("DATE and REQUIRED", "\"\"\"", vec![date, required(b'W')], format!("MSA|AE|M1\n{wrong}")),
        ("DATE and REQUIRED", "\"\"20240229", vec![date, required(b'W')], format!("MSA|AE|M1\n{wrong}")),
        ("DATE and REQUIRED", "20240229", vec![date, required(b'W')], "MSA|AA|M1\n".into()),
    ];
    rows.into_iter()
        .map(|(rules, value, book, expected)| {
            let name = format!("birth date {value} under {rules}");
            let segments = format!("PID|1||77||ROE^ANN||{value}\n");
            at([2, 7, 1, 1], value, graded(&name, &segments, book_ax(&book), &expected))
        })
        .collect()
}

/// A single value, at component 0 and at component 1. Near to two quotes all are ordinary.
fn values() -> Vec<Sample> {
    let rows: [(&str, &[u16]); 22] = [
        ("\"\"", MISSING),
        ("", MISSING),
        ("\"", OF_1),
        ("'", OF_1),
        ("''", OF_2),
        ("\"x", OF_2),
        ("x\"", OF_2),
        ("\" ", OF_2),
        ("  ", OF_2),
        ("\"\"\"", OF_3),
        ("\"\"x", OF_3),
        ("x\"\"", OF_3),
        (" \"\"", OF_3),
        ("\"\" ", OF_3),
        ("\" \"", OF_3),
        ("&\"\"", OF_3),
        ("\"\"&", OF_3),
        ("\"\"\"\"", OF_4),
        ("\\\"\\\"", OF_4),
        ("\"\"&\"\"", OF_5),
        // A code of both sets, and a date.
        ("X", &[2, 3, 4, 5, 9, 10]),
        ("20240229", &[6, 7, 8, 10]),
    ];
    let at_both = rows.iter().flat_map(|row| [0, 1].map(|component| (row, component)));
    at_both
        .map(|((value, broken), component)| at([2, 3, 1, component.into()], value, judged(value, component, &[broken])))
        .collect()
}

/// One repetition: what stands at the component is compared, neither more nor less of the repetition.
fn components() -> Vec<Sample> {
    let empty = "^".repeat(19);
    let (last, last_of_21) = (format!("{empty}\"\""), format!("{empty}\"\"^x"));
    let rows: [(&str, u8, &str, &[u16]); 21] = [
        ("\"\"^x", 0, "\"\"^x", OF_4),
        ("\"\"^x", 1, "\"\"", MISSING),
        ("\"\"^x", 2, "x", OF_1),
        ("x^\"\"", 0, "x^\"\"", OF_4),
        ("x^\"\"", 1, "x", OF_1),
        ("x^\"\"", 2, "\"\"", MISSING),
        ("x^\"\"", 3, "", MISSING),
        ("\"\"^", 0, "\"\"^", OF_3),
        ("\"\"^", 1, "\"\"", MISSING),
        ("^\"\"", 0, "^\"\"", OF_3),
        ("^\"\"", 1, "", MISSING),
        ("^\"\"", 2, "\"\"", MISSING),
        ("\"\"^\"\"", 0, "\"\"^\"\"", OF_5),
        ("\"\"^\"\"", 1, "\"\"", MISSING),
        ("\"\"^\"\"", 2, "\"\"", MISSING),
        ("\"^\"", 0, "\"^\"", OF_3),
        ("\"^\"", 1, "\"", OF_1),
        ("\"\"&x^y", 1, "\"\"&x", OF_4),
        (&last, 0, &last, OF_20),
        (&last, 20, "\"\"", MISSING),
        (&last_of_21, 20, "\"\"", MISSING),
    ];
    rows.iter()
        .map(|(field, component, value, broken)| {
            at([2, 3, 1, (*component).into()], value, judged(field, *component, &[broken]))
        })
        .collect()
}

/// Several repetitions: REQUIRED goes by the first alone, and the numbers of the others are not moved by what is passed.
fn repetitions() -> Vec<Sample> {
    let rows: [(&str, u8, &[&[u16]]); 22] = [
        ("x~\"\"~y", 0, &[OF_1, PASSED, OF_1]),
        ("x~\"\"~y", 1, &[OF_1, PASSED, OF_1]),
        ("\"\"~x", 0, &[MISSING, OF_1]),
        ("\"\"~x", 1, &[MISSING, OF_1]),
        ("x~\"\"", 0, &[OF_1, PASSED]),
        ("\"\"~\"\"~\"\"", 0, &[MISSING, PASSED, PASSED]),
        ("\"\"~\"\"~\"\"", 1, &[MISSING, PASSED, PASSED]),
        ("\"\"~", 0, &[MISSING, PASSED]),
        ("~\"\"", 0, &[MISSING, PASSED]),
        ("~\"\"~", 0, &[MISSING, PASSED, PASSED]),
        ("\"\"~~\"\"", 1, &[MISSING, PASSED, PASSED]),
        ("~\"\"~x~\"\"", 1, &[MISSING, PASSED, OF_1, PASSED]),
        ("\"\"~~x", 0, &[MISSING, PASSED, OF_1]),
        ("x~~\"\"~~y", 0, &[OF_1, PASSED, PASSED, PASSED, OF_1]),
        ("\"\"\"~\"\"~\"", 0, &[OF_3, PASSED, OF_1]),
        ("\"~\"", 0, &[OF_1, OF_1]),
        ("\"\"x~\"\"~x\"\"~\"\"&\"\"", 1, &[OF_3, PASSED, OF_3, OF_5]),
        ("\"\"^x~y", 0, &[OF_4, OF_1]),
        ("\"\"^x~y", 1, &[MISSING, OF_1]),
        ("x^\"\"~\"\"^y~z", 1, &[OF_1, PASSED, OF_1]),
        ("x^\"\"~\"\"^y~z", 2, &[MISSING, OF_1, PASSED]),
        ("20240229~\"\"~20240230", 1, &[&[6, 7, 8, 10], PASSED, &[4, 5, 6, 7, 8, 10]]),
    ];
    let mut all: Vec<Sample> =
        rows.iter().map(|(field, component, broken)| judged(field, *component, broken)).collect();
    all.push(at([2, 3, 2, 1], "\"\"", judged("x~\"\"^y~z", 1, &[OF_1, PASSED, OF_1])));
    all
}

/// CODE passes two quotes whether or not they stand in the set; what is near to them is a code like others.
fn sets() -> Vec<Sample> {
    let rules = [1, 2, 3].map(|set| rule("PID", 8, 0, 6, b'W', [set, 0, 0])).to_vec();
    let section = with_sets(rules, &[&["\"\""], &["\"", "\"\"\"", "\"\"x"], &["X"]]);
    vec![graded(
        "sets with two quotes, with codes near to them, and without",
        "PID||||||||\"\"~\"~\"\"\"~\"\"x~X~\"\"\n",
        books::encode(&[section]),
        "MSA|AE|M1\n\
         ERR||PID^1^8^2|103^Table value not found^HL70357|W|1^^L\n\
         ERR||PID^1^8^3|103^Table value not found^HL70357|W|1^^L\n\
         ERR||PID^1^8^4|103^Table value not found^HL70357|W|1^^L\n\
         ERR||PID^1^8^5|103^Table value not found^HL70357|W|1^^L\n\
         ERR||PID^1^8^5|103^Table value not found^HL70357|W|2^^L\n\
         ERR||PID^1^8^2|103^Table value not found^HL70357|W|3^^L\n\
         ERR||PID^1^8^3|103^Table value not found^HL70357|W|3^^L\n\
         ERR||PID^1^8^4|103^Table value not found^HL70357|W|3^^L\n",
    )]
}

/// Segments of one name, and the first MSH and a later one under rules.
fn segments() -> Vec<Sample> {
    let observed = [rule("OBX", 1, 0, 3, b'E', [0, 0, 0]), rule("OBX", 1, 0, 1, b'W', [0, 0, 0])];
    let header_rules = [
        rule("MSH", 3, 0, 1, b'E', [0, 0, 0]),
        rule("MSH", 3, 1, 4, b'E', [0, 0, 0]),
        rule("MSH", 4, 1, 1, b'W', [0, 0, 0]),
        rule("MSH", 4, 0, 3, b'W', [0, 0, 0]),
        rule("MSH", 5, 0, 2, b'E', [0, 5, 9]),
        rule("MSH", 10, 0, 1, b'I', [0, 0, 0]),
        rule("MSH", 10, 1, 5, b'I', [0, 4, 0]),
        rule("MSH", 5, 0, 1, b'I', [0, 0, 0]),
    ];
    let headers = lines(
        "MSH|^~\\&|\"\"|\"\"^C1|x~\"\"~y|AX|||VXU^V04|\"\"|P|2.5.1\n\
         PID\n\
         MSH|^~\\&|\"\"\n",
    );
    let headers_ack =
        "MSH|^~\\&|x~\"\"~y|AX|\"\"|\"\"^C1|20250113120000+0000||ACK^V04^ACK|7|P|2.5.1|||NE|NE|||||Z23^CDCPHINVS\n\
         MSA|AE|\"\"\n\
         ERR||MSH^1^3^1|101^Required field missing^HL70357|E|1^^L\n\
         ERR||MSH^1^4^1^1|101^Required field missing^HL70357|W|3^^L\n\
         ERR||MSH^1^4^1|102^Data type error^HL70357|W|4^^L\n\
         ERR||MSH^1^5^1|102^Data type error^HL70357|E|5^^L\n\
         ERR||MSH^1^5^3|102^Data type error^HL70357|E|5^^L\n\
         ERR||MSH^1^10^1|101^Required field missing^HL70357|I|6^^L\n\
         ERR||MSH^2|100^Segment sequence error^HL70357|E|0^^L\n\
         ERR||MSH^2^3^1|101^Required field missing^HL70357|E|1^^L\n\
         ERR||MSH^2^4^1^1|101^Required field missing^HL70357|W|3^^L\n\
         ERR||MSH^2^10^1|101^Required field missing^HL70357|I|6^^L\n\
         ERR||MSH^2^5^1|101^Required field missing^HL70357|I|8^^L\n";
    let headers_ack = format!("{headers_ack}{END_FINDING}");
    let headers = case(headers, book_ax(&header_rules));
    vec![
        graded(
            "two quotes in some of three segments",
            "PID\nZZZ|\"\"\nORC\nRXA\nOBX|\"\"\nOBX|x\nOBX|\"\"~x\n",
            book_ax(&observed),
            "MSA|AE|M1\n\
             ERR||OBX^1^1^1|101^Required field missing^HL70357|W|2^^L\n\
             ERR||OBX^2^1^1|102^Data type error^HL70357|E|1^^L\n\
             ERR||OBX^3^1^2|102^Data type error^HL70357|E|1^^L\n\
             ERR||OBX^3^1^1|101^Required field missing^HL70357|W|2^^L\n",
        ),
        at([1, 10, 1, 0], "\"\"", sample("two quotes in MSH, which are copied", headers, &headers_ack)),
    ]
}

/// What stands between the message's own delimiters is compared.
fn own_delimiters() -> Vec<Sample> {
    let five = lines(
        "MSH!#$%'!CAB!C1!REG!AX!!!VXU#V04!M1!P!2.5.1\n\
         PID!!!\"\"#x$\"\"$y#\"\"$\"\"^x$\"\"~\"\"\n",
    );
    let five_ack = format!("{ACK_HEADER}{}", told(1, &[MISSING, PASSED, OF_1, OF_4, OF_5]));
    let five_ack = five_ack.replace("|^~\\&|", "!#$%'!").replace('|', "!").replace('^', "#");
    // Caret and tilde have each other's meaning.
    let turned = lines(
        "MSH|~^\\&|CAB|C1|REG|AX|||VXU~V04|M1|P|2.5.1\n\
         PID|||\"\"^x^\"\"~y^x~\"\"\n",
    );
    let turned_ack = format!("{ACK_HEADER}{}", told(1, &[MISSING, OF_1, PASSED, OF_1]));
    let turned_ack = turned_ack.replace("^~\\&", "\t").replace('^', "~").replace('\t', "~^\\&");
    vec![
        at([2, 3, 1, 1], "\"\"", sample("quotes: other delimiters", case(five, book(1)), &five_ack)),
        at([2, 3, 3, 1], "\"\"", sample("quotes: delimiters turned", case(turned, book(1)), &turned_ack)),
    ]
}

/// A double quote is no delimiter, so two of them never stand for two empty pieces.
fn quotes_for_delimiters() -> Vec<Sample> {
    let header = "MSH|^~\\&|CAB|C1|REG|AX|||VXU^V04|M1|P|2.5.1\nPID|||\"\"\n";
    ["|", "^", "~", "\\", "&"]
        .map(|delimiter| {
            let message = lines(&header.replace(delimiter, "\""));
            at([1, 1, 1, 0], "", sample(&format!("\" for {delimiter}"), case(message, book(1)), "refused 4 0\n"))
        })
        .into()
}

/// Two quotes in MSH-6.1 name the section whose key they are, and they are copied as they stand.
fn keys() -> Vec<Sample> {
    let named = SectionPlan::new("\"\"").rule(rule("PID", 3, 1, 1, b'W', [0, 0, 0]));
    let with = books::encode(&[SectionPlan::new("AX"), named, SectionPlan::new("\"\"\"")]);
    let message = |key: &str| lines(&format!("MSH|^~\\&|\"\"|\"\"|\"\"|{key}|||VXU^V04|\"\"|P|2.5.1\nPID|||\"\"\n"));
    let answered = |key: &str, verdict: &str| {
        format!(
            "MSH|^~\\&|\"\"|{key}|\"\"|\"\"|20250113120000+0000||ACK^V04^ACK|7|P|2.5.1|||NE|NE|||||Z23^CDCPHINVS\n\
             MSA|{verdict}|\"\"\n"
        )
    };
    let missing = "ERR||PID^1^3^1^1|101^Required field missing^HL70357|W|1^^L\n";
    let mut all = Vec::new();
    let mut add = |key: &str, book: &[u8], expected: &str| {
        all.push(sample(&format!("MSH-6 {key:?}"), case(message(key), book.to_vec()), expected));
    };
    for key in ["\"\"", "\"\"^1.2^ISO", "\"\"~AX", "\"\"^\"\"~\"\""] {
        add(key, &with, &(answered(key, "AE") + missing));
    }
    for key in ["\"\"\"", "AX", "AX^\"\"", "AX~\"\""] {
        add(key, &with, &answered(key, "AA"));
    }
    for key in ["", "\"", "\"\"x", " \"\"", "\"\" ", "\"\"&", "^\"\"", "~\"\""] {
        add(key, &with, "refused 9 0\n");
    }
    add("\"\"", &book_ax(&[]), "refused 9 0\n");
    all
}
