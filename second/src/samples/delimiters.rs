//! Messages with delimiters of their own (A1 of 02). Every byte that may be one is one in an answered sample.

use super::{at, book_ax, case, lines, sample, worked_example, Sample};
use crate::books::{self, rule, SectionPlan};
use crate::cases::Case;

pub fn samples() -> Vec<Sample> {
    let mut all = examples();
    all.extend(verdicts());
    all.extend(plain_text());
    all.extend(later_headers());
    all.extend(beginnings());
    all.extend(bars_and_keys());
    all
}

/// 01's worked example with another caret, then with five others.
fn examples() -> Vec<Sample> {
    let book = worked_example().case.book;
    let caret = lines(
        "MSH|#~\\&|CAB|C1|REG|AX|20250113115900+0000||VXU#V04#VXU_V04|M1|P|2.5.1\n\
         PID|1||77||ROE#ANN||20240230\n",
    );
    let caret_ack = "MSH|#~\\&|REG|AX|CAB|C1|20250113120000+0000||ACK#V04#ACK|7|P|2.5.1|||NE|NE|||||Z23#CDCPHINVS\n\
         MSA|AE|M1\n\
         ERR||PID#1#7#1#1|102#Data type error#HL70357|E|1##L\n\
         ERR||PID#1#8#1|101#Required field missing#HL70357|W|3##L\n";
    let five = lines(
        "MSH!#$%'!CAB!C1!REG!AX!20250113115900+0000!!VXU#V04#VXU_V04!M1!P!2.5.1\n\
         PID!1!!77!!ROE#ANN!!20240230\n",
    );
    let five_ack = "MSH!#$%'!REG!AX!CAB!C1!20250113120000+0000!!ACK#V04#ACK!7!P!2.5.1!!!NE!NE!!!!!Z23#CDCPHINVS\n\
         MSA!AE!M1\n\
         ERR!!PID#1#7#1#1!102#Data type error#HL70357!E!1##L\n\
         ERR!!PID#1#8#1!101#Required field missing#HL70357!W!3##L\n";
    let caret = case(caret, book.clone());
    let five = case(five, book);
    // As long as the worked example's ACK.
    let short = Case { output_length: 210, ..five.clone() };
    vec![
        at([2, 5, 1, 2], "ANN", sample("# for the caret", caret, caret_ack)),
        at([1, 2, 1, 1], "#$%'", sample("five other delimiters", five, five_ack)),
        at([2, 3, 1, 0], "77", sample("other delimiters, a short output", short, "refused 11 211\n")),
    ]
}

/// The codes that the worked example lacks: order, the end, CODE, and those of the header.
fn verdicts() -> Vec<Sample> {
    let section = SectionPlan {
        rules: vec![rule("PID", 8, 0, 6, b'W', [1, 0, 0]), rule("PID", 3, 2, 1, b'I', [0, 0, 0])],
        sets: vec![vec![b"F".to_vec(), b"M".to_vec()]],
        ..SectionPlan::new("AX")
    };
    let faulty = lines(
        "MSH:;<=>:CAB:C1:REG:AX:::VXU;V04:M1:P:2.5.1\n\
         PID:1::77<88;B:::::F<X<F>\n\
         RXA\n\
         ORC\n",
    );
    let faulty_ack = "MSH:;<=>:REG:AX:CAB:C1:20250113120000+0000::ACK;V04;ACK:7:P:2.5.1:::NE:NE:::::Z23;CDCPHINVS\n\
         MSA:AE:M1\n\
         ERR::PID;1;8;2:103;Table value not found;HL70357:W:1;;L\n\
         ERR::PID;1;8;3:103;Table value not found;HL70357:W:1;;L\n\
         ERR::PID;1;3;1;2:101;Required field missing;HL70357:I:2;;L\n\
         ERR::RXA;1:100;Segment sequence error;HL70357:E:0;;L\n\
         ERR:::100;Segment sequence error;HL70357:E:0;;L\n";
    let rejected = lines("MSH()*,/(CAB(C1(REG(AX(((ADT)A01(M1(X(2.5\nPID\n");
    let rejected_ack = "MSH()*,/(REG(AX(CAB(C1(20250113120000+0000((ACK)V04)ACK(7(X(2.5.1(((NE(NE(((((Z23)CDCPHINVS\n\
         MSA(AR(M1\n\
         ERR((MSH)1)9)1)1(200)Unsupported message type)HL70357(E(0))L\n\
         ERR((MSH)1)9)1)2(201)Unsupported event code)HL70357(E(0))L\n\
         ERR((MSH)1)11)1)1(202)Unsupported processing id)HL70357(E(0))L\n\
         ERR((MSH)1)12)1)1(203)Unsupported version id)HL70357(E(0))L\n";
    let faulty = case(faulty, books::encode(&[section]));
    let rejected = case(rejected, book_ax(&[]));
    vec![
        at([2, 3, 2, 2], "B", sample("other delimiters, AE", faulty, faulty_ack)),
        at([1, 1, 1, 0], "(", sample("other delimiters, AR", rejected, rejected_ack)),
    ]
}

/// The usual five as ordinary characters, and with each other's meaning.
fn plain_text() -> Vec<Sample> {
    let plain = lines(
        "MSH?@[]{?A|B^C?D~E\\F?REG@1[2?AX@x[y???VXU@V04?M|1^2?P@x|y^z?2.5.1\n\
         PID???a|b^c~d\\e&f@20240229\n",
    );
    let plain_ack = "MSH?@[]{?REG@1[2?AX@x[y?A|B^C?D~E\\F?20250113120000+0000??ACK@V04@ACK?7?P@x|y^z?2.5.1???NE?NE\
         ?????Z23@CDCPHINVS\n\
         MSA?AA?M|1^2\n\
         ERR??PID@1@3@1@1?102@Data type error@HL70357?I?3@@L\n";
    // PID-3.1 has eleven bytes.
    let plain_rules = [
        rule("PID", 3, 1, 2, b'E', [0, 11, 11]),
        rule("PID", 3, 2, 4, b'E', [0, 0, 0]),
        rule("PID", 3, 1, 3, b'I', [0, 0, 0]),
    ];
    let turned = lines(
        "MSH^|&~\\^CAB^C1^REG^AX|1&BX^^^VXU|V04^M1^T^2.5.1\n\
         PID^^^x&20240229&&y\n",
    );
    let turned_ack =
        "MSH^|&~\\^REG^AX|1&BX^CAB^C1^20250113120000+0000^^ACK|V04|ACK^7^T^2.5.1^^^NE^NE^^^^^Z23|CDCPHINVS\n\
         MSA^AE^M1\n\
         ERR^^PID|1|3|1|1^102|Data type error|HL70357^W^1||L\n\
         ERR^^PID|1|3|4|1^102|Data type error|HL70357^W^1||L\n";
    let plain = case(plain, book_ax(&plain_rules));
    let turned = case(turned, book_ax(&[rule("PID", 3, 1, 4, b'W', [0, 0, 0])]));
    vec![
        at([2, 3, 1, 1], "a|b^c~d\\e&f", sample("the usual delimiters as plain text", plain, plain_ack)),
        at([2, 3, 4, 1], "y", sample("the usual delimiters in other places", turned, turned_ack)),
    ]
}

/// A later MSH is cut by the first one's delimiters, whatever it names itself.
fn later_headers() -> Vec<Sample> {
    let message = lines(
        "MSH}`&^|}CAB}C1}REG}AX}}}VXU`V04}M1}P}2.5.1\n\
         PID\n\
         MSH}^~\\&}q`1&r\n\
         MSH\n",
    );
    let ack = "MSH}`&^|}REG}AX}CAB}C1}20250113120000+0000}}ACK`V04`ACK}7}P}2.5.1}}}NE}NE}}}}}Z23`CDCPHINVS\n\
         MSA}AE}M1\n\
         ERR}}MSH`1`3`1`2}101`Required field missing`HL70357}W}1``L\n\
         ERR}}MSH`2}100`Segment sequence error`HL70357}E}0``L\n\
         ERR}}MSH`3}100`Segment sequence error`HL70357}E}0``L\n\
         ERR}}MSH`3`3`1`2}101`Required field missing`HL70357}W}1``L\n\
         ERR}}}100`Segment sequence error`HL70357}E}0``L\n";
    let book = book_ax(&[rule("MSH", 3, 2, 1, b'W', [0, 0, 0])]);
    let places = [([3, 1, 1, 0], "}"), ([3, 2, 1, 1], "^~\\&"), ([3, 3, 2, 0], "r")];
    places
        .map(|(place, text)| {
            let name = format!("a later MSH with other delimiters, place {place:?}");
            at(place, text, sample(&name, case(message.clone(), book.clone()), ack))
        })
        .into()
}

/// Bytes 3 to 8 that break one of row 4's conditions alone: every pair, a byte of every kind that may not delimit, and
/// byte 8.
pub(super) const WRONG_BEGINNINGS: [&str; 21] = [
    "!!$%'!", "!#!%'!", "!#$!'!", "!#$%!!", "!##%'!", "!#$#'!", "!#$%#!", "!#$$'!", "!#$%$!", "!#$%%!", "A#$%'A",
    "!z$%'!", "!#0%'!", "!#$ '!", "!#$%\"!", ".#$%'.", "!+$%'!", "!#-%'!", "!#$_'!", "!#$%\r!", "!#$%'|",
];

/// Each of row 4's conditions broken alone.
fn beginnings() -> Vec<Sample> {
    let long = WRONG_BEGINNINGS.iter().map(|six| format!("MSH{six}CAB\r"));
    long.chain(["MSG!#$%'!CAB\r".into(), "MSH!#$%'".into()])
        .map(|message| {
            let case = case(message.clone().into_bytes(), book_ax(&[]));
            at([1, 1, 1, 0], "", sample(&format!("beginning {message:?}"), case, "refused 4 0\n"))
        })
        .collect()
}

/// Row 5 goes by the own bar, row 9 by the own caret; the book's alphabet is as before.
fn bars_and_keys() -> Vec<Sample> {
    let odd_key = books::encode(&[SectionPlan::new("A#X")]);
    let named = |four: &str, key: &str| {
        format!("MSH|{four}|CAB|C1|REG|{key}|||VXU{caret}V04|M1|P|2.5.1\rPID\r", caret = &four[..1])
    };
    let found = |four: &str| {
        format!(
            "MSH|{four}|REG|A#X|CAB|C1|20250113120000+0000||ACK^V04^ACK|7|P|2.5.1|||NE|NE|||||Z23^CDCPHINVS\n\
             MSA|AA|M1\n"
        )
    };
    let rows: [(&str, String, String); 4] = [
        ("nine bytes and a CR, other delimiters", "MSH!#$%'!\r".into(), "refused 6 0\n".into()),
        ("a later MSH with another bar", "MSH!#$%'!CAB\rPID\rMSH|^~\\&|CAB\r".into(), "refused 5 17\n".into()),
        ("the usual bar in a later segment", "MSH!#$%'!CAB\rPID|1\r".into(), "refused 5 13\n".into()),
        ("MSH-6.1 with a caret", named("#~\\&", "AX^1"), "refused 9 0\n".into()),
    ];
    let odd_rows: [(&str, String, String); 3] = [
        ("a key with the own caret", named("#~\\&", "A#X"), "refused 9 0\n".into()),
        ("a key with another's caret", named("^~\\&", "A#X"), found("^~\\&")),
        // Only bars, tildes and carets cut.
        ("a key with the own ampersand", named("^~\\#", "A#X"), found("^~\\#")),
    ];
    let rows = rows.into_iter().map(|row| (row, book_ax(&[])));
    rows.chain(odd_rows.into_iter().map(|row| (row, odd_key.clone())))
        .map(|((name, message, expected), book)| sample(name, case(message.into_bytes(), book), &expected))
        .collect()
}
