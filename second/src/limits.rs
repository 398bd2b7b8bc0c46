//! Messages, books and batch files that are long on purpose, for the pack, the comparison and the benchmark.

use crate::books::{self, rule, RuleBytes, SectionPlan};

/// A sound header for a section AX.
pub const HEADER: &[u8] = b"MSH|^~\\&|CAB|C1|REG|AX|||VXU^V04|M1|P|2.5.1\r";

fn book(rules: Vec<RuleBytes>) -> Vec<u8> {
    books::encode(&[SectionPlan { rules, ..SectionPlan::new("AX") }])
}

/// A message of so many bytes, `PID` and its CR again and again, under rules that each one breaks.
pub fn short_segments(length: usize, rules: usize) -> (Vec<u8>, Vec<u8>) {
    let mut message = HEADER.to_vec();
    while message.len() + 8 <= length {
        message.extend(b"PID\r");
    }
    message.extend(b"ZZZ|");
    message.resize(length - 1, b'x');
    message.push(b'\r');
    (message, book(vec![rule("PID", 3, 1, 1, b'W', [0, 0, 0]); rules]))
}

/// One field of so many repetitions under rules that each repetition breaks.
pub fn repetitions(count: usize, rules: usize) -> (Vec<u8>, Vec<u8>) {
    let message = [HEADER, b"PID|||", &b"x~".repeat(count - 1), b"x\r"].concat();
    (message, book(vec![rule("PID", 3, 0, 3, b'E', [0, 0, 0]); rules]))
}

/// A CODE rule with so many codes over so many repetitions that hold its last one.
pub fn codes(count: usize, codes: usize) -> (Vec<u8>, Vec<u8>) {
    let set: Vec<Vec<u8>> = (1..=codes).map(|code| format!("{code:04}").into_bytes()).collect();
    let value = [set[codes - 1].as_slice(), b"~"].concat();
    let message = [HEADER, b"PID|||", &value.repeat(count - 1), &set[codes - 1], b"\r"].concat();
    let rules = vec![rule("PID", 3, 0, 6, b'E', [1, 0, 0])];
    (message, books::encode(&[SectionPlan { rules, sets: vec![set], ..SectionPlan::new("AX") }]))
}

/// New Jersey's adult with so many doses, each the one that the guide prints.
pub fn doses(count: usize) -> Vec<u8> {
    let message = books::message("restored-002-vxu-2");
    let dose = message.windows(4).position(|window| window == b"\rORC").map_or(message.len(), |at| at + 1);
    [&message[..dose], &message[dose..].repeat(count)].concat()
}

/// As many doses as a message holds, up to the last one's RXA: as the guide prints them, and with the first or the last
/// segment alone breaking a rule of New Jersey's that has severity E, for MSH-3 or RXA-20.
pub fn longest_doses() -> [Vec<u8>; 3] {
    let text = String::from_utf8(doses(46)).expect("the guides' messages are ASCII");
    let (clean, _) = text.rsplit_once("RXR").expect("a dose has RXR");
    let first = clean.replacen("|NJIIS|", "||", 1);
    let last = clean.strip_suffix("|CP|A\r").expect("RXA ends with RXA-20 and RXA-21").to_string() + "|XX|A\r";
    [clean.into(), first.into(), last.into()]
}

/// A book of some bytes, up to 65,536, with New Jersey's section and a filler.
pub fn book_of(length: usize) -> Vec<u8> {
    let sections = vec![books::section("NJDOH", "NJ")];
    let size = books::encode(&sections).len();
    books::encode(&[sections, vec![books::filler("FILLER", length - size)]].concat())
}

/// A section NJDOH of so many rules, New Jersey's over and over.
pub fn rules_of(count: usize) -> Vec<u8> {
    let mut section = books::section("NJDOH", "NJ");
    section.rules = section.rules.into_iter().cycle().take(count).collect();
    books::encode(&[section])
}

/// A book of 65,536 bytes with the most text for them: 64 sections with keys of 20 bytes, each with 64 sets of one code,
/// and rules that name the last of them.
pub fn wordiest_book() -> Vec<u8> {
    let rule = rule("PID", 99, 20, 6, b'E', [64, 0, 0]);
    let section = |number: usize| SectionPlan {
        key: format!("{number:0>20}").into_bytes(),
        rules: vec![rule; if number == 1 { 99 } else { 74 }],
        sets: vec![vec![b"x".to_vec()]; 64],
    };
    books::encode(&(1..=64).map(section).collect::<Vec<_>>())
}

/// A batch file with the usual delimiters and no counts.
pub fn batch(messages: &[u8]) -> Vec<u8> {
    [b"FHS|^~\\&|\rBHS\r", messages, b"BTS\rFTS\r"].concat()
}

/// A batch file of so many bytes: short messages for a section AX, the last one longer, and their number.
pub fn batch_of(length: usize) -> (Vec<u8>, usize) {
    let message = [HEADER, b"PID\r"].concat();
    let end = b"ZZZ|\r".len();
    let body = length - batch(b"").len();
    let count = (body - end) / message.len();
    let filler = vec![b'x'; body - end - count * message.len()];
    (batch(&[&message.repeat(count), b"ZZZ|".as_slice(), &filler, b"\r"].concat()), count)
}

#[cfg(test)]
mod tests {
    use super::*;
    use crate::batch::FILE_LIMIT;
    use crate::cutting::MESSAGE_LIMIT;
    use crate::samples::{case, STAMP};

    fn digits(number: u64) -> u64 {
        number.to_string().len() as u64
    }

    #[test]
    fn details_are_exact_without_building_the_ack() {
        // Head: the worked example's first line with its CR, and MSA|AE|M1 with its CR.
        let head = 92 + 10;
        let needed = |(message, book)| case(message, book).ack_length();
        // Every repetition breaks every rule: ERR||PID^1^3^r|102^Data type error^HL70357|E|n^^L and CR.
        let each = "ERR||PID^1^3^|102^Data type error^HL70357|E|^^L\r".len() as u64;
        let mut length = head;
        for rule in 1..=256 {
            for repetition in 1..=16_000 {
                length += each + digits(rule) + digits(repetition);
            }
        }
        assert_eq!(needed(repetitions(16_000, 256)), Some(length));
        // Every PID but the first breaks the order; every PID breaks the rule.
        let (message, book) = short_segments(32_768, 1);
        let count = message.split(|b| *b == b'\r').filter(|segment| segment == b"PID").count() as u64;
        // The header takes 44 bytes, the last segment four.
        assert_eq!((message.len(), count), (32_768, 8_180));
        let mut length = head;
        for number in 1..=count {
            length += "ERR||PID^^3^1^1|101^Required field missing^HL70357|W|1^^L\r".len() as u64 + digits(number);
            if number > 1 {
                length += "ERR||PID^|100^Segment sequence error^HL70357|E|0^^L\r".len() as u64 + digits(number);
            }
        }
        assert_eq!(needed((message, book)), Some(length));
        let (message, book) = codes(6_500, 1_024);
        assert_eq!(needed((message, book)), Some(head));
    }

    #[test]
    fn books_have_their_sizes() {
        for size in [16_384, 32_768, 65_536] {
            assert_eq!(book_of(size).len(), size);
        }
        let printed = |message, book| String::from_utf8_lossy(&case(message, book).printed()).into_owned();
        for book in [book_of(65_536), rules_of(256), books::registries_book(), books::largest_book()] {
            assert!(!printed(doses(5), book).starts_with("refused"));
        }
    }

    #[test]
    fn the_longest_doses_break_nothing_or_one_rule() {
        let [clean, first, last] = longest_doses().map(|message| {
            assert!((32_000..=MESSAGE_LIMIT).contains(&message.len()));
            let case = case(message, books::registries_book());
            let printed = String::from_utf8(case.printed()).unwrap_or_default();
            let errs: Vec<String> = printed.lines().skip(2).map(Into::into).collect();
            (case.lamp(), errs)
        });
        let of = |text: &str| vec![text.to_string()];
        assert_eq!(clean, ((0, 1), vec![]));
        assert_eq!(first, ((0, 0), of("ERR||MSH^1^3^1^1|101^Required field missing^HL70357|E|1^^L")));
        assert_eq!(last, ((0, 0), of("ERR||RXA^46^20^1|103^Table value not found^HL70357|E|113^^L")));
    }

    #[test]
    fn files_of_one_mib_and_a_byte_more() {
        let (file, count) = batch_of(FILE_LIMIT);
        let mut out = vec![0; 4_194_304];
        // An ACK's header line with a control number of one digit takes 92 bytes, MSA|AA|M1 with its CR takes 10.
        let length = (0..count as u64).map(|before| 92 - 1 + digits(7 + before) + 10).sum();
        assert_eq!((file.len(), crate::batch(&file, &book(vec![]), STAMP, 7, &mut out)), (FILE_LIMIT, (0, length)));
        let (file, _) = batch_of(FILE_LIMIT + 1);
        assert_eq!((file.len(), crate::batch(&file, &book(vec![]), STAMP, 7, &mut out)), (FILE_LIMIT + 1, (14, 0)));
    }

    #[test]
    #[cfg_attr(debug_assertions, ignore = "takes long where nothing is optimised")]
    fn a_joined_length_past_32_bits() {
        let (message, book) = repetitions(16_000, 256);
        let of =
            |messages: usize, control| crate::batch(&batch(&message.repeat(messages)), &book, STAMP, control, &mut []);
        let (number, alone) = of(1, 9);
        // The second control number and all later ones have two digits.
        assert_eq!((number, of(20, 9)), (11, (11, alone * 20 + 19)));
        assert!(alone * 20 > 1 << 32);
    }
}
