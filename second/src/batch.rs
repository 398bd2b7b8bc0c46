//! A batch file (A4 of 02): row 14, the messages in it, and their ACKs joined.

use crate::ack::{self, Ack};
use crate::book::Book;
use crate::cutting::{self, Refusal};

pub const FILE_LIMIT: usize = 1_048_576;

/// The names of the frame, in the order of their segments.
const FRAME: [&[u8; 3]; 4] = [b"FHS", b"BHS", b"BTS", b"FTS"];

/// Number 0 and the length of the joined ACKs, or a refusal that leaves `out` as it is.
pub fn batch(file: &[u8], book: &[u8], stamp: &[u8], control: u32, out: &mut [u8]) -> (u8, u64) {
    match write_batch(file, book, stamp, control, out) {
        Ok(length) => (0, length),
        Err(refusal) => refusal,
    }
}

fn write_batch(file: &[u8], book: &[u8], stamp: &[u8], control: u32, out: &mut [u8]) -> Result<u64, Refusal> {
    if row_14(file, control).contains(&false) {
        return Err((14, 0));
    }
    // Without messages nobody asks whether it could be read.
    let book = Book::read(book);
    let mut acks: Vec<Ack> = Vec::new();
    let mut room = out.len() as u64;
    for (before, message) in (0..).zip(messages(file)) {
        let ack = Ack::of(message, &book, stamp, control + before, room).map_err(|_| (15, u64::from(before) + 1))?;
        room = room.saturating_sub(ack.length);
        acks.push(ack);
    }
    ack::join(&acks, out)
}

/// What a file lacks for which a point of `row_14` fails.
pub const POINTS: [&str; 23] = [
    "over 1 MiB",
    "no last CR",
    "fewer than four segments",
    "FHS not first",
    "BHS not second",
    "BTS not last but one",
    "FTS not last",
    "a frame name elsewhere",
    "no MSH after BHS",
    "a byte in FHS",
    "a byte in BHS",
    "a byte in BTS",
    "a byte in FTS",
    "FHS with fewer bytes",
    "FHS with a byte that may not delimit",
    "FHS with two equal delimiters",
    "FHS with another byte 8",
    "the form of BHS",
    "the form of BTS",
    "the form of FTS",
    "BTS-1",
    "FTS-1",
    "control numbers",
];

/// Row 14 point by point. A file of fewer than four segments has only the first three.
pub fn row_14(file: &[u8], control: u32) -> Vec<bool> {
    let whole = [file.len() <= FILE_LIMIT, file.ends_with(b"\r")];
    let Some(File { frame, body }) = File::cut(file) else {
        return [&whole[..], &[false]].concat();
    };
    let [fhs, bhs, bts, fts] = frame;
    let placed: [bool; 4] = std::array::from_fn(|k| frame[k].starts_with(FRAME[k]));
    let strays = segments(body).any(|segment| FRAME.iter().any(|name| segment.starts_with(*name)));
    let begun = segments(body).next().is_none_or(begins_message);
    let clean = frame.map(|segment| cutting::first_foreign_byte(segment).is_none());
    let [nine, _, allowed, differ, again] = cutting::opening(fhs, b"FHS");
    // FHS itself has row 5's form by its name, since byte 3 is its bar. No segment holds a CR.
    let bar = fhs.get(3).copied().unwrap_or(b'\r');
    let formed = [bhs, bts, fts].map(|segment| cutting::well_formed(segment, bar));
    let count = segments(body).filter(|segment| begins_message(segment)).count();
    let counted = [says(bts, bar, count), says(fts, bar, 1)];
    let numbered = u64::from(control) + count as u64 <= u64::from(u32::MAX) + 1;
    [
        &whole[..],
        &[true],
        &placed,
        &[!strays, begun],
        &clean,
        &[nine, allowed, differ, again],
        &formed,
        &counted,
        &[numbered],
    ]
    .concat()
}

/// The messages of a file that row 14 does not refuse: each begins at its MSH and runs to the next one or to BTS.
pub fn messages(file: &[u8]) -> Vec<&[u8]> {
    let body = File::cut(file).map_or(b"".as_slice(), |file| file.body);
    let mut starts = Vec::new();
    let mut at = 0;
    for segment in segments(body) {
        if begins_message(segment) {
            starts.push(at);
        }
        at += segment.len();
    }
    let ends = starts.iter().skip(1).copied().chain([body.len()]);
    starts.iter().zip(ends).map(|(start, end)| &body[*start..end]).collect()
}

/// A file of four segments or more.
struct File<'f> {
    /// The first two and the last two segments, without their CRs.
    frame: [&'f [u8]; 4],
    /// What stands between them.
    body: &'f [u8],
}

impl<'f> File<'f> {
    fn cut(file: &'f [u8]) -> Option<Self> {
        // The last CR ends the last segment and does not begin another one.
        let text = file.strip_suffix(b"\r").unwrap_or(file);
        let cut: Vec<&[u8]> = text.split(|b| *b == b'\r').collect();
        let [fhs, bhs, .., bts, fts] = cut[..] else {
            return None;
        };
        let body = &text[fhs.len() + bhs.len() + 2..text.len() - bts.len() - fts.len() - 1];
        Some(File { frame: [fhs, bhs, bts, fts], body })
    }
}

/// The segments between the frame's, each with its CR.
fn segments(body: &[u8]) -> impl Iterator<Item = &[u8]> {
    body.split_inclusive(|b| *b == b'\r')
}

fn begins_message(segment: &[u8]) -> bool {
    segment.starts_with(b"MSH")
}

/// Whether field 1 is empty or this number in decimal digits, with any zeros before them.
fn says(segment: &[u8], bar: u8, number: usize) -> bool {
    let field = segment.split(|b| *b == bar).nth(1).unwrap_or(b"");
    let zeros = field.iter().take_while(|b| **b == b'0').count();
    let digits = if number == 0 { String::new() } else { number.to_string() };
    field.is_empty() || field[zeros..] == *digits.as_bytes()
}

#[cfg(test)]
mod tests {
    use super::*;

    const MESSAGE: &str = "MSH|^~\\&|CAB|C1|REG|AX|||VXU^V04|M1|P|2.5.1\rPID\r";

    /// What is lacking of a file with control number 7.
    fn lacking(file: &str) -> Vec<&'static str> {
        let points = POINTS.iter().zip(row_14(file.as_bytes(), 7));
        points.filter(|(_, holds)| !holds).map(|(point, _)| *point).collect()
    }

    #[test]
    fn each_point_of_row_14_can_fail_alone() {
        let m = MESSAGE;
        let long = format!("FHS|^~\\&|\rBHS\r{m}ZZZ|{}\rBTS\rFTS\r", "x".repeat(FILE_LIMIT));
        let rows: Vec<(&str, String)> = vec![
            ("over 1 MiB", long),
            ("no last CR", format!("FHS|^~\\&|\rBHS\r{m}BTS\rFTS")),
            ("fewer than four segments", "FHS|^~\\&|\rBTS\rFTS\r".into()),
            ("FHS not first", format!("MSA|^~\\&|\rBHS\r{m}BTS\rFTS\r")),
            ("BHS not second", format!("FHS|^~\\&|\rZZZ\r{m}BTS\rFTS\r")),
            ("BTS not last but one", format!("FHS|^~\\&|\rBHS\r{m}FTS\r")),
            ("FTS not last", format!("FHS|^~\\&|\rBHS\r{m}BTS\rBTS\r")),
            ("a frame name elsewhere", format!("FHS|^~\\&|\rBHS\r{m}BHS\rBTS\rFTS\r")),
            ("no MSH after BHS", format!("FHS|^~\\&|\rBHS\rPID\r{m}BTS\rFTS\r")),
            ("a byte in FHS", format!("FHS|^~\\&|\t\rBHS\r{m}BTS\rFTS\r")),
            ("a byte in BHS", format!("FHS|^~\\&|\rBHS|\n\r{m}BTS\rFTS\r")),
            ("a byte in BTS", format!("FHS|^~\\&|\rBHS\r{m}BTS||\0\rFTS\r")),
            ("a byte in FTS", format!("FHS|^~\\&|\rBHS\r{m}BTS\rFTS||\x7F\r")),
            ("FHS with fewer bytes", format!("FHS|^~\\&\rBHS\r{m}BTS\rFTS\r")),
            ("FHS with a byte that may not delimit", format!("FHS|^~\\_|\rBHS\r{m}BTS\rFTS\r")),
            ("FHS with two equal delimiters", format!("FHS|^~\\^|\rBHS\r{m}BTS\rFTS\r")),
            ("FHS with another byte 8", format!("FHS|^~\\&!\rBHS\r{m}BTS\rFTS\r")),
            ("the form of BHS", format!("FHS|^~\\&|\rBHS!\r{m}BTS\rFTS\r")),
            ("the form of BTS", format!("FHS|^~\\&|\rBHS\r{m}BTSX\rFTS\r")),
            ("the form of FTS", format!("FHS|^~\\&|\rBHS\r{m}BTS\rFTS^\r")),
            ("BTS-1", format!("FHS|^~\\&|\rBHS\r{m}BTS|2\rFTS\r")),
            ("FTS-1", format!("FHS|^~\\&|\rBHS\r{m}BTS\rFTS|0\r")),
        ];
        for ((point, file), expected) in rows.iter().zip(POINTS) {
            assert_eq!((*point, lacking(file)), (expected, vec![expected]));
        }
        let two = format!("FHS|^~\\&|\rBHS\r{m}{m}BTS\rFTS\r");
        assert_eq!(row_14(two.as_bytes(), u32::MAX - 1), [true; POINTS.len()]);
        let points = row_14(two.as_bytes(), u32::MAX);
        assert_eq!(points.iter().position(|holds| !holds), Some(POINTS.len() - 1));
    }

    #[test]
    fn messages_run_to_the_next_one_or_to_the_end() {
        let file = b"FHS|^~\\&|\rBHS\rMSH|1\rPID\r\rMSH\rMSHX\rZZZ\rMS\rBTS\rFTS\r";
        assert_eq!(messages(file), [b"MSH|1\rPID\r\r".as_slice(), b"MSH\r", b"MSHX\rZZZ\rMS\r"]);
        assert!(messages(b"FHS|^~\\&|\rBHS\rBTS\rFTS\r").is_empty());
    }

    #[test]
    fn counts() {
        let takes = |field: &str, number| says(format!("BTS|{field}|9").as_bytes(), b'|', number);
        for field in ["", "3", "03", &format!("{}3", "0".repeat(70_000))] {
            assert!(takes(field, 3), "{field}");
        }
        for field in ["0", "13", "30", "33", "3~", "3^", " 3", "3 ", "+3", "-3", "3.", "0x3", "03a", "4294967299"] {
            assert!(!takes(field, 3), "{field}");
        }
        for (field, number) in [("0", 0), ("000", 0), ("", 0), ("10", 10), ("0010", 10)] {
            assert!(takes(field, number), "{field}");
        }
        for (field, number) in [("1", 0), ("~", 0), (" ", 0), ("00 ", 0), ("0", 10), ("1", 10)] {
            assert!(!takes(field, number), "{field}");
        }
        assert!(says(b"BTS", b'|', 3));
        assert!(says(b"BTS#3#|4", b'#', 3) && says(b"BTS#3#|4", b'|', 4));
    }
}
