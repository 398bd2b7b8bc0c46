//! What the batches among the cases hit.

use crate::coverage::{Hits, Row, KINDS, LONGEST};
use crate::quotes::Hit;
use second::batch::{self, FILE_LIMIT, POINTS};
use second::cases::{BatchCase, Pair, BATCH_PAIRS, ROWS};
use second::line::TABLE_RECORDS;

/// An ACK of so many findings has more bytes than this, since an ERR has over 40.
const SHORTEST_OF_MANY: u64 = 40 * TABLE_RECORDS as u64;
const PLACES: [&str; 3] = ["the first", "a middle", "the last"];

const VERDICTS: [&str; 3] = ["AA", "AE", "AR"];
const SIZES: [&str; 3] = ["no message", "one message", "several messages"];

#[derive(Default)]
pub struct Batches {
    /// Refusals 14, 15 and 11.
    refusals: [u64; 3],
    pairs: [u64; BATCH_PAIRS.len()],
    /// Files that lack one point of row 14 alone.
    points: [u64; POINTS.len()],
    /// Refusal 15 by the row that the first bad message meets.
    rows: [u64; ROWS.len()],
    /// By its place, and whether a later one is bad, too.
    places: [u64; PLACES.len()],
    followed: u64,
    /// Answered files by the number of messages.
    sizes: [u64; SIZES.len()],
    verdicts: [u64; VERDICTS.len()],
    /// Answered files of which a message has two quotes under a rule, by its kind.
    quotes: [u64; KINDS.len()],
    /// Answered files of which a message has other delimiters than the file.
    delimiters: u64,
    longest: u64,
    /// Answered files of which a message has more findings than the relay program lends records.
    many_findings: u64,
    past_32_bits: u64,
}

impl Batches {
    pub fn count(&mut self, case: &BatchCase, pair: Option<Pair>, (number, detail): (u8, u64)) {
        if let Some(aimed) = pair {
            let hit = |pair: &Pair| *pair == aimed && number == aimed.0;
            tally(&mut self.pairs, BATCH_PAIRS.iter().position(hit));
        }
        match number {
            0 => self.count_answered(case, detail),
            14 => self.count_shape(case),
            15 => self.count_culprit(case),
            _ => {
                self.refusals[2] += 1;
                self.past_32_bits += u64::from(detail > u32::MAX.into());
            }
        }
    }

    fn count_answered(&mut self, case: &BatchCase, length: u64) {
        let messages = batch::messages(&case.file);
        self.sizes[messages.len().min(2)] += 1;
        self.longest += u64::from(case.file.len() == FILE_LIMIT && !messages.is_empty());
        self.delimiters += u64::from(messages.iter().any(|message| message[3..8] != case.file[3..8]));
        let many = |message: &&[u8]| has_many_findings(message, &case.book);
        self.many_findings += u64::from(length > SHORTEST_OF_MANY && messages.iter().any(many));
        if length < LONGEST {
            let hits: Vec<Hits> = messages.iter().filter_map(|message| Hits::of(message, &case.book).ok()).collect();
            for (kind, count) in self.quotes.iter_mut().enumerate() {
                let is_under = |hit: &Hit| matches!(hit, Hit::Component { kind: under, .. } if *under == kind);
                *count += u64::from(hits.iter().flat_map(|hits| &hits.quotes).any(is_under));
            }
            let printed = case.printed();
            let codes = printed.split(|b| *b == b'\n').filter(|segment| segment.starts_with(b"MSA"));
            for (verdict, count) in VERDICTS.iter().zip(&mut self.verdicts) {
                *count += u64::from(codes.clone().any(|segment| segment[4..6] == *verdict.as_bytes()));
            }
        }
    }

    fn count_shape(&mut self, case: &BatchCase) {
        self.refusals[0] += 1;
        let points = batch::row_14(&case.file, case.control);
        let lacking: Vec<usize> = (0..points.len()).filter(|k| !points[*k]).collect();
        if let [alone] = lacking[..] {
            self.points[alone] += 1;
        }
    }

    fn count_culprit(&mut self, case: &BatchCase) {
        self.refusals[1] += 1;
        if let Some(culprit) = case.culprit() {
            tally(&mut self.rows, ROWS.iter().position(|row| *row == culprit.row));
            self.places[culprit.place] += 1;
            self.followed += u64::from(culprit.followed);
        }
    }

    pub fn rows(&self) -> Vec<Row> {
        let mut rows = Vec::new();
        let mut add = |label: String, count: u64| rows.push((format!("batch: {label}"), count));
        for (size, count) in SIZES.iter().zip(self.sizes) {
            add(format!("answered with {size}"), count);
        }
        for (verdict, count) in VERDICTS.iter().zip(self.verdicts) {
            add(format!("an ACK with {verdict}"), count);
        }
        for ((_, kind), count) in KINDS.iter().zip(self.quotes) {
            add(format!("two quotes under {kind}"), count);
        }
        add("delimiters of file and message differ".into(), self.delimiters);
        add("answered at 1 MiB".into(), self.longest);
        add("answered with over 8,192 findings of a message".into(), self.many_findings);
        for (number, count) in [14, 15, 11].iter().zip(self.refusals) {
            add(format!("refusal {number}"), count);
        }
        for (point, count) in POINTS.iter().zip(self.points) {
            add(format!("refusal 14 for {point} alone"), count);
        }
        for (row, count) in ROWS.iter().zip(self.rows) {
            add(format!("refusal 15 by row {row}"), count);
        }
        for (place, count) in PLACES.iter().zip(self.places) {
            add(format!("refusal 15 by {place} message"), count);
        }
        add("refusal 15 with a later bad message".into(), self.followed);
        add("refusal 11 past 32 bits".into(), self.past_32_bits);
        for ((earlier, later), count) in BATCH_PAIRS.iter().zip(self.pairs) {
            add(format!("refusal {earlier} before {later}"), count);
        }
        rows
    }
}

fn has_many_findings(message: &[u8], book: &[u8]) -> bool {
    matches!(second::grade(message, book, &mut []), (12, needed) if needed > TABLE_RECORDS as u64)
}

fn tally(counts: &mut [u64], at: Option<usize>) {
    if let Some(at) = at {
        counts[at] += 1;
    }
}
