//! Batch files: one case, and a generator of them that depends on a seed alone.

use super::delimiters::{self, USUAL};
use super::frames::Parts;
use super::{drafts, exchange, faults, large, length_needed, lent, mutate, near, places, plans};
use super::{Case, Five, Pair, Random};
use crate::batch::{self, messages, FILE_LIMIT, POINTS};
use crate::books::{self, SectionPlan};
use crate::limits::{self, HEADER};
use crate::samples::{self, STAMP};
use crate::{ack, line};

/// What one answer to a batch takes; the output is lent as so many bytes.
#[derive(Clone, Debug, PartialEq, Eq)]
pub struct BatchCase {
    pub file: Vec<u8>,
    pub book: Vec<u8>,
    pub stamp: Vec<u8>,
    pub control: u32,
    pub output_length: usize,
}

impl BatchCase {
    pub fn answer(&self, out: &mut [u8]) -> (u8, u64) {
        crate::batch(&self.file, &self.book, &self.stamp, self.control, out)
    }

    /// What the batch program prints for this case.
    pub fn printed(&self) -> Vec<u8> {
        line::printed_answer(self.output_length, |out| self.answer(out))
    }

    /// The length of the joined ACKs, if there would be some.
    pub fn joined_length(&self) -> Option<u64> {
        length_needed(self.answer(&mut []))
    }

    /// What makes refusal 15, if the case meets it.
    pub fn culprit(&self) -> Option<Culprit> {
        let (15, ordinal) = self.answer(&mut []) else {
            return None;
        };
        let messages = messages(&self.file);
        let (before, from) = messages.split_at(ordinal as usize - 1);
        let rows: Vec<u8> =
            from.iter().map(|message| ack::answer(message, &self.book, &self.stamp, 0, &mut []).0).collect();
        let place = match (before.len(), from.len()) {
            (0, _) => 0,
            (_, 1) => 2,
            _ => 1,
        };
        Some(Culprit { row: rows[0], place, followed: rows[1..].iter().any(|row| *row != 11) })
    }
}

/// The first bad message of a batch.
pub struct Culprit {
    /// The refusal that it meets alone.
    pub row: u8,
    /// First, between others or last: 0, 1, 2.
    pub place: usize,
    /// Whether a later one is bad, too.
    pub followed: bool,
}

/// Refusals of a batch, the earlier one first, whose conditions are both to be true.
pub const PAIRS: [Pair; 3] = [(14, 15), (14, 11), (15, 11)];
/// Rows that a message of a batch can meet. Row 1 it cannot, since it has the three bytes MSH at least.
pub const ROWS: [u8; 9] = [2, 3, 4, 5, 6, 7, 8, 9, 10];
/// Those of them that are the message's own.
const OWN_ROWS: [u8; 6] = [2, 3, 4, 5, 6, 9];

/// Where the first bad message stands and whether a later one is bad, too.
const PLACES: [(usize, bool); 5] = [(0, false), (0, true), (1, false), (1, true), (2, false)];
/// So many ACKs of the longest kind take more bytes than 32 bits can say.
const PAST_32_BITS: usize = 20;
/// Lengths around the limit of a file.
const LONGEST: [usize; 3] = [FILE_LIMIT - 1, FILE_LIMIT, FILE_LIMIT + 1];

/// Batches by their index: the samples first, then each point of row 14 broken alone, each row that makes 15, each place
/// of a bad message, each pair of refusals, the longest files, the longest output and a message with more findings than
/// the relay program lends records once, then random ones without end.
pub struct BatchGenerator {
    seed: u64,
    samples: Vec<BatchCase>,
    guides: Vec<Vec<u8>>,
}

impl BatchGenerator {
    pub fn new(seed: u64) -> Self {
        let samples = samples::batches::samples().into_iter().map(|sample| sample.case).collect();
        let guides = books::messages().into_iter().map(|(_, message)| message).collect();
        BatchGenerator { seed, samples, guides }
    }

    /// How many come before the random ones.
    pub fn firsts(&self) -> u64 {
        (self.samples.len() + POINTS.len() + ROWS.len() + PLACES.len() + PAIRS.len() + LONGEST.len() + 2) as u64
    }

    /// The batch of an index and the pair that it aims at.
    pub fn case(&self, index: u64) -> (BatchCase, Option<Pair>) {
        let random = &mut Random::new(self.seed, index);
        let at = index as usize;
        let (mut case, pair) = match self.samples.get(at) {
            Some(sample) => (sample.clone(), None),
            None => self.make(random, at - self.samples.len()),
        };
        // No room after the last byte, so that a reader that goes past it can be noticed.
        for bytes in [&mut case.file, &mut case.book, &mut case.stamp] {
            bytes.shrink_to_fit();
        }
        (case, pair)
    }

    /// What comes after the samples.
    fn make(&self, random: &mut Random, mut at: usize) -> (BatchCase, Option<Pair>) {
        if at < POINTS.len() {
            return (spoilt(random, at), None);
        }
        at -= POINTS.len();
        if let Some(row) = ROWS.get(at) {
            return (bad(random, |culprit| culprit.row == *row, &[*row]), None);
        }
        at -= ROWS.len();
        if let Some((place, followed)) = PLACES.get(at) {
            let wanted = |culprit: &Culprit| (culprit.place, culprit.followed) == (*place, *followed);
            return (bad(random, wanted, &OWN_ROWS), None);
        }
        at -= PLACES.len();
        if let Some(pair) = PAIRS.get(at) {
            return (paired(random, *pair), Some(*pair));
        }
        at -= PAIRS.len();
        match LONGEST.get(at) {
            Some(length) => (short_messages(*length), None),
            None if at == LONGEST.len() => (repeated(limits::repetitions(16_000, 256), PAST_32_BITS), None),
            None if at == LONGEST.len() + 1 => (many_findings(), None),
            None => self.random_case(random),
        }
    }

    fn random_case(&self, random: &mut Random) -> (BatchCase, Option<Pair>) {
        let case = match random.below(1024) {
            0 if random.one_in(8) => repeated(limits::repetitions(16_000, 256), 2),
            0 => short_messages(random.pick(&LONGEST)),
            1..4 => Draft::run(random).case(random),
            4..12 => with_long_message(random),
            12..20 => stretched(random),
            20..270 => {
                let point = random.below(POINTS.len());
                spoilt(random, point)
            }
            270..420 => {
                let row = random.pick(&ROWS);
                bad(random, |_| true, &[row])
            }
            420..520 => {
                let pair = random.pick(&PAIRS);
                return (paired(random, pair), Some(pair));
            }
            520..600 => self.guides(random),
            600..720 => {
                let mut case = Draft::any(random).case(random);
                for _ in 0..random.pick(&[1, 1, 2, 4]) {
                    mutate(random, &mut case.file);
                }
                case
            }
            720..800 => strewn(random),
            _ => Draft::any(random).case(random),
        };
        (lend(random, case), None)
    }

    /// The guides' messages under the registries' rules, few of them or many.
    fn guides(&self, random: &mut Random) -> BatchCase {
        let book = books::registries_book();
        let mut draft = Draft { messages: Vec::new(), book, stamp: near::stamp(random), control: 7 };
        let all = random.one_in(8);
        for _ in 0..random.pick(&[1, 2, 3, 6, 20]) {
            let message = self.guides[random.below(self.guides.len())].clone();
            if all || draft.answers(&message, &USUAL) {
                draft.messages.push((message, USUAL));
            }
        }
        draft.case(random)
    }
}

/// A batch before its frame is put around it: messages with the usual delimiters, each with those that it is to have.
struct Draft {
    messages: Vec<(Vec<u8>, Five)>,
    book: Vec<u8>,
    stamp: Vec<u8>,
    control: u32,
}

impl Draft {
    /// So many messages that are answered, each for any section of the book.
    fn sound(random: &mut Random, count: usize) -> Self {
        let (sections, _) = plans::sections(random);
        let (stamp, control) = (near::stamp(random), control(random, count));
        let mut draft = Draft { messages: Vec::new(), book: books::encode(&sections), stamp, control };
        while draft.messages.len() < count {
            let section = &sections[random.below(sections.len())];
            let message = drafts::draft(random, section).message();
            let five = delimiters::five(random);
            if draft.answers(&message, &five) {
                draft.messages.push((message, five));
            }
        }
        draft
    }

    fn any(random: &mut Random) -> Self {
        let count = random.pick(&[0, 1, 1, 1, 2, 2, 3, 3, 4, 5, 8, 12]);
        Draft::sound(random, count)
    }

    /// A few messages again and again.
    fn run(random: &mut Random) -> Self {
        let mut draft = Draft::sound(random, 3);
        let count = random.pick(&[90, 100, 256, 257, 1_000]);
        draft.control = control(random, count);
        draft.messages = draft.messages.into_iter().cycle().take(count).collect();
        draft
    }

    /// Whether a message is answered alone, and has no second MSH, at which a batch would cut it.
    fn answers(&self, message: &[u8], five: &Five) -> bool {
        let message = exchanged(message, five);
        let (number, _) = ack::answer(&message, &self.book, &self.stamp, self.control, &mut []);
        number == 11 && messages(&limits::batch(&message)).len() == 1
    }

    /// Makes the condition of a row true for one message, or for all where it is about book or stamp.
    fn spoil(&mut self, random: &mut Random, at: usize, row: u8) {
        let [message, book, stamp] = [&self.messages[at].0, &self.book, &self.stamp].map(Clone::clone);
        let mut case = Case { message, book, stamp, control: 0, output_length: 0, place: [0; 4] };
        faults::put(random, &mut case, row);
        self.messages[at].0 = case.message;
        (self.book, self.stamp) = (case.book, case.stamp);
    }

    fn parts(&self, random: &mut Random) -> Parts {
        Parts::around(random, self.messages.iter().map(|(message, five)| exchanged(message, five)).collect())
    }

    fn case(self, random: &mut Random) -> BatchCase {
        let file = self.parts(random).file();
        self.with_file(file)
    }

    fn with_file(self, file: Vec<u8>) -> BatchCase {
        let Draft { book, stamp, control, .. } = self;
        BatchCase { file, book, stamp, control, output_length: 0 }
    }
}

fn exchanged(message: &[u8], five: &Five) -> Vec<u8> {
    let mut message = message.to_vec();
    exchange(&mut message, five);
    message
}

/// A first control number that leaves enough for so many messages, sometimes just so.
fn control(random: &mut Random, count: usize) -> u32 {
    let last = u32::MAX - count.saturating_sub(1) as u32;
    random.pick(&[0, 7, 9, 98, 65_535, 999_999_999, 2_147_483_647, last]).min(last)
}

/// A file that lacks one point of row 14 alone.
fn spoilt(random: &mut Random, point: usize) -> BatchCase {
    loop {
        let count = random.between(0, 4);
        let mut draft = Draft::sound(random, if POINTS[point] == "control numbers" { count + 2 } else { count });
        let file = draft.parts(random).spoilt(random, &mut draft.control, point);
        let case = draft.with_file(file);
        let points = batch::row_14(&case.file, case.control);
        if points.iter().enumerate().all(|(k, holds)| *holds == (k != point)) {
            return lend(random, case);
        }
    }
}

/// One message that meets one of the rows, sometimes another bad one, until the first of them is as wanted.
fn bad(random: &mut Random, wanted: impl Fn(&Culprit) -> bool, rows: &[u8]) -> BatchCase {
    loop {
        let count = random.between(1, 5);
        let mut draft = Draft::sound(random, count);
        let at = random.below(count);
        let row = random.pick(rows);
        draft.spoil(random, at, row);
        let other = random.below(count);
        if other != at && random.one_in(2) {
            let row = random.pick(&OWN_ROWS);
            draft.spoil(random, other, row);
        }
        let case = draft.case(random);
        if case.culprit().is_some_and(|culprit| wanted(&culprit)) {
            return BatchCase { output_length: 65_536, ..case };
        }
    }
}

fn paired(random: &mut Random, (earlier, later): Pair) -> BatchCase {
    loop {
        let count = random.between(2, 4);
        let mut draft = Draft::sound(random, count);
        if earlier == 15 || later == 15 {
            let (at, row) = (random.below(count), random.pick(&ROWS));
            draft.spoil(random, at, row);
        }
        let parts = draft.parts(random);
        let file = if earlier == 14 {
            let point = random.below(POINTS.len());
            parts.spoilt(random, &mut draft.control, point)
        } else {
            parts.file()
        };
        let output_length = if later == 11 { random.below(90) } else { 65_536 };
        let case = BatchCase { output_length, ..draft.with_file(file) };
        if case.answer(&mut vec![0; output_length]).0 == earlier {
            return case;
        }
    }
}

/// A file of so many bytes, with room for its ACKs.
fn short_messages(length: usize) -> BatchCase {
    let (file, _) = limits::batch_of(length);
    let book = books::encode(&[SectionPlan::new("AX")]);
    BatchCase { file, book, stamp: STAMP.to_vec(), control: 7, output_length: 4_194_304 }
}

/// A message so many times, and no output.
fn repeated((message, book): (Vec<u8>, Vec<u8>), count: usize) -> BatchCase {
    let file = limits::batch(&message.repeat(count));
    BatchCase { file, book, stamp: STAMP.to_vec(), control: 7, output_length: 0 }
}

/// A message with more findings than the relay program lends records between two short ones, and room for their ACKs: a
/// batch has no table.
fn many_findings() -> BatchCase {
    let (message, book) = limits::repetitions(line::TABLE_RECORDS + 1, 1);
    let case = repeated(([HEADER, &message, HEADER].concat(), book), 1);
    BatchCase { output_length: case.joined_length().unwrap_or(0) as usize, ..case }
}

/// A message near 32,768 bytes between two short ones.
fn with_long_message(random: &mut Random) -> BatchCase {
    let (message, book) = large::message(random, false);
    let messages = [HEADER.to_vec(), message, HEADER.to_vec()].map(|message| (message, USUAL)).into();
    Draft { messages, book, stamp: near::stamp(random), control: 7 }.case(random)
}

/// A sound batch that has as many bytes as a file may have.
fn stretched(random: &mut Random) -> BatchCase {
    let draft = Draft::any(random);
    let mut parts = draft.parts(random);
    parts.lengthen(random, FILE_LIMIT);
    draft.with_file(parts.file())
}

/// Segments that begin something, end something or are none, anywhere in the file.
fn strewn(random: &mut Random) -> BatchCase {
    let segments: [&[u8]; 14] = [
        b"BTS\r",
        b"BTS|1\r",
        b"BTSX\r",
        b"FTS\r",
        b"FTS|1\r",
        b"BHS|\r",
        b"FHS|^~\\&|\r",
        b"bts\r",
        b"MSH\r",
        b"MSHX|\r",
        b"MSH|^~\\&|CAB\r",
        b"\r",
        b"PID\r",
        HEADER,
    ];
    let mut case = Draft::any(random).case(random);
    for _ in 0..random.pick(&[1, 1, 2, 3]) {
        let at = places::segment_start(random, &case.file);
        let segment = random.pick(&segments);
        case.file.splice(at..at, segment.iter().copied());
    }
    case
}

fn lend(random: &mut Random, mut case: BatchCase) -> BatchCase {
    case.output_length = lent(random, case.joined_length(), 524_288);
    case
}

#[cfg(test)]
mod tests {
    use super::*;

    #[test]
    fn sound_batches_are_answered() {
        for index in 0..300 {
            let random = &mut Random::new(5, index);
            let draft = Draft::any(random);
            let count = draft.messages.len();
            let case = draft.case(random);
            assert_eq!(messages(&case.file).len(), count);
            assert_eq!(case.answer(&mut vec![0; 1 << 20]).0, 0, "{case:?}");
        }
    }

    #[test]
    fn each_point_and_each_row_is_hit() {
        for index in 0..20 {
            let random = &mut Random::new(6, index);
            for (point, label) in POINTS.iter().enumerate() {
                assert_eq!(spoilt(random, point).answer(&mut []), (14, 0), "{label}");
            }
            for row in ROWS {
                let case = bad(random, |culprit| culprit.row == row, &[row]);
                assert_eq!(case.answer(&mut vec![0; case.output_length]).0, 15, "{row}");
            }
            for pair in PAIRS {
                let case = paired(random, pair);
                assert_eq!(case.answer(&mut vec![0; case.output_length]).0, pair.0);
            }
        }
    }

    #[test]
    fn an_index_has_one_batch() {
        let (one, other) = (BatchGenerator::new(3), BatchGenerator::new(3));
        let first = one.firsts();
        for index in (first..first + 500).rev() {
            assert!(one.case(index) == other.case(index));
        }
    }
}
