//! Inputs of the relay: one case, and a generator of them that depends on a seed alone.

mod batches;
mod delimiters;
mod diffs;
mod drafts;
mod faults;
mod frames;
mod large;
mod near;
mod places;
mod plans;
mod random;
mod records;
mod sources;
mod variants;

pub use batches::{BatchCase, BatchGenerator, PAIRS as BATCH_PAIRS, ROWS};
pub use delimiters::{exchange, Five, ALLOWED};
pub use diffs::{DiffCase, DiffGenerator};
#[cfg(test)]
pub(crate) use faults::FAULTY_RULES;
pub use near::QUOTES;
pub use places::place;
pub use random::Random;
pub use records::{filled_table, pairs as write_pairs, tables, WriteCase, WriteGenerator, LONGEST_TABLE};
pub use sources::{number_of, BookCall, BookCase, BookGenerator, BOOK_ROWS, NO_SECTION};

use crate::books::{self, SectionPlan};
use crate::booktext::Told;
use crate::{ack, line, samples};

/// What grading and writing take, and a place to locate in the message; the output is lent as so many bytes.
#[derive(Clone, Debug, PartialEq, Eq)]
pub struct Case {
    pub message: Vec<u8>,
    pub book: Vec<u8>,
    pub stamp: Vec<u8>,
    pub control: u32,
    pub output_length: usize,
    /// Segment, field, repetition, component.
    pub place: [u32; 4],
}

impl Case {
    /// By the call that A2 gives up: what grading and then writing give where the table has room.
    pub fn answer(&self, out: &mut [u8]) -> (u8, u64) {
        ack::answer(&self.message, &self.book, &self.stamp, self.control, out)
    }

    /// What the relay program prints for this case.
    pub fn printed(&self) -> Vec<u8> {
        line::printed_answer(self.output_length, |out| {
            line::relay(&self.message, &self.book, &self.stamp, self.control, out)
        })
    }

    /// How many records grading needs, if it is not refused before they are counted.
    pub fn findings(&self) -> Result<u64, (u8, u64)> {
        match crate::grade(&self.message, &self.book, &mut []) {
            (0 | 12, count) => Ok(count),
            refusal => Err(refusal),
        }
    }

    pub fn lamp(&self) -> (u8, u64) {
        crate::lamp(&self.message, &self.book, &self.stamp)
    }

    /// The bytes at the case's place.
    pub fn located(&self) -> &[u8] {
        let (start, length) = crate::locate(&self.message, self.place.map(|number| number as usize));
        &self.message[start..start + length]
    }

    /// The length of the ACK, if there would be one.
    pub fn ack_length(&self) -> Option<u64> {
        length_needed(self.answer(&mut []))
    }
}

/// What refusal 11 says.
fn length_needed((number, detail): (u8, u64)) -> Option<u64> {
    (number == 11).then_some(detail)
}

/// What a program that runs packed cases prints of books as text.
fn printed_told(output_length: usize, answer: impl FnOnce(&mut [u8]) -> Told) -> Vec<u8> {
    let mut out = vec![0; output_length];
    let Told { number, detail, section } = answer(&mut out);
    let mut printed = format!("{number} {detail} {section}\n").into_bytes();
    if number == 0 {
        printed.extend(&out[..detail as usize]);
        printed.push(b'\n');
    }
    printed
}

/// What is asked of the main code: an answer to one message or to a batch, a book or text to be made of the other, the
/// difference of two books, or an ACK from records.
#[derive(Clone, Debug, PartialEq, Eq)]
pub enum AnyCase {
    Message(Case),
    Batch(BatchCase),
    Book(BookCase),
    Diff(DiffCase),
    Write(WriteCase),
}

impl AnyCase {
    pub fn output_length(&self) -> usize {
        match self {
            AnyCase::Message(case) => case.output_length,
            AnyCase::Batch(case) => case.output_length,
            AnyCase::Book(case) => case.output_length,
            AnyCase::Diff(case) => case.output_length,
            AnyCase::Write(case) => case.output_length,
        }
    }

    /// What the second program tells; only of books as text there is a section.
    pub fn answer(&self, out: &mut [u8]) -> Told {
        match self {
            AnyCase::Message(case) => case.answer(out).into(),
            AnyCase::Batch(case) => case.answer(out).into(),
            AnyCase::Book(case) => case.answer(out),
            AnyCase::Diff(case) => case.answer(out),
            AnyCase::Write(case) => case.answer(out).into(),
        }
    }
}

/// Two refusals, the earlier one first, whose conditions are both to be true.
pub type Pair = (u8, u8);

/// Messages, batches, books, differences and records by one index: the first ones of each, then four messages, a batch, a
/// book, a difference and records in turn.
pub struct AllCases {
    messages: Generator,
    batches: BatchGenerator,
    books: BookGenerator,
    diffs: DiffGenerator,
    writes: WriteGenerator,
}

impl AllCases {
    pub fn new(seed: u64) -> Self {
        AllCases {
            messages: Generator::new(seed),
            batches: BatchGenerator::new(seed),
            books: BookGenerator::new(seed),
            diffs: DiffGenerator::new(seed),
            writes: WriteGenerator::new(seed),
        }
    }

    /// How many come before the random ones.
    pub fn firsts(&self) -> u64 {
        self.firsts_of_each().iter().sum()
    }

    fn firsts_of_each(&self) -> [u64; 5] {
        let Self { messages, batches, books, diffs, writes } = self;
        [messages.firsts(), batches.firsts(), books.firsts(), diffs.firsts(), writes.firsts()]
    }

    /// The case of an index and the pair that it aims at.
    pub fn case(&self, index: u64) -> (AnyCase, Option<Pair>) {
        let firsts = self.firsts_of_each();
        let mut at = index;
        for (kind, count) in firsts.into_iter().enumerate() {
            if at < count {
                return self.of_kind(kind, at);
            }
            at -= count;
        }
        match (at % 8) as usize {
            turn @ 0..4 => self.of_kind(0, firsts[0] + at / 8 * 4 + turn as u64),
            turn => self.of_kind(turn - 3, firsts[turn - 3] + at / 8),
        }
    }

    fn of_kind(&self, kind: usize, index: u64) -> (AnyCase, Option<Pair>) {
        match kind {
            0 => self.message(index),
            1 => self.batch(index),
            2 => self.book(index),
            3 => self.diff(index),
            _ => self.write(index),
        }
    }

    fn message(&self, index: u64) -> (AnyCase, Option<Pair>) {
        let (case, pair) = self.messages.case(index);
        (AnyCase::Message(case), pair)
    }

    fn batch(&self, index: u64) -> (AnyCase, Option<Pair>) {
        let (case, pair) = self.batches.case(index);
        (AnyCase::Batch(case), pair)
    }

    fn book(&self, index: u64) -> (AnyCase, Option<Pair>) {
        let (case, pair) = self.books.case(index);
        (AnyCase::Book(case), pair)
    }

    fn diff(&self, index: u64) -> (AnyCase, Option<Pair>) {
        (AnyCase::Diff(self.diffs.case(index)), None)
    }

    fn write(&self, index: u64) -> (AnyCase, Option<Pair>) {
        let (case, pair) = self.writes.case(index);
        (AnyCase::Write(case), pair)
    }
}

/// Cases for each kind and severity of a rule, and with them those for each combination of header findings.
const BROKEN: usize = 6 * 3;
const FOUND: usize = BROKEN + 16;

/// Cases by their index: the samples first, then each pair of refusals, each finding and each
/// combination of header findings once, then random ones without end.
pub struct Generator {
    seed: u64,
    samples: Vec<Case>,
    pairs: Vec<Pair>,
    guides: Vec<(Vec<u8>, Vec<u8>)>,
}

impl Generator {
    pub fn new(seed: u64) -> Self {
        let graded = samples::samples().into_iter().map(|sample| sample.case);
        let samples = graded.chain(samples::lamp::samples().into_iter().map(|sample| sample.case)).collect();
        Generator { seed, samples, pairs: pairs(), guides: books::guide_cases() }
    }

    /// How many come before the random ones.
    pub fn firsts(&self) -> u64 {
        (self.samples.len() + self.pairs.len() + FOUND) as u64
    }

    /// The case of an index and the pair that it aims at.
    pub fn case(&self, index: u64) -> (Case, Option<Pair>) {
        let random = &mut Random::new(self.seed, index);
        let at = index as usize;
        let (mut case, pair) = match self.samples.get(at) {
            Some(sample) => (sample.clone(), None),
            None => {
                let (case, pair) = self.make(random, at - self.samples.len());
                (Case { place: place(random, &case.message), ..case }, pair)
            }
        };
        // No room after the last byte, so that a reader that goes past it can be noticed.
        for bytes in [&mut case.message, &mut case.book, &mut case.stamp] {
            bytes.shrink_to_fit();
        }
        (case, pair)
    }

    /// What comes after the samples.
    fn make(&self, random: &mut Random, mut at: usize) -> (Case, Option<Pair>) {
        if let Some(pair) = self.pairs.get(at) {
            return (paired(random, *pair), Some(*pair));
        }
        at -= self.pairs.len();
        let case = match at {
            0..BROKEN => broken_rule(random, at as u8 % 6 + 1, b"EWI"[at / 6]),
            BROKEN..FOUND => headed(random, SectionPlan::new("AX"), at - BROKEN),
            _ => return self.random_case(random),
        };
        (lend(random, case), None)
    }

    fn random_case(&self, random: &mut Random) -> (Case, Option<Pair>) {
        let mut case = match random.below(4096) {
            0 if random.one_in(2) => large_message(random, true),
            0..16 => large_message(random, false),
            16..64 => large_book(random),
            64..700 => {
                let pair = random.pick(&self.pairs);
                return (paired(random, pair), Some(pair));
            }
            700..1000 => {
                let refusal = random.between(1, 11) as u8;
                return (faulty(random, &[refusal]), None);
            }
            1000..1500 => {
                let (message, book) = &self.guides[random.below(self.guides.len())];
                let mut case = with_stamp(random, message.clone(), book.clone());
                for _ in 0..random.pick(&[0, 1, 1, 2, 4]) {
                    mutate(random, &mut case.message);
                }
                case
            }
            1500..2000 => {
                let mut case = structured(random);
                for _ in 0..random.between(1, 3) {
                    mutate(random, &mut case.message);
                }
                case
            }
            2000..2200 => {
                let mut case = structured(random);
                mutate_bytes(random, &mut case.book);
                case
            }
            _ => structured(random),
        };
        delimiters::vary(random, &mut case.message);
        (lend(random, case), None)
    }
}

fn pairs() -> Vec<Pair> {
    (1..=11).flat_map(|earlier| (earlier + 1..=11).map(move |later| (earlier, later))).collect()
}

fn with_stamp(random: &mut Random, message: Vec<u8>, book: Vec<u8>) -> Case {
    let stamp = if random.one_in(40) { near::bad_stamp(random) } else { near::stamp(random) };
    let control = random.pick(&[0, 7, 9, 10, 99, 100, 65_536, 999_999_999, 1_000_000_000, u32::MAX]);
    Case { message, book, stamp, control, output_length: 0, place: [0; 4] }
}

/// A sound message and a good book for it.
fn structured(random: &mut Random) -> Case {
    let (sections, chosen) = plans::sections(random);
    let message = drafts::draft(random, &sections[chosen]).message();
    with_stamp(random, message, books::encode(&sections))
}

/// A case that has an ACK, with room for it, once its delimiters are exchanged for the five beside it.
fn answered(random: &mut Random) -> (Case, Five) {
    loop {
        let mut case = structured(random);
        let five = delimiters::five(random);
        if let Some(length) = exchanged(&case, &five).ack_length() {
            case.output_length = length as usize;
            return (case, five);
        }
    }
}

fn exchanged(case: &Case, five: &Five) -> Case {
    let mut case = case.clone();
    exchange(&mut case.message, five);
    case
}

/// A case with faults, the last refusal's first, and its delimiters exchanged after them.
fn faulty(random: &mut Random, refusals: &[u8]) -> Case {
    let (mut case, five) = answered(random);
    for refusal in refusals {
        faults::put(random, &mut case, *refusal);
    }
    exchanged(&case, &five)
}

fn paired(random: &mut Random, (earlier, later): Pair) -> Case {
    faulty(random, &[later, earlier])
}

/// One rule of a kind and severity on PID-3, and values for it until one breaks it.
fn broken_rule(random: &mut Random, kind: u8, severity: u8) -> Case {
    loop {
        let sets = vec![vec![near::word_or_quotes(random)]];
        let mut rule = plans::rule_of_kind(random, kind, 1);
        rule[..4].copy_from_slice(b"PID\x03");
        rule[6] = severity;
        let case = headed(random, SectionPlan { rules: vec![rule], sets, ..SectionPlan::new("AX") }, 0);
        let finding = [b"|".as_slice(), &[severity], b"|1^^L\n"].concat();
        let printed = Case { output_length: 65_536, ..case.clone() }.printed();
        if printed.windows(finding.len()).any(|window| window == finding) {
            return case;
        }
    }
}

/// A message with findings 200 to 203 where their bit is set.
fn headed(random: &mut Random, section: SectionPlan, wrong: usize) -> Case {
    let mut draft = drafts::draft(random, &section);
    drafts::set_header(random, &mut draft, wrong);
    Case { stamp: near::stamp(random), ..with_stamp(random, draft.message(), books::encode(&[section])) }
}

fn large_message(random: &mut Random, heavy: bool) -> Case {
    let (message, book) = large::message(random, heavy);
    with_stamp(random, message, book)
}

fn large_book(random: &mut Random) -> Case {
    let rules = (0..random.below(4)).map(|_| plans::rule(random, 0)).collect();
    let section = SectionPlan { rules, ..SectionPlan::new("AX") };
    let message = drafts::draft(random, &section).message();
    let book = large::book(random, section.rules);
    let mut case = with_stamp(random, message, book);
    if random.one_in(8) {
        faults::put(random, &mut case, 9);
    }
    case
}

fn lend(random: &mut Random, mut case: Case) -> Case {
    case.output_length = lent(random, case.ack_length(), 65_536);
    case
}

/// No output, too little, just enough or more than is needed, where that is known.
fn lent(random: &mut Random, needed: Option<u64>, usual: u64) -> usize {
    let needed = needed.unwrap_or(300);
    let lent = match random.below(8) {
        0 => 0,
        1 => needed - 1,
        2 => random.below(needed as usize) as u64,
        3 | 4 => needed,
        5 => needed + 1,
        _ => needed + random.below(100) as u64,
    };
    // Outputs beyond the usual limit are rare, since filling and comparing them takes time.
    let limit = if random.one_in(50) { 4_000_000 } else { usual };
    lent.min(limit) as usize
}

const DELIMITERS: &[u8] = b"|^~\\&\r";

/// Changes a message in a byte, a delimiter, a segment, a field, a repetition, or its end.
fn mutate(random: &mut Random, message: &mut Vec<u8>) {
    match random.below(6) {
        0 => mutate_bytes(random, message),
        1 => mutate_pieces(random, message, b'\r'),
        2 => mutate_pieces(random, message, b'|'),
        3 => mutate_pieces(random, message, b'~'),
        4 => mutate_pieces(random, message, b'^'),
        _ => {
            let at = random.below(message.len() + 1);
            message.insert(at, random.letter(DELIMITERS));
        }
    }
}

/// Drops, doubles, swaps or empties a piece between delimiters, or puts two quotes in its place.
fn mutate_pieces(random: &mut Random, message: &mut Vec<u8>, delimiter: u8) {
    let mut pieces: Vec<Vec<u8>> = message.split(|b| *b == delimiter).map(<[u8]>::to_vec).collect();
    let (at, other) = (random.below(pieces.len()), random.below(pieces.len()));
    match random.below(5) {
        0 => drop(pieces.remove(at)),
        1 => pieces.insert(other, pieces[at].clone()),
        2 => pieces.swap(at, other),
        3 => pieces[at] = near::QUOTES.to_vec(),
        _ => pieces[at].clear(),
    }
    *message = pieces.join(&delimiter);
}

fn mutate_bytes(random: &mut Random, bytes: &mut Vec<u8>) {
    for _ in 0..random.between(1, 3) {
        let at = random.below(bytes.len() + 1);
        let byte = match random.below(4) {
            0 => random.letter(DELIMITERS),
            1 => random.letter(b"\0\x01\x02\x15\x40\x41\xFF"),
            2 => random.between(0x20, 0x7E) as u8,
            _ => random.below(256) as u8,
        };
        match random.below(3) {
            0 => bytes.insert(at, byte),
            1 if at < bytes.len() => drop(bytes.remove(at)),
            _ if at < bytes.len() => bytes[at] = byte,
            _ => {}
        }
    }
}

#[cfg(test)]
mod tests {
    use super::*;

    fn number(case: &Case) -> u8 {
        case.answer(&mut vec![0; case.output_length]).0
    }

    #[test]
    fn each_fault_gives_its_refusal() {
        for refusal in 1..=11 {
            for index in 0..200 {
                let (case, five) = answered(&mut Random::new(1, index));
                assert_eq!(number(&exchanged(&case, &five)), 0);
                let case = faulty(&mut Random::new(1, index), &[refusal]);
                assert_eq!(number(&case), refusal, "{case:?}");
            }
        }
    }

    #[test]
    fn of_two_faults_the_earlier_one_wins() {
        for pair in pairs() {
            for index in 0..50 {
                let found = number(&paired(&mut Random::new(2, index), pair));
                // A fault of the book after its mark and length is tried after the version.
                assert!(found == pair.0 || pair == (7, 8) && found == 8, "{pair:?} {found}");
            }
        }
    }

    #[test]
    fn all_cases_hold_those_of_each_generator_once() {
        let all = AllCases::new(3);
        let (mut messages, mut batches, mut books, mut diffs, mut writes) = (0, 0, 0, 0, 0);
        for index in 0..all.firsts() + 600 {
            let (case, _) = all.case(index);
            match &case {
                AnyCase::Message(case) => {
                    assert!(*case == all.messages.case(messages).0, "{index}");
                    messages += 1;
                }
                AnyCase::Batch(case) => {
                    assert!(*case == all.batches.case(batches).0, "{index}");
                    batches += 1;
                }
                AnyCase::Book(case) => {
                    assert!(*case == all.books.case(books).0, "{index}");
                    books += 1;
                }
                AnyCase::Diff(case) => {
                    assert!(*case == all.diffs.case(diffs), "{index}");
                    diffs += 1;
                }
                AnyCase::Write(case) => {
                    assert!(*case == all.writes.case(writes).0, "{index}");
                    writes += 1;
                }
            }
        }
        let mut later = [messages, batches, books, diffs, writes];
        later.iter_mut().zip(all.firsts_of_each()).for_each(|(count, firsts)| *count -= firsts);
        assert_eq!(later, [300, 75, 75, 75, 75]);
    }

    #[test]
    fn an_index_has_one_case() {
        let (one, other) = (Generator::new(3), Generator::new(3));
        for index in (0..2000).rev() {
            assert!(one.case(index) == other.case(index));
        }
    }
}
