//! Finding records: tables to grade into, and records to be written, made by a generator that depends on a seed alone.

use super::{answered, delimiters, exchanged, faults, length_needed, lent, mutate, structured, Case, Pair, Random};
use crate::line;
use crate::records::{Record, MOST};
use crate::samples;

/// Longer tables are not lent, since filling and comparing them takes time.
pub const LONGEST_TABLE: usize = 100_000;

/// How many records are lent for a message that needs so many: none, one too few, just enough and up to eight more.
pub fn tables(needed: u64, more: usize) -> Vec<usize> {
    if needed > LONGEST_TABLE as u64 {
        return vec![0, LONGEST_TABLE];
    }
    let needed = needed as usize;
    let mut tables = vec![0, needed.saturating_sub(1), needed, needed + 1 + more % 8];
    tables.dedup();
    tables
}

/// A table before grading: records out of range, each unlike the next. `tests/library.c` fills alike.
pub fn filled_table(length: usize) -> Vec<Record> {
    let filled = |at: usize| Record {
        ordinal: 4_000_000_000 + (at % 127) as u32,
        repetition: 4_100_000_000 + (at % 113) as u32,
        rule: 60_000 + (at % 109) as u16,
        code: 61_000 + (at % 107) as u16,
        name: 128 + (at % 103) as u8,
        field: 128 + (at % 101) as u8,
        component: 128 + (at % 97) as u8,
        severity: 128 + (at % 89) as u8,
    };
    (0..length).map(filled).collect()
}

/// What writing takes; the output is lent as so many bytes.
#[derive(Clone, Debug, PartialEq, Eq)]
pub struct WriteCase {
    pub message: Vec<u8>,
    pub table: Vec<Record>,
    pub count: u32,
    pub stamp: Vec<u8>,
    pub control: u32,
    pub output_length: usize,
}

impl WriteCase {
    /// A message and stamp, and a table of which all records are counted.
    fn new(Case { message, stamp, control, .. }: Case, table: Vec<Record>) -> Self {
        let count = table.len() as u32;
        WriteCase { message, table, count, stamp, control, output_length: 0 }
    }

    pub fn answer(&self, out: &mut [u8]) -> (u8, u64) {
        crate::write(&self.message, &self.table, self.count, &self.stamp, self.control, out)
    }

    /// The ACK with a line feed for each CR, or the refusal as the relay program prints it.
    pub fn printed(&self) -> Vec<u8> {
        line::printed_answer(self.output_length, |out| self.answer(out))
    }

    /// The records that are counted, as far as they are there.
    pub fn counted(&self) -> &[Record] {
        &self.table[..self.table.len().min(self.count as usize)]
    }

    /// The length of the ACK, if there would be one.
    fn ack_length(&self) -> Option<u64> {
        length_needed(self.answer(&mut []))
    }
}

/// Refusals of writing in the order in which they are tried.
const ROWS: [u8; 9] = [1, 2, 3, 4, 5, 6, 13, 10, 11];

/// Each two of them, the earlier one first.
pub fn pairs() -> Vec<Pair> {
    let later = |at: usize| ROWS[at + 1..].iter().map(move |later| (ROWS[at], *later));
    (0..ROWS.len()).flat_map(later).collect()
}

/// Cases by their index: the samples first, then each code's record with each of its fields at each bound, and each pair
/// of refusals once, then random ones without end.
pub struct WriteGenerator {
    seed: u64,
    samples: Vec<WriteCase>,
    edges: Vec<Record>,
    pairs: Vec<Pair>,
}

impl WriteGenerator {
    pub fn new(seed: u64) -> Self {
        let samples = samples::records::written().into_iter().map(|sample| sample.case).collect();
        let edges = bases().into_iter().flat_map(edges).collect();
        WriteGenerator { seed, samples, edges, pairs: pairs() }
    }

    /// How many come before the random ones.
    pub fn firsts(&self) -> u64 {
        (self.samples.len() + self.edges.len() + self.pairs.len()) as u64
    }

    /// The case of an index and the pair that it aims at.
    pub fn case(&self, index: u64) -> (WriteCase, Option<Pair>) {
        let random = &mut Random::new(self.seed, index);
        let at = index as usize;
        let (mut case, pair) = match self.samples.get(at) {
            Some(sample) => (sample.clone(), None),
            None => self.make(random, at - self.samples.len()),
        };
        // No room after the last byte, so that a reader that goes past it can be noticed.
        case.message.shrink_to_fit();
        case.table.shrink_to_fit();
        case.stamp.shrink_to_fit();
        (case, pair)
    }

    /// What comes after the samples.
    fn make(&self, random: &mut Random, at: usize) -> (WriteCase, Option<Pair>) {
        if let Some(edge) = self.edges.get(at) {
            return (with_edge(random, *edge), None);
        }
        if let Some(pair) = self.pairs.get(at - self.edges.len()) {
            return (paired(random, *pair), Some(*pair));
        }
        if random.one_in(6) {
            let pair = random.pick(&self.pairs);
            return (paired(random, pair), Some(pair));
        }
        let case = if random.one_in(4) { changed(random) } else { free(random) };
        (lend(random, case), None)
    }
}

/// The eight codes and numbers that are none.
const CODES: [u16; 17] =
    [100, 101, 102, 103, 200, 201, 202, 203, 0, 99, 104, 199, 204, 255, 100 + 256, 203 + 256, 65_535];
const NUMBERS: [u32; 8] = [0, 1, MOST - 1, MOST, MOST + 1, 65_536, 65_537, u32::MAX];
const NAMES: [u8; 5] = [0, 1, 10, 11, 255];
const FIELDS: [u8; 5] = [0, 1, 99, 100, 255];
const COMPONENTS: [u8; 5] = [0, 1, 20, 21, 255];
const RULES: [u16; 7] = [0, 1, 255, 256, 257, 512, 65_535];
const SEVERITIES: &[u8] = b"EWIewi\0DFHJVX1\xC5\xFF";

/// A record in range of each code, and the end's.
fn bases() -> [Record; 9] {
    let end = Record { code: 100, severity: b'E', ..Record::default() };
    let order = Record { ordinal: 2, name: 3, ..end };
    let header = |code| Record { code, repetition: 4, field: 5, component: 6, ..order };
    let rule = |code| Record { rule: 7, ..header(code) };
    [end, order, rule(101), rule(102), rule(103), header(200), header(201), header(202), header(203)]
}

/// The record with each of its fields at each bound, on both sides of it.
fn edges(record: Record) -> Vec<Record> {
    let mut edges = vec![record];
    edges.extend(NUMBERS.map(|ordinal| Record { ordinal, ..record }));
    edges.extend(NUMBERS.map(|repetition| Record { repetition, ..record }));
    edges.extend(NAMES.map(|name| Record { name, ..record }));
    edges.extend(FIELDS.map(|field| Record { field, ..record }));
    edges.extend(COMPONENTS.map(|component| Record { component, ..record }));
    edges.extend(RULES.map(|rule| Record { rule, ..record }));
    edges.extend(CODES.map(|code| Record { code, ..record }));
    edges.extend(SEVERITIES.iter().map(|severity| Record { severity: *severity, ..record }));
    edges
}

/// A record in range, often at its bounds.
fn sound(random: &mut Random) -> Record {
    let number = |random: &mut Random| random.pick(&[1, 1, 2, 3, 10, 99, 100, 9_999, MOST - 1, MOST]);
    let mut record = random.pick(&bases());
    if record.name != 0 {
        record.name = random.between(1, 10) as u8;
        record.ordinal = number(random);
    }
    if record.field != 0 {
        record.field = random.pick(&[1, 2, 3, 9, 10, 99]);
        record.repetition = number(random);
        record.component = random.pick(&[0, 0, 1, 2, 9, 10, 20]);
    }
    if record.rule != 0 {
        record.rule = random.pick(&[1, 2, 9, 10, 99, 100, 255, 256]);
        record.severity = random.letter(b"EWWII");
    }
    record
}

/// A record that may be out of range by one field or by more.
fn near(random: &mut Random) -> Record {
    let mut record = sound(random);
    for _ in 0..random.pick(&[1, 1, 1, 2, 3]) {
        let edges = edges(record);
        record = edges[random.below(edges.len())];
    }
    record
}

/// Several in range; many now and then.
fn table(random: &mut Random) -> Vec<Record> {
    let count = match random.below(512) {
        0 => random.pick(&[8_191, 8_192, 8_193, 20_000]),
        1..8 => random.between(100, 1_000),
        _ => random.pick(&[0, 1, 1, 1, 2, 2, 3, 3, 4, 5, 8, 12]),
    };
    // Half of the tables have nothing but one verdict's records, since any E or header code decides it.
    let allowed = random.below(6);
    let fits = |record: &Record| match allowed {
        0 => record.severity == b'I',
        1 => record.severity != b'E',
        2 => record.code < 200,
        _ => true,
    };
    let mut table = Vec::new();
    while table.len() < count {
        table.extend(Some(sound(random)).filter(fits));
    }
    table
}

/// One record among others in range, all of them counted.
fn with_edge(random: &mut Random, edge: Record) -> WriteCase {
    let mut table = table(random);
    table.truncate(4);
    table.insert(random.below(table.len() + 1), edge);
    let (case, five) = answered(random);
    let case = WriteCase::new(exchanged(&case, &five), table);
    let needed = case.ack_length();
    WriteCase { output_length: needed.unwrap_or(300) as usize + random.below(3), ..case }
}

/// A message with what was found in it, some of it changed, left out or doubled.
fn changed(random: &mut Random) -> WriteCase {
    let mut case = structured(random);
    delimiters::vary(random, &mut case.message);
    let mut table = vec![Record::default(); 1_000];
    let count = match crate::grade(&case.message, &case.book, &mut table) {
        (0, count) => count as usize,
        _ => 0,
    };
    table.truncate(count + random.below(3));
    for _ in 0..random.pick(&[0, 1, 1, 2]) {
        let at = random.below(table.len() + 1);
        match random.below(4) {
            0 => table.insert(at, sound(random)),
            1 if at < table.len() => drop(table.remove(at)),
            2 if at < table.len() => {
                let edges = edges(table[at]);
                table[at] = edges[random.below(edges.len())];
            }
            _ => table.rotate_left(at),
        }
    }
    WriteCase { count: count as u32, ..WriteCase::new(case, table) }
}

/// Any message with any records.
fn free(random: &mut Random) -> WriteCase {
    let mut case = structured(random);
    delimiters::vary(random, &mut case.message);
    if random.one_in(8) {
        mutate(random, &mut case.message);
    }
    let mut table = table(random);
    let in_range = table.len();
    for _ in 0..random.pick(&[0, 0, 1, 2]) {
        table.push(near(random));
    }
    let all = table.len() as u32;
    if random.one_in(4) {
        table.rotate_right(random.below(all as usize + 1));
    }
    let count = match random.below(16) {
        0 => 0,
        1 => all + 1,
        2 => random.pick(&[all + 2, 65_536 + all, 1 << 31, u32::MAX - 1, u32::MAX]),
        3 | 4 => random.below(all as usize + 1) as u32,
        5..9 => in_range as u32,
        _ => all,
    };
    WriteCase { count, ..WriteCase::new(case, table) }
}

/// A case with faults, the later one first, and its delimiters exchanged after them.
fn paired(random: &mut Random, (earlier, later): Pair) -> WriteCase {
    let (case, five) = answered(random);
    let mut table = table(random);
    table.push(sound(random));
    let WriteCase { mut table, mut count, .. } = WriteCase::new(case.clone(), table);
    let mut case = Case { output_length: 65_536, ..case };
    for row in [later, earlier] {
        match row {
            13 if random.one_in(3) => count += random.pick(&[1, 1, 2, 1 << 30]),
            13 => {
                let at = random.below(table.len());
                table[at] = out_of_range(random);
            }
            11 => case.output_length = random.below(60),
            row => faults::put(random, &mut case, row),
        }
    }
    let output_length = case.output_length;
    WriteCase { count, output_length, ..WriteCase::new(exchanged(&case, &five), table) }
}

fn out_of_range(random: &mut Random) -> Record {
    loop {
        let record = near(random);
        if !record.is_in_range() {
            return record;
        }
    }
}

fn lend(random: &mut Random, mut case: WriteCase) -> WriteCase {
    case.output_length = lent(random, case.ack_length(), 65_536);
    case
}

#[cfg(test)]
mod tests {
    use super::*;
    use std::collections::HashSet;

    #[test]
    fn tables_are_none_one_too_few_just_enough_and_more() {
        assert_eq!(tables(0, 0), [0, 1]);
        assert_eq!(tables(1, 1), [0, 1, 3]);
        assert_eq!(tables(2, 15), [0, 1, 2, 10]);
        assert_eq!(tables(100_000, 8), [0, 99_999, 100_000, 100_001]);
        assert_eq!(tables(100_001, 8), [0, 100_000]);
    }

    #[test]
    fn filled_records_are_out_of_range_and_unlike_their_neighbours() {
        let table = filled_table(10_000);
        assert!(table.iter().all(|record| !record.is_in_range()));
        assert!(table.windows(2).all(|two| two[0] != two[1]));
    }

    #[test]
    fn records_are_in_range_or_not_as_they_are_made() {
        assert!(bases().iter().all(Record::is_in_range));
        let codes: HashSet<u16> = bases().iter().map(|record| record.code).collect();
        assert!(CODES[..8].iter().all(|code| codes.contains(code)));
        let random = &mut Random::new(1, 1);
        for _ in 0..10_000 {
            assert!(sound(random).is_in_range());
            assert!(!out_of_range(random).is_in_range());
        }
    }

    #[test]
    fn of_two_faults_the_earlier_one_wins() {
        for pair in pairs() {
            for index in 0..50 {
                let case = paired(&mut Random::new(2, index), pair);
                let found = case.answer(&mut vec![0; case.output_length]).0;
                assert_eq!(found, pair.0, "{pair:?} {case:?}");
            }
        }
    }
}
