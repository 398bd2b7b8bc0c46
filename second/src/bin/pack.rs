//! Writes cases for the main code's own runner, and the text that it has to print for them.

use second::book::BOOK_LIMIT;
use second::booktext::Told;
use second::cases::{
    number_of, AnyCase, BatchCase, BookCall, BookCase, BookGenerator, Case, DiffCase, DiffGenerator, Pair, BOOK_ROWS,
};
use second::cutting::MESSAGE_LIMIT;
use second::samples::{self, batches, case, diffs, lamp, sources, PLACES, STAMP};
use second::{books, limits, packing};
use std::process::ExitCode;
use std::{env, fs};

/// What the runner has room for: bytes of message, book, stamp and output.
const ROOM: [usize; 4] = [MESSAGE_LIMIT + 1, BOOK_LIMIT + 1, 1_024, 131_072];
/// The same for a batch, with the bytes of its file.
const BATCH_ROOM: [usize; 4] = [131_072, BOOK_LIMIT + 1, 1_024, 131_072];
/// The same for a text or a book that is to become the other.
const BOOK_ROOM: [usize; 4] = [131_072, 0, 0, 131_072];
/// The same for two books.
const DIFF_ROOM: [usize; 4] = [BOOK_LIMIT + 1, BOOK_LIMIT + 1, 0, 131_072];

fn main() -> ExitCode {
    second::ending("pack", run())
}

fn run() -> Result<(), String> {
    let paths: Vec<_> = env::args_os().skip(1).collect();
    let [cases_path, text_path] = paths.as_slice() else {
        return Err("usage: pack CASES TEXT".into());
    };
    let mut cases: Vec<AnyCase> = message_cases()?.into_iter().map(AnyCase::Message).collect();
    cases.extend(batch_cases()?.into_iter().map(AnyCase::Batch));
    cases.extend(book_cases()?.into_iter().map(AnyCase::Book));
    cases.extend(diff_cases()?.into_iter().map(AnyCase::Diff));
    let mut text = Vec::new();
    for (number, case) in (1..).zip(&cases) {
        text.extend(printed(case));
        let (lengths, room) = lengths_and_room(case);
        if lengths.iter().zip(room).any(|(length, room)| *length > room) {
            return Err(format!("case {number} is too long for the runner: {lengths:?}"));
        }
    }
    for (path, bytes) in [(cases_path, packing::pack_all(&cases)), (text_path, text)] {
        fs::write(path, bytes).map_err(|e| format!("{}: {e}", path.display()))?;
    }
    Ok(())
}

/// What a program that runs packed cases prints for one.
fn printed(case: &AnyCase) -> Vec<u8> {
    match case {
        AnyCase::Message(case) => {
            let (number, detail) = case.lamp();
            [case.located(), format!("\n{number} {detail}\n").as_bytes(), &case.printed()].concat()
        }
        AnyCase::Batch(case) => case.printed(),
        AnyCase::Book(case) => case.printed(),
        AnyCase::Diff(case) => case.printed(),
        AnyCase::Write(case) => case.printed(),
    }
}

fn lengths_and_room(case: &AnyCase) -> ([usize; 4], [usize; 4]) {
    match case {
        AnyCase::Message(case) => ([case.message.len(), case.book.len(), case.stamp.len(), case.output_length], ROOM),
        AnyCase::Batch(case) => ([case.file.len(), case.book.len(), case.stamp.len(), case.output_length], BATCH_ROOM),
        AnyCase::Book(case) => ([case.given.len(), 0, 0, case.output_length], BOOK_ROOM),
        AnyCase::Diff(case) => ([case.old.len(), case.new.len(), 0, case.output_length], DIFF_ROOM),
        // The runner takes none.
        AnyCase::Write(case) => ([case.message.len(), 0, case.stamp.len(), case.output_length], [0; 4]),
    }
}

/// What has to be printed as written by hand.
fn expect(name: &str, as_written: bool) -> Result<(), String> {
    if as_written {
        Ok(())
    } else {
        Err(format!("not printed as written by hand: {name}"))
    }
}

/// The samples, then the guides' messages and long ones.
fn message_cases() -> Result<Vec<Case>, String> {
    let mut cases = Vec::new();
    for sample in samples::samples() {
        let printed = sample.case.printed() == sample.expected.as_bytes();
        let located = sample.located.is_none_or(|text| sample.case.located() == text.as_bytes());
        expect(&sample.name, printed && located)?;
        cases.push(sample.case);
    }
    for sample in lamp::samples() {
        expect(&sample.name, sample.case.lamp() == sample.told)?;
        cases.push(sample.case);
    }
    let guides = books::guide_cases().into_iter().zip(PLACES.into_iter().cycle());
    cases.extend(guides.map(|((message, book), place)| Case { place, ..case(message, book) }));
    cases.extend(long_cases());
    Ok(cases)
}

/// The samples, then the guides' messages in one file and long ones.
fn batch_cases() -> Result<Vec<BatchCase>, String> {
    let mut cases = Vec::new();
    for sample in batches::samples() {
        expect(&sample.name, sample.case.printed() == sample.expected.as_bytes())?;
        cases.push(sample.case);
    }
    cases.extend(guide_batches());
    cases.extend(long_batches());
    Ok(cases)
}

fn batch_case(messages: &[u8], book: Vec<u8>) -> BatchCase {
    BatchCase { file: limits::batch(messages), book, stamp: STAMP.to_vec(), control: 7, output_length: 131_072 }
}

/// Those of the guides' messages that are answered by the registries' book, then all of them.
fn guide_batches() -> [BatchCase; 2] {
    let book = books::registries_book();
    let messages: Vec<Vec<u8>> = books::messages().into_iter().map(|(_, message)| message).collect();
    let answered = messages.iter().filter(|m| case(m.to_vec(), book.clone()).ack_length().is_some());
    let answered: Vec<Vec<u8>> = answered.cloned().collect();
    [batch_case(&answered.concat(), book.clone()), batch_case(&messages.concat(), book)]
}

fn long_batches() -> Vec<BatchCase> {
    let mut cases = Vec::new();
    for (message, book) in [(limits::doses(1), books::registries_book()), (limits::doses(5), books::largest_book())] {
        cases.push(batch_case(&message.repeat(12), book));
    }
    // Three long messages whose ACKs are only measured.
    for (message, book) in [limits::short_segments(32_768, 1), limits::repetitions(16_000, 4)] {
        cases.push(batch_case(&message.repeat(3), book));
    }
    // Just enough and one byte less than ACKs of which the second alone is longer than the relay's output.
    let (message, book) = limits::repetitions(1_500, 1);
    let messages = [limits::HEADER, &message, limits::HEADER].concat();
    let length = batch_case(&messages, book.clone()).joined_length().unwrap_or_default() as usize;
    for output_length in [length, length - 1] {
        cases.push(BatchCase { output_length, ..batch_case(&messages, book.clone()) });
    }
    cases
}

/// Each with a place far behind in it, or just past its end.
fn long_cases() -> Vec<Case> {
    let rows = [
        (limits::short_segments(32_768, 1), [8_182, 1, 1, 0]),
        (limits::short_segments(4_095, 1), [1_013, 1, 1, 0]),
        (limits::repetitions(16_000, 4), [2, 3, 16_000, 1]),
        (limits::repetitions(16_000, 256), [2, 3, 16_001, 0]),
        (limits::codes(6_500, 1_024), [2, 3, 6_500, 1]),
        ((limits::doses(5), books::registries_book()), [24, 5, 1, 1]),
        ((limits::doses(5), books::largest_book()), [25, 1, 1, 0]),
    ];
    let mut cases: Vec<Case> =
        rows.into_iter().map(|((message, book), place)| Case { place, ..case(message, book) }).collect();
    // Just enough and one byte less than an ACK that is longer than the program's output.
    let (message, book) = limits::repetitions(1_500, 1);
    let length = case(message.clone(), book.clone()).ack_length().unwrap_or_default() as usize;
    for output_length in [length, length - 1] {
        cases.push(Case { output_length, ..case(message.clone(), book.clone()) });
    }
    cases
}

/// Longer texts and books are few, so that the pack stays small.
const LONG: usize = 16_000;

/// The samples, but not many for one refusal, then what is generated for two rows that stand side by side, and for
/// numbers that no other case has.
fn book_cases() -> Result<Vec<BookCase>, String> {
    let mut chosen = Chosen::default();
    for sample in sources::samples() {
        expect(&sample.name, sample.case.printed() == sample.expected)?;
        chosen.add(sample.case);
    }
    let generator = BookGenerator::new(1);
    let generated: Vec<_> = (0..generator.firsts()).map(|index| generator.case(index)).collect();
    for (case, pair) in &generated {
        let beside = |pair: Pair| BOOK_ROWS.windows(2).any(|rows| (rows[0], rows[1]) == pair);
        if pair.is_some_and(beside) && case.given.len() < LONG {
            chosen.push(case.clone());
        }
    }
    for (case, _) in generated {
        if !chosen.told.contains(&told(&case)) {
            chosen.add(case);
        }
    }
    chosen.expect_each_number()?;
    Ok(chosen.cases)
}

#[derive(Default)]
struct Chosen {
    cases: Vec<BookCase>,
    /// Of each case.
    told: Vec<(BookCall, u8)>,
}

impl Chosen {
    fn push(&mut self, case: BookCase) {
        self.told.push(told(&case));
        self.cases.push(case);
    }

    fn add(&mut self, case: BookCase) {
        let told = told(&case);
        let is_long = case.given.len() > LONG;
        let alike = self
            .cases
            .iter()
            .zip(&self.told)
            .filter(|(other, others)| **others == told && (other.given.len() > LONG) == is_long);
        let most = match told {
            _ if is_long => 1,
            (_, 0) => usize::MAX,
            (BookCall::Compile, _) => 5,
            (BookCall::Show, _) => 9,
            (BookCall::Legend, _) => 2,
        };
        let fits = case.given.len() <= BOOK_ROOM[0] && case.output_length <= BOOK_ROOM[3];
        if fits && alike.count() < most {
            self.push(case);
        }
    }

    /// Each number but 31, for which a runner has no room.
    fn expect_each_number(&self) -> Result<(), String> {
        let rows: Vec<u8> = [0].into_iter().chain(BOOK_ROWS.map(number_of)).filter(|row| *row != 31).collect();
        let shown = vec![0, 7, 8, 55];
        for (call, numbers) in [(BookCall::Compile, &rows), (BookCall::Show, &shown), (BookCall::Legend, &rows)] {
            if let Some(number) = numbers.iter().find(|number| !self.told.contains(&(call, **number))) {
                return Err(format!("no packed case has {call:?} {number}"));
            }
        }
        Ok(())
    }
}

/// What is asked for and the number that is told.
fn told(case: &BookCase) -> (BookCall, u8) {
    (case.call, case.answer(&mut vec![0; case.output_length]).number)
}

/// The samples, what is generated for each refusal and output, and some more; of long ones one for each thing told.
fn diff_cases() -> Result<Vec<DiffCase>, String> {
    let mut cases = Vec::new();
    for sample in diffs::samples() {
        expect(&sample.name, sample.case.printed() == sample.expected)?;
        cases.push(sample.case);
    }
    let generator = DiffGenerator::new(1);
    cases.extend((cases.len() as u64..generator.firsts() + 30).map(|index| generator.case(index)));
    let mut seen: Vec<Told> = Vec::new();
    cases.retain(|case| {
        let told = case.answer(&mut vec![0; case.output_length]);
        let alike = Told { detail: if told.number == 0 { 0 } else { told.detail }, ..told };
        let is_long = case.old.len() + case.new.len() > LONG;
        let keep = case.output_length <= DIFF_ROOM[3] && !(is_long && seen.contains(&alike));
        if is_long && keep {
            seen.push(alike);
        }
        keep
    });
    Ok(cases)
}
