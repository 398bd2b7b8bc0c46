//! Books as text: one case, and a generator of them that depends on a seed alone.

mod changes;
mod drafts;
mod edits;
mod faults;
mod state;

pub(super) use edits::edited_books;
pub use faults::{number_of, NO_SECTION, ROWS as BOOK_ROWS};

use super::{faults as message_faults, large, lent, mutate_bytes, plans, Case, Pair, Random};
use crate::books::{self, SectionPlan};
use crate::booktext::{self, Told, TEXT_LIMIT, TOO_SHORT};
use crate::{limits, samples};
use drafts::Draft;

/// What is asked for.
#[derive(Clone, Copy, Debug, PartialEq, Eq)]
pub enum BookCall {
    Compile,
    Show,
    Legend,
}

/// A text, or for `Show` a book; the output is lent as so many bytes.
#[derive(Clone, Debug, PartialEq, Eq)]
pub struct BookCase {
    pub call: BookCall,
    pub given: Vec<u8>,
    pub output_length: usize,
}

impl BookCase {
    pub fn answer(&self, out: &mut [u8]) -> Told {
        match self.call {
            BookCall::Compile => booktext::compile(&self.given, out),
            BookCall::Show => booktext::show(&self.given, out),
            BookCall::Legend => booktext::legend(&self.given, out),
        }
    }

    /// What a program that runs packed cases prints for it.
    pub fn printed(&self) -> Vec<u8> {
        super::printed_told(self.output_length, |out| self.answer(out))
    }

    /// The length of what would be written, if nothing else is refused.
    pub fn needed(&self) -> Option<u64> {
        let told = self.answer(&mut []);
        (told.number == TOO_SHORT).then_some(told.detail)
    }
}

/// Cases by their index: the samples and the longest books first, then each row by `compile` and by `legend`, each pair of
/// rows and each refusal of a book once, then random ones without end.
pub struct BookGenerator {
    seed: u64,
    samples: Vec<BookCase>,
    pairs: Vec<Pair>,
}

/// What `show` refuses.
const BAD_BOOKS: [u8; 2] = [7, 8];

impl BookGenerator {
    pub fn new(seed: u64) -> Self {
        let samples = samples::sources::samples().into_iter().map(|sample| sample.case);
        BookGenerator { seed, samples: samples.chain(longest_books()).collect(), pairs: faults::pairs() }
    }

    /// How many come before the random ones.
    pub fn firsts(&self) -> u64 {
        (self.samples.len() + 2 * BOOK_ROWS.len() + self.pairs.len() + BAD_BOOKS.len()) as u64
    }

    /// The pairs that are aimed at.
    pub fn pairs(&self) -> &[Pair] {
        &self.pairs
    }

    /// The case of an index and the pair that it aims at.
    pub fn case(&self, index: u64) -> (BookCase, Option<Pair>) {
        let random = &mut Random::new(self.seed, index);
        let at = index as usize;
        let (mut case, pair) = match self.samples.get(at) {
            Some(sample) => (sample.clone(), None),
            None => self.make(random, at - self.samples.len()),
        };
        // No room after the last byte, so that a reader that goes past it can be noticed.
        case.given.shrink_to_fit();
        (case, pair)
    }

    /// What comes after the samples.
    fn make(&self, random: &mut Random, mut at: usize) -> (BookCase, Option<Pair>) {
        if at < 2 * BOOK_ROWS.len() {
            let call = [BookCall::Compile, BookCall::Legend][at % 2];
            return (spoilt(random, call, BOOK_ROWS[at / 2]), None);
        }
        at -= 2 * BOOK_ROWS.len();
        if let Some(pair) = self.pairs.get(at) {
            return (paired(random, *pair, true), Some(*pair));
        }
        at -= self.pairs.len();
        match BAD_BOOKS.get(at) {
            Some(number) => (bad_book(random, *number), None),
            None => self.random_case(random),
        }
    }

    fn random_case(&self, random: &mut Random) -> (BookCase, Option<Pair>) {
        let call = text_call(random);
        let case = match random.below(1024) {
            0..3 => case(call, longest(random)),
            3..200 => {
                // Without 31, since such texts are long.
                let row = random.pick(&BOOK_ROWS[1..]);
                return (spoilt(random, call, row), None);
            }
            200..480 => {
                let pair = random.pick(&self.pairs);
                let pair = if pair.0 == 31 && !random.one_in(20) { (53, 54) } else { pair };
                let together = random.one_in(2);
                return (paired(random, pair, together), Some(pair));
            }
            480..600 => {
                let mut text = Draft::sound(random).text(random);
                for _ in 0..random.pick(&[1, 1, 2, 4]) {
                    mutate_text(random, &mut text);
                }
                case(call, text)
            }
            600..640 => {
                let number = random.pick(&BAD_BOOKS);
                return (bad_book(random, number), None);
            }
            640..760 => case(BookCall::Show, any_book(random)),
            760..800 => {
                let book = any_book(random);
                case(call, booktext::shown(&book).unwrap_or_default())
            }
            _ => case(call, Draft::sound(random).text(random)),
        };
        (lend(random, case), None)
    }
}

fn case(call: BookCall, given: Vec<u8>) -> BookCase {
    BookCase { call, given, output_length: 0 }
}

fn text_call(random: &mut Random) -> BookCall {
    random.pick(&[BookCall::Compile, BookCall::Legend])
}

fn lend(random: &mut Random, mut case: BookCase) -> BookCase {
    case.output_length = lent(random, case.needed(), 262_144);
    case
}

/// A source for which one row holds.
fn spoilt(random: &mut Random, call: BookCall, row: u8) -> BookCase {
    let mut draft = Draft::sound(random);
    let text = written(random, &mut draft, &[row]);
    lend_for(random, case(call, text), row == 55)
}

/// A source for which both rows hold and the earlier one is told; together means in one statement or one section, where
/// that can be.
fn paired(random: &mut Random, (earlier, later): Pair, together: bool) -> BookCase {
    let of_sections = [earlier, later].iter().all(|row| faults::OF_SECTIONS.contains(row));
    loop {
        let mut draft = if together && of_sections { Draft::of_sections(random, 1) } else { Draft::sound(random) };
        let rows = if together && faults::put_in_one(random, &mut draft, (earlier, later)) {
            vec![]
        } else if of_sections && random.one_in(2) {
            // What is put in first stands first, mostly.
            vec![earlier, later]
        } else {
            vec![later, earlier]
        };
        let text = written(random, &mut draft, &rows);
        let case = case(text_call(random), text);
        let case = lend_for(random, case, later == 55);
        if case.answer(&mut vec![0; case.output_length]).number == number_of(earlier) {
            return case;
        }
    }
}

/// Puts the faults of the rows and writes the text, but for row 55.
fn written(random: &mut Random, draft: &mut Draft, rows: &[u8]) -> Vec<u8> {
    let of_bytes = |row: &&u8| [31, 32].contains(*row);
    for row in rows.iter().filter(|row| !of_bytes(row) && **row != 55) {
        faults::put(random, draft, *row);
    }
    let mut text = draft.text(random);
    for row in rows.iter().filter(of_bytes) {
        faults::put_bytes(random, &mut text, *row);
    }
    text
}

/// Too short an output, or one with which row 55 does not hold.
fn lend_for(random: &mut Random, mut case: BookCase, too_short: bool) -> BookCase {
    case.output_length = match case.needed() {
        Some(needed) if too_short => random.pick(&[0, needed - 1, needed / 2]) as usize,
        Some(needed) => needed as usize + random.pick(&[0, 0, 1, 100]),
        None if too_short => 0,
        None => random.pick(&[0, 11, 300, 70_000]),
    };
    case
}

/// A text of the longest size or nearly so.
fn longest(random: &mut Random) -> Vec<u8> {
    let mut text = Draft::sound(random).text(random);
    let length = TEXT_LIMIT - random.below(2);
    let filler: &[u8] = random.pick(&[b"\n".as_slice(), b" ", b"\n|", b"| x\n", b"\r\n"]);
    text.extend(b"\n");
    while text.len() < length {
        text.extend(filler);
    }
    text.truncate(length);
    text
}

/// Books of 65,536 bytes to be shown, with a byte too few, just enough room and a byte more.
fn longest_books() -> impl Iterator<Item = BookCase> {
    [books::largest_book(), limits::wordiest_book()].into_iter().flat_map(|book| {
        let case = case(BookCall::Show, book);
        let needed = case.needed().unwrap_or_default() as usize;
        [needed - 1, needed, needed + 1].map(|output_length| BookCase { output_length, ..case.clone() })
    })
}

/// A book that 01 does not refuse, or hardly.
pub fn any_book(random: &mut Random) -> Vec<u8> {
    match random.below(40) {
        0 => books::registries_book(),
        1 => {
            let rules = (0..random.below(4)).map(|_| plans::rule(random, 0)).collect();
            large::book(random, rules)
        }
        2 => books::largest_book(),
        3..8 => {
            let mut book = books::encode(&plans::sections(random).0);
            mutate_bytes(random, &mut book);
            book
        }
        8..20 => booktext::compiled(&Draft::sound(random).text(random)).map_or(Vec::new(), |compiled| compiled.book),
        _ => {
            let sections = plans::sections(random).0;
            books::encode(&doubled(random, sections))
        }
    }
}

/// Sections with a set or a rule once more here and there.
fn doubled(random: &mut Random, mut sections: Vec<SectionPlan>) -> Vec<SectionPlan> {
    for SectionPlan { rules, sets, .. } in &mut sections {
        double(random, rules);
        double(random, sets);
    }
    sections
}

fn double<T: Clone>(random: &mut Random, items: &mut Vec<T>) {
    if !items.is_empty() && random.one_in(3) {
        let (item, at) = (items[random.below(items.len())].clone(), random.below(items.len() + 1));
        items.insert(at, item);
    }
}

fn bad_book(random: &mut Random, number: u8) -> BookCase {
    let book = bad_bytes(random, number);
    BookCase { output_length: random.pick(&[0, 300]), ..case(BookCall::Show, book) }
}

/// A book for which 01 has this refusal.
pub fn bad_bytes(random: &mut Random, number: u8) -> Vec<u8> {
    let book = books::encode(&plans::sections(random).0);
    let mut message = Case { message: vec![], book, stamp: vec![], control: 0, output_length: 0, place: [0; 4] };
    message_faults::put(random, &mut message, number);
    message.book
}

/// Changes a text in a byte, a line, a word or what a line says.
fn mutate_text(random: &mut Random, text: &mut Vec<u8>) {
    match random.below(5) {
        0 => mutate_bytes(random, text),
        1 => super::mutate_pieces(random, text, b'\n'),
        2 => super::mutate_pieces(random, text, b' '),
        3 => super::mutate_pieces(random, text, b'|'),
        _ => {
            let at = random.below(text.len() + 1);
            text.insert(at, random.letter(b" \t\r\n|019.-EWI"));
        }
    }
}

#[cfg(test)]
mod tests {
    use super::*;

    fn number(case: &BookCase) -> u8 {
        case.answer(&mut vec![0; case.output_length]).number
    }

    #[test]
    fn sound_sources_are_compiled_and_shown_again() {
        for index in 0..600 {
            let random = &mut Random::new(7, index);
            let text = Draft::sound(random).text(random);
            let compiled = booktext::compiled(&text);
            let compiled = compiled.unwrap_or_else(|told| panic!("{told:?} {}", text.escape_ascii()));
            let shown = booktext::shown(&compiled.book).unwrap_or_else(|told| panic!("{told:?}"));
            assert!(booktext::compiled(&shown).is_ok_and(|again| again.book == compiled.book));
            let legend = booktext::legend_of(&text, usize::MAX).unwrap_or_else(|told| panic!("{told:?}"));
            let lines = legend.iter().filter(|b| **b == b'\n').count();
            assert_eq!(lines, compiled.sections + compiled.rules);
        }
    }

    #[test]
    fn each_fault_gives_its_row() {
        for row in BOOK_ROWS {
            for index in 0..40 {
                let random = &mut Random::new(8, index);
                let call = text_call(random);
                let case = spoilt(random, call, row);
                assert_eq!(number(&case), number_of(row), "{row} {}", case.given.escape_ascii());
            }
        }
    }

    #[test]
    fn each_pair_can_be_made() {
        let generator = BookGenerator::new(4);
        for (index, pair) in generator.pairs().iter().enumerate() {
            for together in [true, false] {
                let case = paired(&mut Random::new(9, index as u64), *pair, together);
                assert_eq!(number(&case), number_of(pair.0));
            }
        }
        for number in BAD_BOOKS {
            assert_eq!(super::tests::number(&bad_book(&mut Random::new(9, 0), number)), number);
        }
    }

    #[test]
    fn no_accepted_text_makes_a_book_that_is_refused() {
        let generator = BookGenerator::new(5);
        let mut accepted = 0;
        for index in 0..generator.firsts() + 1_500 {
            let given = generator.case(index).0.given;
            let (compiled, legend) = (booktext::compiled(&given), booktext::legend_of(&given, usize::MAX));
            assert_eq!(compiled.as_ref().err(), legend.as_ref().err());
            if let Ok(compiled) = compiled {
                let shown = booktext::shown(&compiled.book).unwrap_or_else(|told| panic!("{told:?}"));
                // The worst is 59 bytes for 4.
                assert!(shown.len() <= 15 * compiled.book.len());
                assert!(booktext::compiled(&shown).is_ok_and(|again| again.book == compiled.book));
                accepted += 1;
            }
        }
        assert!(accepted > 400, "{accepted}");
    }

    #[test]
    fn an_index_has_one_book() {
        let (one, other) = (BookGenerator::new(3), BookGenerator::new(3));
        let first = one.firsts();
        for index in (first..first + 300).rev() {
            assert!(one.case(index) == other.case(index));
        }
    }
}
