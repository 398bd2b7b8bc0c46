//! Two books to be told apart: one case, and a generator of them that depends on a seed alone.

use super::sources::{any_book, bad_bytes, edited_books};
use super::variants::{quiet, varied};
use super::{lent, plans, Random};
use crate::books::{self, SectionPlan};
use crate::booktext::{self, Told, TOO_SHORT};
use crate::{limits, samples};

/// Two books; the output is lent as so many bytes.
#[derive(Clone, Debug, PartialEq, Eq)]
pub struct DiffCase {
    pub old: Vec<u8>,
    pub new: Vec<u8>,
    pub output_length: usize,
}

impl DiffCase {
    pub fn answer(&self, out: &mut [u8]) -> Told {
        booktext::diff(&self.old, &self.new, out)
    }

    /// What a program that runs packed cases prints for it.
    pub fn printed(&self) -> Vec<u8> {
        super::printed_told(self.output_length, |out| self.answer(out))
    }

    /// The length of the difference, if the books are two and differ.
    pub fn needed(&self) -> Option<u64> {
        let told = self.answer(&mut []);
        (told.number == TOO_SHORT).then_some(told.detail)
    }
}

/// Cases by their index: the samples and long books first, then each refusal and each output once, then random ones
/// without end.
pub struct DiffGenerator {
    seed: u64,
    samples: Vec<DiffCase>,
}

/// Which number is told of the old book and which of the new one; 0, none.
const REFUSED: [[u8; 2]; 8] = [[7, 0], [8, 0], [0, 7], [0, 8], [7, 7], [7, 8], [8, 7], [8, 8]];
/// How the output of books that differ is lent.
const LENT: [fn(usize) -> usize; 4] = [|_| 0, |needed| needed - 1, |needed| needed, |needed| needed + 1];

impl DiffGenerator {
    pub fn new(seed: u64) -> Self {
        let samples = samples::diffs::samples().into_iter().map(|sample| sample.case);
        DiffGenerator { seed, samples: samples.chain(long_books()).collect() }
    }

    /// How many come before the random ones.
    pub fn firsts(&self) -> u64 {
        (self.samples.len() + REFUSED.len() + LENT.len()) as u64
    }

    pub fn case(&self, index: u64) -> DiffCase {
        let random = &mut Random::new(self.seed, index);
        let at = index as usize;
        let mut case = match self.samples.get(at) {
            Some(sample) => sample.clone(),
            None => made(random, at - self.samples.len()),
        };
        // No room after the last byte, so that a reader that goes past it can be noticed.
        case.old.shrink_to_fit();
        case.new.shrink_to_fit();
        case
    }
}

/// What comes after the samples.
fn made(random: &mut Random, at: usize) -> DiffCase {
    if let Some(numbers) = REFUSED.get(at) {
        return refused(random, *numbers);
    }
    match LENT.get(at - REFUSED.len()) {
        Some(lend) => {
            let (mut case, needed) = differing(random);
            case.output_length = lend(needed);
            case
        }
        None => random_case(random),
    }
}

fn random_case(random: &mut Random) -> DiffCase {
    let [old, new] = match random.below(64) {
        0..5 => {
            let numbers = random.pick(&REFUSED);
            return refused(random, numbers);
        }
        5..10 => {
            let book = any_book(random);
            [book.clone(), book]
        }
        10..18 => [any_book(random), any_book(random)],
        18..22 => {
            let book = books::largest_book();
            [book.clone(), changed_in_a_byte(random, book)]
        }
        22..34 => edited_books(random),
        34..42 => {
            let sections = sections(random);
            let other = quiet(random, &sections);
            [sections, other].map(|sections| books::encode(&sections))
        }
        _ => {
            let sections = sections(random);
            let other = varied(random, &sections);
            [sections, other].map(|sections| books::encode(&sections))
        }
    };
    let mut case = DiffCase { old, new, output_length: 0 };
    case.output_length = lent(random, case.needed(), 262_144);
    case
}

/// Small sections, or some of the registries'.
fn sections(random: &mut Random) -> Vec<SectionPlan> {
    if random.one_in(12) {
        vec![books::section("NJDOH", "NJ"), books::section("IZG", "IZG")]
    } else {
        plans::sections(random).0
    }
}

/// Two books that differ, and the length of what is told of them.
fn differing(random: &mut Random) -> (DiffCase, usize) {
    loop {
        let [old, new] = edited_books(random);
        let case = DiffCase { old, new, output_length: 0 };
        if let Some(needed) = case.needed() {
            return (case, needed as usize);
        }
    }
}

fn refused(random: &mut Random, numbers: [u8; 2]) -> DiffCase {
    let [old, new] = numbers.map(|number| match number {
        0 => books::encode(&sections(random)),
        _ => bad_bytes(random, number),
    });
    DiffCase { old, new, output_length: random.pick(&[0, 300]) }
}

/// One of the bytes of its first sections is another; mostly the book is still good.
fn changed_in_a_byte(random: &mut Random, mut book: Vec<u8>) -> Vec<u8> {
    let at = random.between(6, 8_000);
    book[at] = random.letter(b"EWIAZ09\x01\x02\x03");
    book
}

/// Long books and long differences, with a byte too few, just enough room and a byte more.
fn long_books() -> Vec<DiffCase> {
    let (largest, wordiest, registries) = (books::largest_book(), limits::wordiest_book(), books::registries_book());
    let pairs = [(&largest, &largest), (&largest, &wordiest), (&largest, &registries), (&registries, &largest)];
    let mut cases = Vec::new();
    for (old, new) in pairs {
        let case = DiffCase { old: old.clone(), new: new.clone(), output_length: 0 };
        match case.needed() {
            Some(needed) => cases.extend(
                [needed - 1, needed, needed + 1]
                    .map(|output_length| DiffCase { output_length: output_length as usize, ..case.clone() }),
            ),
            None => cases.push(case),
        }
    }
    cases
}

#[cfg(test)]
mod tests {
    use super::*;

    #[test]
    fn each_first_is_told_as_it_is_meant() {
        let random = &mut Random::new(3, 0);
        for numbers in REFUSED {
            let case = refused(random, numbers);
            let (number, which) = if numbers[0] > 0 { (numbers[0], 1) } else { (numbers[1], 2) };
            assert_eq!(case.answer(&mut []), (number, which).into());
        }
        for (lend, number) in LENT.iter().zip([55, 55, 0, 0]) {
            let (case, needed) = differing(random);
            assert_eq!(case.answer(&mut vec![0; lend(needed)]), (number, needed as u64).into());
        }
    }

    /// A book beside itself has no difference, and back is as far as there.
    #[test]
    fn differences_go_both_ways() {
        let generator = DiffGenerator::new(5);
        let sign_of = |line: &[u8]| {
            let mut words = line.split(|b| *b == b' ');
            let first = words.next().map(<[u8]>::to_vec);
            words.next().filter(|second| *second != b"section").map(<[u8]>::to_vec).or(first)
        };
        let lines = |told: &[u8], sign: &str| {
            told.split(|b| *b == b'\n').filter(|line| sign_of(line) == Some(sign.into())).count()
        };
        let mut differ = 0;
        for index in 0..generator.firsts() + 400 {
            let DiffCase { old, new, .. } = generator.case(index);
            let (Ok(there), Ok(back)) = (booktext::difference(&old, &new), booktext::difference(&new, &old)) else {
                continue;
            };
            assert_eq!(booktext::difference(&old, &old), Ok(Vec::new()));
            assert_eq!(there.is_empty(), back.is_empty());
            for (sign, other) in [("-", "+"), ("+", "-"), ("~", "~"), ("#", "#")] {
                assert_eq!(lines(&there, sign), lines(&back, other), "{}", there.escape_ascii());
            }
            differ += usize::from(!there.is_empty());
        }
        assert!(differ > 200, "{differ}");
    }

    #[test]
    fn quiet_changes_are_no_difference() {
        for index in 0..300 {
            let random = &mut Random::new(6, index);
            let old = sections(random);
            let new = quiet(random, &old);
            assert_eq!(booktext::difference(&books::encode(&old), &books::encode(&new)), Ok(Vec::new()));
        }
    }

    #[test]
    fn an_index_has_one_difference() {
        let (one, other) = (DiffGenerator::new(3), DiffGenerator::new(3));
        let first = one.firsts();
        for index in (first..first + 200).rev() {
            assert!(one.case(index) == other.case(index));
        }
    }
}
