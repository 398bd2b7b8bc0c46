//! The library as it is linked into this program.

use crate::library::{filled, Grading, Library, Made, OfMessage, Written};
use crate::ours;
use second::cases::{self, filled_table, tables, AnyCase, Case, Random};
use std::hint::black_box;

/// Bytes after the output, and records after the table, that nobody may write.
const GUARD: usize = 64;

pub struct Linked;

impl Library for Linked {
    fn make(&mut self, cases: &[AnyCase]) -> Result<Vec<Made>, String> {
        cases.iter().map(make).collect()
    }
}

fn make(case: &AnyCase) -> Result<Made, String> {
    if let AnyCase::Message(case) = case {
        return Ok(Made::Message(of_message(case)));
    }
    let mut lent = case.clone();
    let length = case.output_length();
    let mut output = filled(length + GUARD);
    let answer = ours::answer_to(&lent, &mut output[..length]);
    // Hidden from the compiler, which takes for granted that what is lent to be read stays as it is.
    if black_box(&mut lent) != case {
        return Err("what was lent to be read has been changed".into());
    }
    Ok(Made::Written(Written { answer, output }))
}

fn of_message(case: &Case) -> OfMessage {
    let Case { message, book, stamp, .. } = case;
    let needed = match ours::grade(message, book, &mut filled_table(GUARD)[..0]) {
        (12, needed) => needed,
        _ => 0,
    };
    let gradings = tables(needed, message.len()).into_iter().map(|lent| grading(case, lent)).collect();
    let places = places(case).into_iter().map(|place| (place, ours::locate(message, place)));
    let lamp = ours::lamp(message, book, stamp);
    OfMessage { gradings, lamp, check: ours::check(message), places: places.collect() }
}

fn grading(case: &Case, lent: usize) -> Grading {
    let Case { message, book, stamp, control, output_length, .. } = case;
    let mut table = filled_table(lent + GUARD);
    let graded = ours::grade(message, book, &mut table[..lent]);
    let written = (graded.0 == 0).then(|| {
        let mut output = filled(output_length + GUARD);
        let out = &mut output[..*output_length];
        let answer = ours::write(message, &table[..lent], graded.1 as u32, stamp, *control, out);
        Written { answer: answer.into(), output }
    });
    Grading { lent, graded, table, written }
}

/// The case's place and more, since asking costs little here; also numbers that no packed case can hold.
fn places(case: &Case) -> Vec<[usize; 4]> {
    let random = &mut Random::new(case.message.len() as u64, case.control.into());
    let mut places = vec![case.place];
    let count = if case.message.len() < 4_096 { 24 } else { 8 };
    places.extend((0..count).map(|_| cases::place(random, &case.message)));
    let mut places: Vec<_> = places.into_iter().map(|place| place.map(|number| number as usize)).collect();
    let far = random.pick(&[1 << 32, (1 << 32) + 1, 1 << 63, usize::MAX - 1, usize::MAX]);
    places[1][random.below(4)] = far;
    places
}
