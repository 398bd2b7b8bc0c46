//! Books as text: a source is compiled to a book, a book is shown as its canonical text, a source's legend says
//! what the numbers of its rules mean, and two books are told apart rule by rule.

mod contents;
mod diff;
mod legend;
mod lines;
mod pages;
mod show;
mod statements;
mod words;

pub use lines::TEXT_LIMIT;

use crate::book::Book;
use contents::Meaning;

/// The refusal of an output that is too short, in place of 01's 11.
pub const TOO_SHORT: u8 = 55;

/// What is answered. Number 0 has the length of what was written, 55 the length needed, a refusal of the text its line,
/// one of two books which of them it is.
#[derive(Clone, Copy, Debug, PartialEq, Eq)]
pub struct Told {
    pub number: u8,
    pub detail: u64,
    /// The line of the section that was being made, 0 outside one.
    pub section: u64,
}

impl Told {
    fn at(number: u8, line: usize) -> Self {
        Told { number, detail: line as u64, section: 0 }
    }

    fn within(number: u8, line: usize, section: usize) -> Self {
        Told { section: section as u64, ..Told::at(number, line) }
    }
}

/// What else is answered has a number and a detail alone.
impl From<(u8, u64)> for Told {
    fn from((number, detail): (u8, u64)) -> Self {
        Told { number, detail, section: 0 }
    }
}

/// A compiled source with what is counted in it.
pub struct Compiled {
    pub book: Vec<u8>,
    pub sections: usize,
    pub rules: usize,
    pub sets: usize,
}

/// The text's book.
pub fn compile(text: &[u8], out: &mut [u8]) -> Told {
    written(compiled(text).map(|compiled| compiled.book), out)
}

/// The book's canonical text.
pub fn show(book: &[u8], out: &mut [u8]) -> Told {
    written(shown(book), out)
}

/// One line for each section of the text and each of its rules.
pub fn legend(text: &[u8], out: &mut [u8]) -> Told {
    written(legend_of(text, out.len()), out)
}

/// What the new book changes, a line for each thing.
pub fn diff(old: &[u8], new: &[u8], out: &mut [u8]) -> Told {
    written(difference(old, new), out)
}

pub fn compiled(text: &[u8]) -> Result<Compiled, Told> {
    understood(text, |meaning| Compiled {
        sections: meaning.contents.len(),
        rules: meaning.contents.iter().map(|section| section.rules.len()).sum(),
        sets: meaning.contents.iter().map(|section| section.sets.len()).sum(),
        book: meaning.book,
    })
}

pub fn shown(book: &[u8]) -> Result<Vec<u8>, Told> {
    Ok(show::text(&Book::read(book)?))
}

pub fn difference(old: &[u8], new: &[u8]) -> Result<Vec<u8>, Told> {
    let old = Book::read(old).map_err(|(number, _)| (number, 1))?;
    let new = Book::read(new).map_err(|(number, _)| (number, 2))?;
    Ok(diff::text(&old, &new).into_bytes())
}

/// The legend, or 55 where it has more bytes than there is room for.
pub fn legend_of(text: &[u8], room: usize) -> Result<Vec<u8>, Told> {
    let legend = understood(text, |meaning| legend::text(&meaning.contents, room))?;
    legend.map_err(|needed| (TOO_SHORT, needed).into())
}

/// What is made of a text's meaning, or the first refusal of 31 to 54 and 56.
fn understood<T>(text: &[u8], made: impl FnOnce(Meaning) -> T) -> Result<T, Told> {
    let lines = lines::read(text)?;
    let statements = statements::read(lines)?;
    let pages = pages::read(&statements)?;
    contents::read(&pages).map(made)
}

/// Writes what was made if there is room for it; the output's other bytes stay as they are.
fn written(made: Result<Vec<u8>, Told>, out: &mut [u8]) -> Told {
    match made {
        Err(refusal) => refusal,
        Ok(bytes) => {
            let number = match out.get_mut(..bytes.len()) {
                Some(front) => {
                    front.copy_from_slice(&bytes);
                    0
                }
                None => TOO_SHORT,
            };
            Told { number, detail: bytes.len() as u64, section: 0 }
        }
    }
}
