//! Refusals 1 to 10: grading has the first nine, writing the first six and the tenth, the lamp and a batch have them all.

use crate::book::{Book, Section};
use crate::cutting::{Fields, Message, Refusal};
use crate::{findings, values};

/// A message that meets none of refusals 1 to 6.
pub struct Answerable<'m> {
    pub message: Message<'m>,
    pub header: Fields,
}

impl<'m> Answerable<'m> {
    pub fn of(m: &'m [u8]) -> Result<Self, Refusal> {
        let message = Message::read(m)?;
        let header = message.header();
        match message.text(header.field(10)).len() {
            1..=199 => Ok(Answerable { message, header }),
            _ => Err((6, 0)),
        }
    }
}

/// A message that meets none of refusals 1 to 9, and what it is graded by.
pub struct Accepted<'m, 'b> {
    pub message: Message<'m>,
    pub header: Fields,
    pub section: Section<'b>,
}

impl<'m, 'b> Accepted<'m, 'b> {
    pub fn of(m: &'m [u8], book: &Result<Book<'b>, Refusal>) -> Result<Self, Refusal> {
        let Answerable { message, header } = Answerable::of(m)?;
        let book = book.as_ref().map_err(|refusal| *refusal)?;
        let section = book.section(findings::first_value(message, &header, 6, 1))?;
        Ok(Accepted { message, header, section })
    }

    /// One that does not meet refusal 10 either.
    pub fn stamped(m: &'m [u8], book: &Result<Book<'b>, Refusal>, stamp: &[u8]) -> Result<Self, Refusal> {
        let accepted = Accepted::of(m, book)?;
        expect_stamp(stamp)?;
        Ok(accepted)
    }
}

/// Refusal 10.
pub fn expect_stamp(stamp: &[u8]) -> Result<(), Refusal> {
    match is_stamp(stamp) {
        true => Ok(()),
        false => Err((10, 0)),
    }
}

/// Whether refusal 10 is not met.
pub fn is_stamp(stamp: &[u8]) -> bool {
    // Of the TIMEs of 19 bytes only one with a fraction has another form, and its sign stands elsewhere.
    stamp.len() == 19 && matches!(stamp[14], b'+' | b'-') && values::time_digits(stamp) == Some(14)
}
