//! The main code's static library, by its ten C functions.

use second::booktext::Told;
use second::cases::{AnyCase, BookCall, Case, WriteCase};
use second::line::TABLE_RECORDS;
use second::packing::{self, number_and_detail, start_and_length};
use second::records::Record;

#[link(name = "jasminedo", kind = "static")]
extern "C" {
    fn jasminedo_grade(
        message: *const u8,
        message_length: usize,
        book: *const u8,
        book_length: usize,
        table: *mut Record,
        table_records: usize,
    ) -> u64;
    fn jasminedo_write(
        message: *const u8,
        message_length: usize,
        table: *const Record,
        table_records: usize,
        count: u32,
        stamp: *const u8,
        stamp_length: usize,
        control: u32,
        output: *mut u8,
        output_length: usize,
    ) -> u64;
    fn jasminedo_batch(
        file: *const u8,
        file_length: usize,
        book: *const u8,
        book_length: usize,
        stamp: *const u8,
        stamp_length: usize,
        control: u32,
        output: *mut u8,
        output_length: usize,
    ) -> u64;
    fn jasminedo_lamp(
        message: *const u8,
        message_length: usize,
        book: *const u8,
        book_length: usize,
        stamp: *const u8,
        stamp_length: usize,
    ) -> u64;
    fn jasminedo_check(message: *const u8, message_length: usize) -> u64;
    fn jasminedo_locate(
        message: *const u8,
        message_length: usize,
        segment: usize,
        field: usize,
        repetition: usize,
        component: usize,
    ) -> u64;
    fn jasminedo_compile(text: *const u8, text_length: usize, output: *mut u8, output_length: usize) -> u64;
    fn jasminedo_show(book: *const u8, book_length: usize, output: *mut u8, output_length: usize) -> u64;
    fn jasminedo_legend(text: *const u8, text_length: usize, output: *mut u8, output_length: usize) -> u64;
    fn jasminedo_diff(
        old: *const u8,
        old_length: usize,
        new: *const u8,
        new_length: usize,
        output: *mut u8,
        output_length: usize,
    ) -> u64;
}

pub fn grade(m: &[u8], book: &[u8], table: &mut [Record]) -> (u8, u64) {
    // SAFETY: every pointer comes with the length of its own slice, a record is laid out as in C and may hold any bytes,
    // and only `table` is written.
    number_and_detail(unsafe {
        jasminedo_grade(m.as_ptr(), m.len(), book.as_ptr(), book.len(), table.as_mut_ptr(), table.len())
    })
}

pub fn write(m: &[u8], table: &[Record], count: u32, stamp: &[u8], control: u32, out: &mut [u8]) -> (u8, u64) {
    // SAFETY: every pointer comes with the length of its own slice, and only `out` is written.
    let result = unsafe {
        jasminedo_write(
            m.as_ptr(),
            m.len(),
            table.as_ptr(),
            table.len(),
            count,
            stamp.as_ptr(),
            stamp.len(),
            control,
            out.as_mut_ptr(),
            out.len(),
        )
    };
    number_and_detail(result)
}

/// What the relay does: the message is graded into the lent table, and what was found there is written.
pub fn relay(m: &[u8], book: &[u8], stamp: &[u8], control: u32, table: &mut [Record], out: &mut [u8]) -> (u8, u64) {
    match grade(m, book, table) {
        (0, count) => write(m, table, count as u32, stamp, control, out),
        refusal => refusal,
    }
}

pub fn batch(file: &[u8], book: &[u8], stamp: &[u8], control: u32, out: &mut [u8]) -> (u8, u64) {
    // SAFETY: every pointer comes with the length of its own slice, and only `out` is written.
    let result = unsafe {
        jasminedo_batch(
            file.as_ptr(),
            file.len(),
            book.as_ptr(),
            book.len(),
            stamp.as_ptr(),
            stamp.len(),
            control,
            out.as_mut_ptr(),
            out.len(),
        )
    };
    number_and_detail(result)
}

pub fn lamp(m: &[u8], book: &[u8], stamp: &[u8]) -> (u8, u64) {
    // SAFETY: every pointer comes with the length of its own slice.
    number_and_detail(unsafe {
        jasminedo_lamp(m.as_ptr(), m.len(), book.as_ptr(), book.len(), stamp.as_ptr(), stamp.len())
    })
}

/// The answer to a case, to a message with as many records as the relay program lends; only of books as text there is a
/// section.
pub fn answer_to(case: &AnyCase, out: &mut [u8]) -> Told {
    match case {
        AnyCase::Message(Case { message, book, stamp, control, .. }) => {
            relay(message, book, stamp, *control, &mut [Record::default(); TABLE_RECORDS], out).into()
        }
        AnyCase::Write(WriteCase { message, table, count, stamp, control, .. }) => {
            write(message, table, *count, stamp, *control, out).into()
        }
        AnyCase::Batch(case) => batch(&case.file, &case.book, &case.stamp, case.control, out).into(),
        AnyCase::Book(case) => told(case.call, &case.given, out),
        AnyCase::Diff(case) => diff(&case.old, &case.new, out),
    }
}

/// What is told of a text or a book.
pub fn told(call: BookCall, given: &[u8], out: &mut [u8]) -> Told {
    let call = match call {
        BookCall::Compile => jasminedo_compile,
        BookCall::Show => jasminedo_show,
        BookCall::Legend => jasminedo_legend,
    };
    // SAFETY: both pointers come with the length of their own slice, and only `out` is written.
    packing::told(unsafe { call(given.as_ptr(), given.len(), out.as_mut_ptr(), out.len()) })
}

/// What is told of two books.
pub fn diff(old: &[u8], new: &[u8], out: &mut [u8]) -> Told {
    // SAFETY: every pointer comes with the length of its own slice, and only `out` is written.
    packing::told(unsafe {
        jasminedo_diff(old.as_ptr(), old.len(), new.as_ptr(), new.len(), out.as_mut_ptr(), out.len())
    })
}

pub fn check(m: &[u8]) -> (u8, u64) {
    // SAFETY: the pointer comes with the length of its slice.
    number_and_detail(unsafe { jasminedo_check(m.as_ptr(), m.len()) })
}

pub fn locate(m: &[u8], [segment, field, repetition, component]: [usize; 4]) -> (usize, usize) {
    // SAFETY: the pointer comes with the length of its slice.
    let result = unsafe { jasminedo_locate(m.as_ptr(), m.len(), segment, field, repetition, component) };
    start_and_length(result)
}
