//! A second, independent program of 01 and of A1 to A5 and A8 in 02: reads a VXU message, grades it by a section of a
//! rule book into a table of finding records and writes an ACK from them, or answers with the ACKs of a batch file's
//! messages, or with yes or no alone. It also compiles rule books from text, shows them as text and tells two of them
//! apart.

pub mod ack;
pub mod batch;
pub mod book;
pub mod bookprogram;
pub mod books;
pub mod booktext;
pub mod cases;
pub mod cutting;
pub mod findings;
pub mod hostile;
pub mod lamp;
pub mod limits;
pub mod line;
pub mod locating;
pub mod order;
pub mod packing;
pub mod records;
pub mod refusals;
pub mod registries;
pub mod samples;
pub mod values;

use std::process::ExitCode;

pub use ack::{relay, write};
pub use batch::batch;
pub use cutting::check;
pub use lamp::lamp;
pub use locating::locate;
pub use records::grade;

/// How a program ends: a problem is told in one line.
pub fn ending(program: &str, result: Result<(), String>) -> ExitCode {
    match result {
        Ok(()) => ExitCode::SUCCESS,
        Err(problem) => {
            eprintln!("{program}: {problem}");
            ExitCode::FAILURE
        }
    }
}
