//! The batch program: `batch.hl7` and `book.vxb` in the current directory, a line on standard input.

use std::process::ExitCode;

fn main() -> ExitCode {
    second::ending("batch", second::line::BATCH.run())
}
