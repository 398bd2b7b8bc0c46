//! The program that turns a rule book's text into the book and back.

use second::bookprogram::{self, Printed};
use std::env;
use std::ffi::OsString;
use std::io::{self, Write};
use std::process::ExitCode;

fn main() -> ExitCode {
    let arguments: Vec<OsString> = env::args_os().skip(1).collect();
    let Printed { text, status } = bookprogram::run(&arguments);
    match io::stdout().write_all(&text) {
        Ok(()) => ExitCode::from(status),
        Err(e) => second::ending("book", Err(format!("standard output: {e}"))),
    }
}
