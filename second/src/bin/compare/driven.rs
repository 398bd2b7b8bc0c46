//! The library in a program of its own, `tests/library.c`: packed cases go in, what was made of them comes out.

use crate::library::{Grading, Library, Made, OfMessage, Written};
use second::cases::{AnyCase, Case, LONGEST_TABLE};
use second::packing::{self, number_and_detail, start_and_length, told, unpacked_record, RECORD_BYTES};
use second::records::Record;
use std::io::{self, BufReader, ErrorKind, Read, Write};
use std::process::{ChildStdin, ChildStdout, Command, Stdio};
use std::thread;

/// The program ends by itself when its input does.
pub struct Driven {
    input: ChildStdin,
    output: BufReader<ChildStdout>,
}

impl Driven {
    pub fn start(mut command: Command) -> Result<Self, String> {
        let mut child = command.stdin(Stdio::piped()).stdout(Stdio::piped()).spawn().map_err(|e| e.to_string())?;
        let (input, output) = child.stdin.take().zip(child.stdout.take()).ok_or("the program has no pipes")?;
        Ok(Driven { input, output: BufReader::new(output) })
    }
}

impl Library for Driven {
    fn make(&mut self, cases: &[AnyCase]) -> Result<Vec<Made>, String> {
        let packed = packing::pack_all(cases);
        // On two threads, since the pipes hold less than so many cases.
        let made: io::Result<Vec<Made>> = thread::scope(|scope| {
            scope.spawn(|| self.input.write_all(&packed));
            cases.iter().map(|case| read(&mut self.output, case)).collect()
        });
        made.map_err(|e| format!("the program ended before it had answered: {e}"))
    }
}

fn read(from: &mut impl Read, case: &AnyCase) -> io::Result<Made> {
    if let AnyCase::Message(case) = case {
        return Ok(Made::Message(read_message(from, case)?));
    }
    let answer = number(from)?;
    let answer = match case {
        AnyCase::Book(_) | AnyCase::Diff(_) => told(answer),
        _ => number_and_detail(answer).into(),
    };
    Ok(Made::Written(Written { answer, output: read_output(from, case.output_length())? }))
}

fn read_output(from: &mut impl Read, length: usize) -> io::Result<Vec<u8>> {
    let mut output = vec![0; length];
    from.read_exact(&mut output)?;
    Ok(output)
}

fn read_message(from: &mut impl Read, case: &Case) -> io::Result<OfMessage> {
    let tables = number(from)?;
    let gradings = (0..tables).map(|_| read_grading(from, case.output_length)).collect::<io::Result<_>>()?;
    let lamp = number_and_detail(number(from)?);
    let check = number_and_detail(number(from)?);
    let place = case.place.map(|number| number as usize);
    Ok(OfMessage { gradings, lamp, check, places: vec![(place, start_and_length(number(from)?))] })
}

fn read_grading(from: &mut impl Read, output_length: usize) -> io::Result<Grading> {
    let lent = number(from)? as usize;
    if lent > LONGEST_TABLE + 8 {
        return Err(io::Error::new(ErrorKind::InvalidData, format!("a table of {lent} records")));
    }
    let graded = number_and_detail(number(from)?);
    let table = (0..lent).map(|_| record(from)).collect::<io::Result<_>>()?;
    let written = match graded.0 {
        0 => {
            let answer = number_and_detail(number(from)?).into();
            Some(Written { answer, output: read_output(from, output_length)? })
        }
        _ => None,
    };
    Ok(Grading { lent, graded, table, written })
}

fn record(from: &mut impl Read) -> io::Result<Record> {
    let mut bytes = [0; RECORD_BYTES];
    from.read_exact(&mut bytes)?;
    Ok(unpacked_record(&bytes))
}

fn number(from: &mut impl Read) -> io::Result<u64> {
    let mut bytes = [0; 8];
    from.read_exact(&mut bytes)?;
    Ok(u64::from_be_bytes(bytes))
}
