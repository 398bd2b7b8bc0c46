//! A relay or batch program run in a folder of its own, its standard output compared with what is to be printed.

use second::book::BOOK_LIMIT;
use second::cases::{BatchCase, BatchGenerator, Case, Generator, Random};
use second::line::{Program, BATCH, BOOK_FILE, RELAY};
use second::refusals::is_stamp;
use second::samples::records;
use std::fs::{self, File};
use std::io::Write;
use std::path::{Path, PathBuf};
use std::process::{Command, Stdio};
use std::{env, io, process, thread};

/// What makes the inputs, by which the program is known.
pub enum Source {
    Relay(Generator),
    Batch(BatchGenerator),
}

/// A message or a batch file with what else is given.
struct Given {
    file: Vec<u8>,
    book: Vec<u8>,
    stamp: Vec<u8>,
    control: u32,
}

impl Source {
    fn program(&self) -> &'static Program {
        match self {
            Source::Relay(_) => &RELAY,
            Source::Batch(_) => &BATCH,
        }
    }

    fn given(&self, index: u64) -> Given {
        match self {
            Source::Relay(generator) => {
                let Case { message, book, stamp, control, .. } = generator.case(index).0;
                Given { file: message, book, stamp, control }
            }
            Source::Batch(generator) => {
                let BatchCase { file, book, stamp, control, .. } = generator.case(index).0;
                Given { file, book, stamp, control }
            }
        }
    }

    /// Brings a good file to its limit: a message by a last segment, a batch by a field of its first.
    fn fill(&self, file: &mut Vec<u8>) {
        let limit = self.program().limit;
        match self {
            Source::Relay(_) => {
                file.extend(b"ZZZ|");
                file.resize(limit - 1, b'x');
                file.push(b'\r');
            }
            Source::Batch(_) => {
                let end = file.iter().position(|b| *b == b'\r').unwrap_or(file.len());
                file.splice(end..end, vec![b'x'; limit.saturating_sub(file.len())]);
            }
        }
    }
}

/// Messages with about as many findings as the relay program lends records, as they are.
fn relayed() -> Vec<Run> {
    let run = |case: Case| Run {
        input: [case.stamp.as_slice(), format!(" {}\n", case.control).as_bytes()].concat(),
        file: Some(case.message),
        book: Some(case.book),
        piped: false,
    };
    records::relayed().into_iter().map(|sample| run(sample.case)).collect()
}

/// Contents of the two files, `None` for a missing one, and of standard input.
struct Run {
    file: Option<Vec<u8>>,
    book: Option<Vec<u8>>,
    input: Vec<u8>,
    piped: bool,
}

pub fn compare(mut command: Command, source: &Source, seed: u64, cases: u64) -> Result<bool, String> {
    let folder = env::temp_dir().join(format!("compare-{}", process::id()));
    fs::create_dir_all(&folder).map_err(|e| format!("{}: {e}", folder.display()))?;
    let result = compare_in(&folder, command.current_dir(&folder), source, seed, cases);
    // What is left of the folder is of no use to anybody.
    let _ = fs::remove_dir_all(&folder);
    result
}

fn compare_in(folder: &Path, command: &mut Command, source: &Source, seed: u64, cases: u64) -> Result<bool, String> {
    let program = source.program();
    let firsts = match source {
        Source::Relay(_) => relayed(),
        Source::Batch(_) => Vec::new(),
    };
    let generated = (0..).map(|index| make(&mut Random::new(seed + 1, index), source, index));
    let mut hits = Hits::default();
    for (index, run) in (0..cases).zip(firsts.into_iter().chain(generated)) {
        let expected = program.printed(
            run.file.as_deref().unwrap_or_default(),
            run.book.as_deref().unwrap_or_default(),
            &run.input,
        );
        hits.count(&run, &expected);
        let printed = start(folder, command, program, &run).map_err(|e| format!("case {index} of seed {seed}: {e}"))?;
        if printed != expected {
            println!("case {index} of seed {seed} prints {}", shown(&printed));
            println!("instead of {}", shown(&expected));
            println!("its files and its input are in {}", keep(program, &run)?.display());
            println!("{} cases, 1 differences", index + 1);
            return Ok(false);
        }
    }
    let covered = matches!(source, Source::Batch(_)) || hits.print();
    println!("{cases} cases, 0 differences");
    Ok(covered)
}

/// What a relay program printed of messages with more findings than it lends records.
#[derive(Default)]
struct Hits {
    refused: u64,
    /// Where the stamp is bad, too.
    stamped: u64,
}

impl Hits {
    fn count(&mut self, run: &Run, expected: &[u8]) {
        if expected.starts_with(b"refused 12 ") {
            let line = run.input.split(|b| *b == b'\n').next().unwrap_or_default();
            let stamp = line.iter().rposition(|b| *b == b' ').map_or(line, |space| &line[..space]);
            self.refused += 1;
            self.stamped += u64::from(!is_stamp(stamp));
        }
    }

    /// Prints a line for each; says whether both were hit.
    fn print(&self) -> bool {
        println!("refusal 12: {}", self.refused);
        println!("refusal 12 before 10: {}", self.stamped);
        self.refused > 0 && self.stamped > 0
    }
}

pub fn shown(text: &[u8]) -> String {
    let shown: String = text.escape_ascii().to_string().chars().take(300).collect();
    format!("{} bytes: {shown}", text.len())
}

fn make(random: &mut Random, source: &Source, index: u64) -> Run {
    let given = source.given(index);
    let input = input(random, &given);
    let Given { mut file, mut book, .. } = given;
    // A good file or book with more after its limit is no good.
    if random.one_in(30) {
        source.fill(&mut file);
        file.resize(source.program().limit + random.pick(&[0, 1, 4_096, 70_000]), b'\r');
    }
    if random.one_in(30) {
        book.resize(BOOK_LIMIT + random.pick(&[0, 1, 4_096, 70_000]), 0);
    }
    Run {
        file: (!random.one_in(25)).then_some(file),
        book: (!random.one_in(25)).then_some(book),
        input,
        piped: random.one_in(2),
    }
}

fn input(random: &mut Random, case: &Given) -> Vec<u8> {
    let number = case.control.to_string();
    let zeros = |count: usize| "0".repeat(count) + &number;
    let number = match random.below(40) {
        0 => zeros(70_000),
        1 => zeros(random.pick(&[1, 9, 10, 64, 4_096, 65_536])),
        2 => "4294967295".into(),
        3 => "4294967296".into(),
        4 => "18446744073709551623".into(),
        5 => "9".repeat(random.pick(&[10, 20, 39, 40, 70_000])),
        6 => random.pick(&["", "+7", "-7", "7.", "0x7", "7\t", "\t7", "7\0", "\u{ff}", "7a", "1 2"]).into(),
        _ => number,
    };
    let stamp = match random.below(40) {
        0 => vec![b'2'; 70_000],
        1 => [vec![b' '; 70_000], case.stamp.clone()].concat(),
        2 => Vec::new(),
        3 => [&case.stamp, b" ".as_slice()].concat(),
        4 => [b" ", case.stamp.as_slice()].concat(),
        5 => b"20250113120000+0000\0".to_vec(),
        6 => b"\xFF\xFE20250113120000+0".to_vec(),
        7 => [&case.stamp, b" 7".as_slice()].concat(),
        _ => case.stamp.clone(),
    };
    let space: &[u8] = if random.one_in(40) { random.pick(&[b"".as_slice(), b"\t", b"\0"]) } else { b" " };
    let end: &[u8] = match random.below(12) {
        0 => b"",
        1 => b"\r\n",
        2 => b"\n\n",
        3 => b"\n20250113120000+0000 8\n",
        4 => b" \n",
        5 => b"\r",
        _ => b"\n",
    };
    let mut input = [&stamp, space, number.as_bytes(), end].concat();
    if random.one_in(40) {
        input.resize(input.len() + 100_000, b'x');
    }
    if random.one_in(60) {
        input = random.pick(&[b"".as_slice(), b"\n", b" ", b" \n", b"\n20250113120000+0000 8\n"]).to_vec();
    }
    input
}

/// Writes the files that there are, and removes the others.
pub fn lay_files(folder: &Path, files: &[(&str, Option<&[u8]>)]) -> io::Result<()> {
    for (name, contents) in files {
        let file = folder.join(name);
        match contents {
            Some(bytes) => fs::write(file, bytes)?,
            None if file.exists() => fs::remove_file(file)?,
            None => {}
        }
    }
    Ok(())
}

fn lay(folder: &Path, program: &Program, run: &Run) -> io::Result<()> {
    lay_files(
        folder,
        &[(program.file, run.file.as_deref()), (BOOK_FILE, run.book.as_deref()), ("line", Some(&run.input))],
    )
}

/// Standard output of the program; its input is a pipe or a file.
fn start(folder: &Path, command: &mut Command, program: &Program, run: &Run) -> io::Result<Vec<u8>> {
    lay(folder, program, run)?;
    command.stdout(Stdio::piped());
    if !run.piped {
        let input = File::open(folder.join("line"))?;
        return Ok(command.stdin(input).stderr(Stdio::inherit()).output()?.stdout);
    }
    let mut child = command.stdin(Stdio::piped()).spawn()?;
    let pipe = child.stdin.take();
    thread::scope(|scope| {
        scope.spawn(move || {
            // A program may stop reading after the line, so a broken pipe is no fault.
            pipe.map(|mut pipe| pipe.write_all(&run.input))
        });
        Ok(child.wait_with_output()?.stdout)
    })
}

/// Keeps the folder's contents beside this program; `line` is the standard input.
fn keep(program: &Program, run: &Run) -> Result<PathBuf, String> {
    let folder = env::current_exe().map_err(|e| e.to_string())?.with_file_name("failed-program");
    fs::create_dir_all(&folder)
        .and_then(|()| lay(&folder, program, run))
        .map_err(|e| format!("{}: {e}", folder.display()))?;
    Ok(folder)
}
