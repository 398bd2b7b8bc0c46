//! A program for books as text, run in a folder of its own on one source after the other: what it prints and what it
//! writes is compared.

use crate::program::{lay_files, shown};
use second::book::BOOK_LIMIT;
use second::bookprogram::{self, Printed};
use second::cases::{BookCall, BookGenerator, DiffCase, DiffGenerator, Random};
use std::path::{Path, PathBuf};
use std::process::Command;
use std::{env, fs, io, process};

const SOURCE: &str = "source.txt";
const BOOK: &str = "book.vxb";
/// With which the book is compared.
const OTHER: &str = "other.vxb";
/// There is no such folder.
const NOWHERE: &str = "nowhere/book.vxb";
/// Longer legends and differences are not asked for, since a program need not have room for them.
const LONGEST: usize = 1_048_576;
/// Of so many cases one is a difference.
const DIFFS: u64 = 4;

/// What stands in the folder before anything is run; `None` where a file is missing.
#[derive(Clone)]
struct Files {
    source: Option<Vec<u8>>,
    book: Option<Vec<u8>>,
    other: Option<Vec<u8>>,
}

/// Cases by one index.
struct Generators {
    books: BookGenerator,
    diffs: DiffGenerator,
}

/// One command line, with what is to be printed and which book is to be there afterwards.
struct Step {
    arguments: Vec<&'static str>,
    printed: Vec<u8>,
    book: Option<Vec<u8>>,
}

pub fn compare(command: impl Fn() -> Result<Command, String>, seed: u64, cases: u64) -> Result<bool, String> {
    let folder = env::temp_dir().join(format!("compare-{}", process::id()));
    fs::create_dir_all(&folder).map_err(|e| format!("{}: {e}", folder.display()))?;
    let result = compare_in(&folder, &command, seed, cases);
    // What is left of the folder is of no use to anybody.
    let _ = fs::remove_dir_all(&folder);
    result
}

fn compare_in(
    folder: &Path,
    command: &impl Fn() -> Result<Command, String>,
    seed: u64,
    cases: u64,
) -> Result<bool, String> {
    let generators = Generators { books: BookGenerator::new(seed), diffs: DiffGenerator::new(seed) };
    let mut runs = 0;
    for index in 0..cases {
        let random = &mut Random::new(seed + 2, index);
        let files = files(random, &generators, index);
        let problem = |e: io::Error| format!("case {index} of seed {seed}: {e}");
        lay(folder, &files).map_err(problem)?;
        for step in steps(random, &files) {
            let output = command()?.current_dir(folder).args(&step.arguments).output().map_err(problem)?;
            let book = fs::read(folder.join(BOOK)).ok();
            runs += 1;
            if output.stdout != step.printed || book != step.book {
                println!("case {index} of seed {seed}: {} prints {}", step.arguments.join(" "), shown(&output.stdout));
                println!("instead of {}", shown(&step.printed));
                println!("{BOOK} has afterwards {}, instead of {}", told(&book), told(&step.book));
                println!("the files are in {}", keep(&files)?.display());
                println!("{} cases, 1 differences", index + 1);
                return Ok(false);
            }
        }
    }
    println!("{runs} runs of the program");
    println!("{cases} cases, 0 differences");
    Ok(true)
}

fn told(book: &Option<Vec<u8>>) -> String {
    book.as_ref().map_or("nothing".into(), |book| shown(book))
}

/// The source of an index or, where the index is for `show` or `diff`, its books.
fn files(random: &mut Random, generators: &Generators, index: u64) -> Files {
    let (round, at) = (index / DIFFS, index % DIFFS);
    if at + 1 == DIFFS {
        let DiffCase { old, new, .. } = generators.diffs.case(round);
        let [book, other] = [old, new].map(|book| (!random.one_in(30)).then(|| lengthened(random, book)));
        return Files { source: None, book, other };
    }
    let case = generators.books.case(round * (DIFFS - 1) + at).0;
    if case.call == BookCall::Show {
        let book = lengthened(random, case.given);
        return Files { source: None, book: Some(book), other: None };
    }
    // A book that is there already is longer or shorter than the one that is written, or is none.
    let length = random.pick(&[0, 5, 300, 70_000]);
    let book = random.one_in(2).then(|| random.text(b"VXB\0\x01", length));
    Files { source: Some(case.given), book, other: None }
}

/// A good book with more after its limit is no good.
fn lengthened(random: &mut Random, mut book: Vec<u8>) -> Vec<u8> {
    if random.one_in(if book.len() == BOOK_LIMIT { 2 } else { 20 }) {
        book.resize(BOOK_LIMIT + random.pick(&[0, 1, 4_096, 70_000]), 0);
    }
    book
}

fn steps(random: &mut Random, files: &Files) -> Vec<Step> {
    let mut steps = vec![show(files.book.clone())];
    let same = |arguments: &[&'static str], printed: Printed| Step {
        arguments: arguments.to_vec(),
        printed: printed.text,
        book: files.book.clone(),
    };
    if random.one_in(20) {
        let wrong: [&[&str]; 13] = [
            &[],
            &["compile"],
            &["compile", SOURCE],
            &["compile", SOURCE, BOOK, BOOK],
            &["check"],
            &["check", SOURCE, BOOK],
            &["show", BOOK, BOOK],
            &["legend"],
            &["diff"],
            &["diff", BOOK],
            &["diff", BOOK, BOOK, BOOK],
            &["Show", BOOK],
            &["", SOURCE],
        ];
        steps.push(same(random.pick(&wrong), bookprogram::usage()));
    }
    // A book beside itself where there is no other one.
    let (other, name) = match &files.other {
        None if files.source.is_some() => (&files.book, BOOK),
        other => (other, OTHER),
    };
    let difference = difference(&files.book, (other, name));
    if difference.text.len() <= LONGEST {
        steps.push(same(&["diff", BOOK, name], difference));
    }
    let Some(text) = &files.source else {
        let missing = bookprogram::cannot_read(Path::new(SOURCE));
        let calls: [&[&str]; 4] =
            [&["compile", SOURCE, BOOK], &["compile", SOURCE, NOWHERE], &["check", SOURCE], &["legend", SOURCE]];
        steps.push(same(random.pick(&calls), missing));
        return steps;
    };
    let (printed, book) = bookprogram::compiled(text);
    steps.push(same(&["check", SOURCE], printed.clone()));
    let legend = bookprogram::legend(text);
    if legend.text.len() <= LONGEST {
        steps.push(same(&["legend", SOURCE], legend));
    }
    if random.one_in(20) {
        // What comes after it is read from the source as it was.
        let to = random.pick(&[NOWHERE, SOURCE]);
        let there = bookprogram::cannot_write(Path::new(to));
        steps.push(same(&["compile", SOURCE, to], if book.is_some() { there } else { printed.clone() }));
    }
    let written = book.or_else(|| files.book.clone());
    steps.push(Step { arguments: vec!["compile", SOURCE, BOOK], printed: printed.text, book: written.clone() });
    steps.push(show(written));
    steps
}

fn show(book: Option<Vec<u8>>) -> Step {
    let printed = match &book {
        Some(book) => bookprogram::shown(book),
        None => bookprogram::cannot_read(Path::new(BOOK)),
    };
    Step { arguments: vec!["show", BOOK], printed: printed.text, book }
}

/// What `diff` prints of the book and another one with its name.
fn difference(book: &Option<Vec<u8>>, (other, name): (&Option<Vec<u8>>, &str)) -> Printed {
    match (book, other) {
        (None, _) => bookprogram::cannot_read(Path::new(BOOK)),
        (_, None) => bookprogram::cannot_read(Path::new(name)),
        (Some(old), Some(new)) => bookprogram::difference(old, new),
    }
}

fn lay(folder: &Path, files: &Files) -> io::Result<()> {
    lay_files(
        folder,
        &[(SOURCE, files.source.as_deref()), (BOOK, files.book.as_deref()), (OTHER, files.other.as_deref())],
    )
}

/// Keeps the files as they were before anything was run, beside this program.
fn keep(files: &Files) -> Result<PathBuf, String> {
    let folder = env::current_exe().map_err(|e| e.to_string())?.with_file_name("failed-program");
    fs::create_dir_all(&folder).and_then(|()| lay(&folder, files)).map_err(|e| format!("{}: {e}", folder.display()))?;
    Ok(folder)
}
