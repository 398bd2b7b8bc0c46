//! Compares the main code with the second program, through its static library or as a program.

mod batches;
mod bookprogram;
mod books;
mod coverage;
mod diffs;
mod driven;
mod judged;
mod lamps;
mod library;
#[cfg(feature = "ours")]
mod linked;
mod months;
#[cfg(feature = "ours")]
#[path = "../../ours.rs"]
mod ours;
mod program;
mod quotes;
mod records;
mod traits;

use library::Library;
use program::Source;
use second::cases::{BatchGenerator, Generator};
use std::env;
use std::path::{Path, PathBuf};
use std::process::{Command, ExitCode};
use std::time::Duration;

const USAGE: &str = "usage: compare [--seconds N] [--cases N] [--seed S] [--replay FILE] \
                     [--library PATH | --program PATH | --batch PATH | --book PATH] [--under PATH]";

#[derive(Default)]
struct Options {
    seconds: Option<u64>,
    cases: Option<u64>,
    seed: u64,
    replay: Option<PathBuf>,
    library: Option<PathBuf>,
    program: Option<PathBuf>,
    batch: Option<PathBuf>,
    book: Option<PathBuf>,
    under: Option<PathBuf>,
}

fn main() -> ExitCode {
    match options().and_then(run) {
        Ok(true) => ExitCode::SUCCESS,
        Ok(false) => ExitCode::FAILURE,
        Err(problem) => {
            eprintln!("compare: {problem}");
            ExitCode::from(2)
        }
    }
}

/// Whether all is well.
fn run(options: Options) -> Result<bool, String> {
    let seed = options.seed;
    if let Some(path) = &options.program {
        return options.compare_program(path, Source::Relay(Generator::new(seed)));
    }
    if let Some(path) = &options.batch {
        return options.compare_program(path, Source::Batch(BatchGenerator::new(seed)));
    }
    if let Some(path) = &options.book {
        return bookprogram::compare(|| options.command(path), seed, options.cases.unwrap_or(1_000));
    }
    let mut ours = match &options.library {
        Some(path) => Box::new(driven::Driven::start(options.command(path)?)?),
        None => linked()?,
    };
    if let Some(file) = &options.replay {
        return library::replay(&mut *ours, file);
    }
    // A number of cases alone is not cut short by the clock.
    let seconds = options.seconds.unwrap_or(if options.cases.is_some() { 100_000 } else { 60 });
    library::compare(&mut *ours, seed, options.cases.unwrap_or(u64::MAX), Duration::from_secs(seconds))
}

#[cfg(not(feature = "ours"))]
fn linked() -> Result<Box<dyn Library>, String> {
    Err("this build links no library: it takes --library, --program, --batch or --book".into())
}

#[cfg(feature = "ours")]
fn linked() -> Result<Box<dyn Library>, String> {
    Ok(Box::new(linked::Linked))
}

impl Options {
    fn compare_program(&self, path: &Path, source: Source) -> Result<bool, String> {
        program::compare(self.command(path)?, &source, self.seed, self.cases.unwrap_or(3_000))
    }

    /// Starts a program, by another one that takes it as its argument if one was named.
    fn command(&self, path: &Path) -> Result<Command, String> {
        // Whole paths, since a program is run in another folder.
        let whole = |path: &Path| path.canonicalize().map_err(|e| format!("{}: {e}", path.display()));
        let program = whole(path)?;
        Ok(match &self.under {
            Some(under) => {
                let mut command = Command::new(whole(under)?);
                command.arg(program);
                command
            }
            None => Command::new(program),
        })
    }
}

fn options() -> Result<Options, String> {
    let mut options = Options { seed: 1, ..Options::default() };
    let mut arguments = env::args_os().skip(1);
    while let Some(name) = arguments.next() {
        let value = arguments.next().ok_or(USAGE)?;
        let number = || value.to_str().and_then(|text| text.parse().ok()).ok_or(USAGE.to_string());
        match name.to_str() {
            Some("--seconds") => options.seconds = Some(number()?),
            Some("--cases") => options.cases = Some(number()?),
            Some("--seed") => options.seed = number()?,
            Some("--replay") => options.replay = Some(value.into()),
            Some("--library") => options.library = Some(value.into()),
            Some("--program") => options.program = Some(value.into()),
            Some("--batch") => options.batch = Some(value.into()),
            Some("--book") => options.book = Some(value.into()),
            Some("--under") => options.under = Some(value.into()),
            _ => return Err(USAGE.into()),
        }
    }
    Ok(options)
}
