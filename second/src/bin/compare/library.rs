//! Case by case through the library, linked or in a program of its own: answer and whole output; a message is graded into
//! tables of several lengths and its ACK written from each that has room, and lamp, check and locate are asked.

use crate::coverage::Coverage;
use second::booktext::Told;
use second::cases::{filled_table, tables, AllCases, AnyCase, Case, Pair};
use second::records::Record;
use second::{lamp, packing};
use std::fmt::Debug;
use std::path::{Path, PathBuf};
use std::time::{Duration, Instant};
use std::{env, fs};

/// So many cases are given to the library at once.
const AT_ONCE: usize = 64;
/// After so many differing cases nothing new is learned.
const ENOUGH: usize = 10;

/// What the main code made of a case.
pub enum Made {
    Written(Written),
    Message(OfMessage),
}

/// What was told, the lent output afterwards, and what stands after it where that can be seen.
pub struct Written {
    pub answer: Told,
    pub output: Vec<u8>,
}

pub struct OfMessage {
    pub gradings: Vec<Grading>,
    pub lamp: (u8, u64),
    pub check: (u8, u64),
    /// Places with their start and length.
    pub places: Vec<([usize; 4], (usize, usize))>,
}

/// A message graded into a table of so many records.
pub struct Grading {
    pub lent: usize,
    pub graded: (u8, u64),
    /// The lent table afterwards, and what stands after it where that can be seen.
    pub table: Vec<Record>,
    /// The ACK from it, where grading was not refused.
    pub written: Option<Written>,
}

pub trait Library {
    fn make(&mut self, cases: &[AnyCase]) -> Result<Vec<Made>, String>;
}

pub fn compare(ours: &mut dyn Library, seed: u64, cases: u64, limit: Duration) -> Result<bool, String> {
    let generator = AllCases::new(seed);
    let start = Instant::now();
    // The first cases hold all that has to be hit, so the clock cuts only those after them short.
    let in_time = (0..cases).take_while(|&index| index < generator.firsts() || start.elapsed() < limit);
    let run = Run::of(ours, in_time.map(|index| generator.case(index)), &format!("seed {seed}"))?;
    let covered = run.coverage.print();
    if !run.failed.is_empty() {
        println!("differing cases are in {}", keep(&run.failed)?.display());
    }
    Ok(run.end() && covered)
}

pub fn replay(ours: &mut dyn Library, file: &Path) -> Result<bool, String> {
    let packed = fs::read(file).map_err(|e| format!("{}: {e}", file.display()))?;
    let cases = packing::unpack(&packed).ok_or(format!("{}: ends inside a case", file.display()))?;
    Ok(Run::of(ours, cases.into_iter().map(|case| (case, None)), "the file")?.end())
}

/// Packs the cases beside the program.
fn keep(cases: &[AnyCase]) -> Result<PathBuf, String> {
    let file = env::current_exe().map_err(|e| e.to_string())?.with_file_name("failed.pack");
    fs::write(&file, packing::pack_all(cases)).map_err(|e| format!("{}: {e}", file.display()))?;
    Ok(file)
}

#[derive(Default)]
struct Run {
    count: usize,
    failed: Vec<AnyCase>,
    coverage: Coverage,
}

impl Run {
    fn of(
        ours: &mut dyn Library,
        mut cases: impl Iterator<Item = (AnyCase, Option<Pair>)>,
        source: &str,
    ) -> Result<Run, String> {
        let mut run = Run::default();
        while run.failed.len() < ENOUGH {
            let (some, pairs): (Vec<AnyCase>, Vec<Option<Pair>>) = cases.by_ref().take(AT_ONCE).unzip();
            if some.is_empty() {
                break;
            }
            let made = match ours.make(&some) {
                Ok(made) => made,
                Err(problem) => return Err(format!("{problem}; the cases are in {}", keep(&some)?.display())),
            };
            for ((case, pair), made) in some.into_iter().zip(pairs).zip(made) {
                let (answer, compared) = compare_one(&case, &made);
                run.coverage.count(&case, pair, answer);
                if let Err(difference) = compared {
                    println!("case {} of {source}: {difference}", run.count);
                    run.failed.push(case);
                }
                run.count += 1;
            }
        }
        Ok(run)
    }

    /// The last line; says whether there was no difference.
    fn end(&self) -> bool {
        println!("{} cases, {} differences", self.count, self.failed.len());
        self.failed.is_empty()
    }
}

/// The second program's answer, and the first difference if there is one.
fn compare_one(case: &AnyCase, made: &Made) -> (Told, Result<(), String>) {
    match (case, made) {
        (AnyCase::Message(case), Made::Message(made)) => {
            let mut output = filled(case.output_length);
            let answer = case.answer(&mut output);
            (answer.into(), same_message(case, made, (answer, &output)))
        }
        (case, Made::Written(written)) => {
            let mut output = filled(written.output.len());
            let answer = case.answer(&mut output[..case.output_length()]);
            (answer, same_written(written, answer, &output))
        }
        (case, Made::Message(_)) => (case.answer(&mut []), Err("not what was asked for".into())),
    }
}

fn same_written(ours: &Written, answer: Told, output: &[u8]) -> Result<(), String> {
    same("answer", ours.answer, answer).and_then(|()| same_output(&ours.output, output))
}

/// What the call that was given up makes of a message.
type Old<'o> = ((u8, u64), &'o [u8]);

fn same_message(case: &Case, made: &OfMessage, old: Old) -> Result<(), String> {
    let OfMessage { gradings, lamp, check, places } = made;
    for grading in gradings {
        same_grading(case, grading, old)
            .map_err(|difference| format!("{difference}; {} records lent", grading.lent))?;
    }
    let lent: Vec<usize> = gradings.iter().map(|grading| grading.lent).collect();
    same("tables", lent, tables(case.findings().unwrap_or(0), case.message.len()))?;
    same("lamp", *lamp, case.lamp())?;
    if !lamp::agrees(*lamp, old.0, old.1) {
        return Err(format!("lamp {lamp:?} beside answer {:?}", old.0));
    }
    same("check", *check, second::check(&case.message))?;
    places.iter().try_for_each(|(place, found)| {
        same(&format!("locate {place:?}"), *found, second::locate(&case.message, *place))
    })
}

/// Number, detail and every record, and the ACK from them. Where the table has room it is the one of the old call.
fn same_grading(case: &Case, ours: &Grading, old: Old) -> Result<(), String> {
    let Case { message, book, stamp, control, output_length, .. } = case;
    let mut table = filled_table(ours.table.len());
    let graded = second::grade(message, book, &mut table[..ours.lent]);
    same("graded", ours.graded, graded)?;
    if let Some(at) = ours.table.iter().zip(&table).position(|(ours, second)| ours != second) {
        same(&format!("record {at} after grading {graded:?}"), ours.table[at], table[at])?;
    }
    let Some(written) = &ours.written else {
        return if graded.0 == 12 { Ok(()) } else { same("grading beside the old call", graded, old.0) };
    };
    let mut output = filled(written.output.len());
    let out = &mut output[..*output_length];
    let answer = second::write(message, &table[..ours.lent], graded.1 as u32, stamp, *control, out);
    same_written(written, answer.into(), &output)?;
    same("grading and writing beside the old call", (answer, &output[..*output_length]), old)
}

fn same<T: PartialEq + Debug>(what: &str, ours: T, second: T) -> Result<(), String> {
    if ours == second {
        Ok(())
    } else {
        Err(format!("{what}: ours {ours:?}, second {second:?}"))
    }
}

fn same_output(ours: &[u8], second: &[u8]) -> Result<(), String> {
    match ours.iter().zip(second).position(|(ours, second)| ours != second) {
        None => Ok(()),
        Some(at) => same(&format!("output at {at}"), ours[at], second[at]),
    }
}

/// An output before the answer: bytes that no ACK and no text has, each unlike the next. `tests/library.c` fills alike.
pub fn filled(length: usize) -> Vec<u8> {
    (0..length).map(|at| 128 + (at % 127) as u8).collect()
}
