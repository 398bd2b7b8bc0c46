//! Times the main code, the second program, a bare pass over the same bytes and, where it is
//! installed, python3-hl7, on the same inputs in one run.

#[path = "../ours.rs"]
mod ours;

use second::batch::FILE_LIMIT;
use second::booktext::{TEXT_LIMIT, TOO_SHORT};
use second::cases::{AnyCase, BookCall, BookCase, DiffCase};
use second::line::{BATCH, TABLE_RECORDS};
use second::records::Record;
use second::samples::{self, STAMP};
use second::{books, booktext, cases, hostile, limits, registries};
use std::hint::black_box;
use std::io::Write;
use std::process::{Command, ExitCode, Stdio};
use std::time::{Duration, Instant};
use std::{env, fs};

/// Many short samples, since other work spoils some of them.
const ROUNDS: usize = 25;
/// A run of several milliseconds is repeated less.
const SLOW_ROUNDS: usize = 7;
const ONE_SAMPLE: Duration = Duration::from_millis(2);
const OUTPUT_LENGTH: usize = 65_536;
/// What is lent for books as text and for ACKs of many findings, and at the most where it depends on what is needed.
const LENT: usize = 1_048_576;
const MOST_LENT: u64 = 67_108_864;
const USAGE: &str = "usage: bench [hostile [BYTES]]";

struct Input {
    name: String,
    message: Vec<u8>,
    book: Vec<u8>,
}

impl Input {
    fn new(name: &str, (message, book): (Vec<u8>, Vec<u8>)) -> Self {
        Input { name: name.into(), message, book }
    }
}

/// Medians of nanoseconds for one message.
struct Times {
    ours: f64,
    second: f64,
    bare: f64,
}

fn main() -> ExitCode {
    second::ending("bench", run())
}

fn run() -> Result<(), String> {
    let arguments: Vec<String> = env::args().skip(1).collect();
    match arguments.iter().map(String::as_str).collect::<Vec<_>>()[..] {
        [] => usual(),
        ["hostile"] => hostile(TEXT_LIMIT),
        ["hostile", length] => hostile(length.parse().map_err(|_| USAGE)?),
        _ => Err(USAGE.into()),
    }
}

fn usual() -> Result<(), String> {
    println!("Medians of {ROUNDS} samples, of {SLOW_ROUNDS} where one run takes 2 ms or more. Bytes are those of message and book.");
    answers()?;
    growths()?;
    findings()?;
    lamps()?;
    batches()?;
    sources()?;
    reading();
    Ok(())
}

fn answers() -> Result<(), String> {
    println!("\nGrading one message into 8,192 records and writing its ACK, in microseconds and in nanoseconds for each byte\n");
    println!(
        "{:32} {:>7} {:>7} {:>11} {:>11} {:>9} {:>9} {:>9} {:>9}",
        "input", "message", "book", "ours", "second", "bare pass", "ours/B", "second/B", "bare/B"
    );
    for input in inputs() {
        let times = measure(&input)?;
        let per_byte = |nanoseconds: f64| nanoseconds / (input.message.len() + input.book.len()) as f64;
        println!(
            "{:32} {:>7} {:>7} {:>11.3} {:>11.3} {:>9.3} {:>9.3} {:>9.3} {:>9.3}",
            input.name,
            input.message.len(),
            input.book.len(),
            times.ours / 1000.0,
            times.second / 1000.0,
            times.bare / 1000.0,
            per_byte(times.ours),
            per_byte(times.second),
            per_byte(times.bare)
        );
    }
    Ok(())
}

fn growths() -> Result<(), String> {
    println!("\nGrowth, in microseconds and as a multiple of the line before, where the size is half\n");
    println!("{:32} {:>11} {:>11} {:>7} {:>7}", "input", "ours", "second", "ours", "second");
    for series in growth() {
        let mut before: Option<Times> = None;
        for input in series {
            let times = measure(&input)?;
            let multiples = before.map_or(String::new(), |before| {
                format!("{:>7.2} {:>7.2}", times.ours / before.ours, times.second / before.second)
            });
            println!("{:32} {:>11.3} {:>11.3} {multiples}", input.name, times.ours / 1000.0, times.second / 1000.0);
            before = Some(times);
        }
    }
    Ok(())
}

/// The two halves of the job, with room for every ACK.
fn findings() -> Result<(), String> {
    println!("\nGrading into 8,192 records and writing into 1 MiB apart, in microseconds\n");
    println!(
        "{:32} {:>8} {:>9} {:>11} {:>11} {:>11} {:>11}",
        "input", "findings", "ACK", "ours grade", "second", "ours write", "second"
    );
    let inputs = [
        Input::new("one dose, 618 rules", (limits::doses(1), books::registries_book())),
        Input::new("five doses, largest book", (limits::doses(5), books::largest_book())),
        Input::new("2,000 repetitions", limits::repetitions(2_000, 1)),
        Input::new("8,000 repetitions", limits::repetitions(8_000, 1)),
        Input::new("1,000 segments", limits::short_segments(4_048, 1)),
        Input::new("4,000 segments", limits::short_segments(16_048, 1)),
    ];
    for input in inputs {
        let (count, length, times) = measure_findings(&input)?;
        let [ours, second, ours_write, second_write] = times.map(|time| time / 1000.0);
        print!("{:32} {count:>8} {length:>9}", input.name);
        println!(" {ours:>11.3} {second:>11.3} {ours_write:>11.3} {second_write:>11.3}");
    }
    Ok(())
}

/// The number of findings, the length of their ACK, and medians of grading and of writing.
fn measure_findings(Input { name, message, book }: &Input) -> Result<(u64, u64, [f64; 4]), String> {
    let (mut table_ours, mut table_second) = (lent_table(), lent_table());
    let (mut out_ours, mut out_second) = (vec![0; LENT], vec![0; LENT]);
    let (number, count) = second::grade(message, book, &mut table_second);
    let told = second::write(message, &table_second, count as u32, STAMP, 7, &mut out_second);
    let same_table = ours::grade(message, book, &mut table_ours) == (number, count) && table_ours == table_second;
    let same_ack =
        ours::write(message, &table_ours, count as u32, STAMP, 7, &mut out_ours) == told && out_ours == out_second;
    if (number, told.0) != (0, 0) || !same_table || !same_ack {
        return Err(format!("{name}: ours and second grade or write differently"));
    }
    let table = table_second.clone();
    let count_given = count as u32;
    let times = medians([
        &mut || ours::grade(black_box(message), black_box(book), &mut table_ours).1,
        &mut || second::grade(black_box(message), black_box(book), &mut table_second).1,
        &mut || ours::write(black_box(message), black_box(&table), count_given, STAMP, 7, &mut out_ours).1,
        &mut || second::write(black_box(message), black_box(&table), count_given, STAMP, 7, &mut out_second).1,
    ]);
    Ok((count, told.1, times))
}

/// What the relay program lends.
fn lent_table() -> Vec<Record> {
    vec![Record::default(); TABLE_RECORDS]
}

/// Where grading can stop at once, where it has to go on to the last segment, and where nothing stops it.
fn lamps() -> Result<(), String> {
    println!("\nThe lamp beside grading and writing, in microseconds; a rule that is broken has severity E\n");
    println!(
        "{:36} {:>7} {:>7} {:>4} {:>11} {:>11} {:>11} {:>11}",
        "input", "message", "book", "says", "ours lamp", "second", "ours ACK", "second"
    );
    let [clean, first, last] = limits::longest_doses();
    for (book, named) in [(books::registries_book(), "618 rules"), (books::largest_book(), "largest book")] {
        for (message, name) in [
            (&first, "first segment broken"),
            (&last, "last segment broken"),
            (&clean, "46 doses"),
            (&limits::doses(1), "one dose"),
        ] {
            let (says, times) = measure_lamp(message, &book)?;
            let [ours, second, ours_ack, second_ack] = times.map(|time| time / 1000.0);
            print!("{:36} {:>7} {:>7} {says:>4}", format!("{name}, {named}"), message.len(), book.len());
            println!(" {ours:>11.3} {second:>11.3} {ours_ack:>11.3} {second_ack:>11.3}");
        }
    }
    Ok(())
}

/// What it says, and medians of the lamps and of grading and writing.
fn measure_lamp(message: &[u8], book: &[u8]) -> Result<(&'static str, [f64; 4]), String> {
    let (mut table_ours, mut table_second) = (lent_table(), lent_table());
    let (mut out_ours, mut out_second) = (vec![0; OUTPUT_LENGTH], vec![0; OUTPUT_LENGTH]);
    let mut ours_ack = || ours::relay(black_box(message), black_box(book), STAMP, 7, &mut table_ours, &mut out_ours);
    let mut second_ack =
        || second::relay(black_box(message), black_box(book), STAMP, 7, &mut table_second, &mut out_second);
    let ours = || ours::lamp(black_box(message), black_box(book), STAMP);
    let second = || second::lamp(black_box(message), black_box(book), STAMP);
    if ours() != second() || ours_ack() != second_ack() {
        return Err(format!("the lamp of {} bytes: ours and second say different things", message.len()));
    }
    let says = if second().1 == 1 { "yes" } else { "no" };
    let runs: [&mut dyn FnMut() -> u64; 4] =
        [&mut || ours().1, &mut || second().1, &mut || ours_ack().1, &mut || second_ack().1];
    Ok((says, medians(runs)))
}

/// Files of one-dose messages, as many as 1 MiB holds and half of them, beside grading and writing each message.
fn batches() -> Result<(), String> {
    println!("\nAnswering a batch file of one-dose messages, 618 rules, in microseconds a file; one by one: graded and written each\n");
    println!("{:>8} {:>9} {:>11} {:>11} {:>11} {:>11}", "messages", "bytes", "ours", "second", "ours 1 by 1", "second");
    let message = limits::doses(1);
    let most = (FILE_LIMIT - limits::batch(b"").len()) / message.len();
    for count in [most / 2, most] {
        let file = limits::batch(&message.repeat(count));
        let times = measure_batch(&file, &message, count as u32)?.map(|time| time / 1000.0);
        let [ours, second, ours_singly, second_singly] = times;
        println!("{count:>8} {:>9} {ours:>11.1} {second:>11.1} {ours_singly:>11.1} {second_singly:>11.1}", file.len());
    }
    Ok(())
}

fn measure_batch(file: &[u8], message: &[u8], count: u32) -> Result<[f64; 4], String> {
    let book = books::registries_book();
    let mut outs = [(); 4].map(|()| vec![0; BATCH.output_length]);
    if ours::batch(file, &book, STAMP, 7, &mut outs[0]) != second::batch(file, &book, STAMP, 7, &mut outs[1]) {
        return Err(format!("a batch of {count} messages: ours and second answer differently"));
    }
    let [out_ours, out_second, out_ours_singly, out_second_singly] = &mut outs;
    let (mut table_ours, mut table_second) = (lent_table(), lent_table());
    let singly = |relay: &mut dyn FnMut(u32) -> u64| (7..7 + count).map(relay).sum();
    let (m, book) = (black_box(message), black_box(book.as_slice()));
    Ok(medians([
        &mut || ours::batch(black_box(file), black_box(book), STAMP, 7, out_ours).1,
        &mut || second::batch(black_box(file), black_box(book), STAMP, 7, out_second).1,
        &mut || singly(&mut |control| ours::relay(m, book, STAMP, control, &mut table_ours, out_ours_singly).1),
        &mut || singly(&mut |control| second::relay(m, book, STAMP, control, &mut table_second, out_second_singly).1),
    ]))
}

/// Seen from this folder.
const REGISTRIES: &str = "../books/registries.txt";

/// Sources of the registries' rules: one without changes, made from the data, and the project's own.
fn sources() -> Result<(), String> {
    println!("\nBooks as text: the registries' rules in 24 sections, in microseconds\n");
    println!("{:24} {:8} {:>9} {:>9} {:>11} {:>11}", "source", "call", "bytes in", "bytes out", "ours", "second");
    time_source("without changes", registries::source())?;
    match fs::read_to_string(REGISTRIES) {
        Ok(source) => time_source("books/registries.txt", source),
        Err(e) => {
            println!("{REGISTRIES} is not there: {e}");
            Ok(())
        }
    }
}

/// It is compiled, its book is shown and compared with one in which many severities are others, and its legend is made.
fn time_source(name: &str, source: String) -> Result<(), String> {
    let book = |text: &str| match booktext::compiled(text.as_bytes()) {
        Ok(compiled) => Ok(compiled.book),
        Err(told) => Err(format!("{name} is refused: {told:?}")),
    };
    let (old, new) = (book(&source)?, book(&source.replace(" REQUIRED E", " REQUIRED W"))?);
    let of_book = |call: BookCall, given: Vec<u8>| AnyCase::Book(BookCase { call, given, output_length: LENT });
    let calls = [
        ("compile", of_book(BookCall::Compile, source.clone().into())),
        ("show", of_book(BookCall::Show, old.clone())),
        ("legend", of_book(BookCall::Legend, source.into())),
        ("diff", AnyCase::Diff(DiffCase { old, new, output_length: LENT })),
    ];
    for (call, case) in calls {
        let (mut out_ours, mut out_second) = (vec![0; LENT], vec![0; LENT]);
        let told = case.answer(&mut out_second);
        if ours::answer_to(&case, &mut out_ours) != told || out_ours != out_second {
            return Err(format!("{name}, {call}: ours and second answer differently"));
        }
        let [ours, second] = medians([&mut || ours::answer_to(black_box(&case), &mut out_ours).detail, &mut || {
            black_box(&case).answer(&mut out_second).detail
        }]);
        let (ours, second) = (ours / 1000.0, second / 1000.0);
        println!("{name:24} {call:8} {:>9} {:>9} {ours:>11.1} {second:>11.1}", bytes_in(&case), told.detail);
    }
    Ok(())
}

fn bytes_in(case: &AnyCase) -> usize {
    match case {
        AnyCase::Book(case) => case.given.len(),
        AnyCase::Diff(case) => case.old.len() + case.new.len(),
        AnyCase::Message(_) | AnyCase::Batch(_) | AnyCase::Write(_) => 0,
    }
}

/// Texts and books that are slow on purpose, each once, since some take long.
fn hostile(length: usize) -> Result<(), String> {
    println!(
        "Texts of {length} bytes that are slow on purpose, in milliseconds, and what is told: 0, it is accepted\n"
    );
    println!(
        "{:48} {:>9} {:>4} {:>11} {:>8} {:>11} {:>8}",
        "text", "bytes", "told", "compile", "second", "legend", "second"
    );
    for (name, text) in hostile::texts(length) {
        let case = |call| AnyCase::Book(BookCase { call, given: text.clone().into(), output_length: 0 });
        let (number, ours, second) = measure_once(name, case(BookCall::Compile))?;
        let (_, legend_ours, legend_second) = measure_once(name, case(BookCall::Legend))?;
        print!("{name:48} {:>9} {number:>4} {ours:>11.1} {second:>8.1}", text.len());
        println!(" {legend_ours:>11.1} {legend_second:>8.1}");
    }
    println!("\nTwo books that are slow to compare, in milliseconds\n");
    println!("{:48} {:>9} {:>11} {:>8}", "books", "bytes", "diff", "second");
    for (name, [old, new]) in hostile::books() {
        let bytes = old.len() + new.len();
        let (_, ours, second) = measure_once(name, AnyCase::Diff(DiffCase { old, new, output_length: 0 }))?;
        println!("{name:48} {bytes:>9} {ours:>11.1} {second:>8.1}");
    }
    Ok(())
}

/// The number told, and milliseconds of ours and second. What is too long to be lent is only counted.
fn measure_once(name: &str, case: AnyCase) -> Result<(u8, f64, f64), String> {
    let told = case.answer(&mut []);
    let needed = if told.number == TOO_SHORT { told.detail } else { 0 };
    let length = if needed > MOST_LENT { 0 } else { needed as usize };
    let (mut out_ours, mut out_second) = (vec![0; length], vec![0; length]);
    let (told, ours) = once(|| ours::answer_to(&case, &mut out_ours));
    let (expected, second) = once(|| case.answer(&mut out_second));
    if told != expected || out_ours != out_second {
        return Err(format!("{name}: ours {told:?}, second {expected:?}"));
    }
    Ok((told.number, ours, second))
}

fn once<T>(run: impl FnOnce() -> T) -> (T, f64) {
    let start = Instant::now();
    let made = run();
    (made, start.elapsed().as_secs_f64() * 1000.0)
}

/// Check and locate, beside a parser that does no more than read.
fn reading() {
    println!("\nReading alone, in microseconds: check, locate (field 5 of the last segment), python3-hl7 (parse)\n");
    println!(
        "{:32} {:>11} {:>11} {:>11} {:>11} {:>11}",
        "input", "ours check", "second", "ours locate", "second", "python3-hl7"
    );
    for (name, message) in [("one dose", limits::doses(1)), ("five doses", limits::doses(5))] {
        let m = message.as_slice();
        let last = m.iter().filter(|b| **b == b'\r').count();
        let mut runs: [Box<dyn FnMut() -> usize>; 4] = [
            Box::new(|| ours::check(black_box(m)).0.into()),
            Box::new(|| second::check(black_box(m)).0.into()),
            Box::new(|| ours::locate(black_box(m), [last, 5, 1, 0]).0),
            Box::new(|| second::locate(black_box(m), [last, 5, 1, 0]).0),
        ];
        let times = runs.each_mut().map(|run| {
            let count = repeats(run);
            median((0..ROUNDS).map(|_| sample(run, count)).collect()) / 1000.0
        });
        let python = python(m).unwrap_or("not installed".into());
        println!("{name:32} {:>11.3} {:>11.3} {:>11.3} {:>11.3} {python:>11}", times[0], times[1], times[2], times[3]);
    }
}

fn inputs() -> Vec<Input> {
    let example = samples::worked_example().case;
    let mut other = limits::doses(1);
    cases::exchange(&mut other, b"!#$%'");
    vec![
        Input::new("example of 01", (example.message, example.book)),
        Input::new("one dose, 618 rules", (limits::doses(1), books::registries_book())),
        Input::new("one dose, other delimiters", (other, books::registries_book())),
        Input::new("five doses, 618 rules", (limits::doses(5), books::registries_book())),
        Input::new("five doses, largest book", (limits::doses(5), books::largest_book())),
        Input::new("four-byte segments, no rule", limits::short_segments(32_768, 0)),
        Input::new("four-byte segments, 256 rules", limits::short_segments(32_768, 256)),
        Input::new("16,000 repetitions, 256 rules", limits::repetitions(16_000, 256)),
        Input::new("6,500 repetitions, 1,024 codes", limits::codes(6_500, 1_024)),
        Input::new("2,000 findings", limits::repetitions(2_000, 1)),
        Input::new("8,000 findings", limits::repetitions(8_000, 1)),
    ]
}

/// Each series doubles one thing from input to input.
fn growth() -> Vec<Vec<Input>> {
    let five = || limits::doses(5);
    let named = |name: &str, size: usize, pair| Input::new(&format!("{name} {size}"), pair);
    vec![
        [5, 10, 20].map(|n| named("message: doses", n, (limits::doses(n), books::registries_book()))).into(),
        [64, 128, 256].map(|n| named("rules of the section", n, (five(), limits::rules_of(n)))).into(),
        [16_384, 32_768, 65_536].map(|n| named("bytes of the book", n, (five(), limits::book_of(n)))).into(),
        [8_192, 16_384, 32_768].map(|n| named("bytes in short segments", n, limits::short_segments(n, 4))).into(),
        [4_000, 8_000, 16_000].map(|n| named("repetitions", n, limits::repetitions(n, 4))).into(),
        [64, 128, 256].map(|n| named("rules over 4,000 repetitions", n, limits::repetitions(4_000, n))).into(),
        [256, 512, 1_024].map(|n| named("codes over 6,500 repetitions", n, limits::codes(6_500, n))).into(),
    ]
}

fn measure(input: &Input) -> Result<Times, String> {
    let Input { name, message, book } = input;
    let (mut table_ours, mut table_second) = (lent_table(), lent_table());
    let (mut out_ours, mut out_second) = (vec![0; OUTPUT_LENGTH], vec![0; OUTPUT_LENGTH]);
    let mut ours = || ours::relay(black_box(message), black_box(book), STAMP, 7, &mut table_ours, &mut out_ours);
    let mut second =
        || second::relay(black_box(message), black_box(book), STAMP, 7, &mut table_second, &mut out_second);
    let bare = || count_delimiters(black_box(message)) + count_delimiters(black_box(book));
    if ours() != second() {
        return Err(format!("{name}: ours and second answer differently"));
    }
    let [ours, second, bare] = medians([&mut || ours().1, &mut || second().1, &mut || bare() as u64]);
    Ok(Times { ours, second, bare })
}

/// Medians of nanoseconds for one run of each.
fn medians<const N: usize>(mut runs: [&mut dyn FnMut() -> u64; N]) -> [f64; N] {
    let counts = runs.each_mut().map(repeats);
    let rounds = if counts.contains(&1) { SLOW_ROUNDS } else { ROUNDS };
    let mut samples = [(); N].map(|()| Vec::new());
    // In turn, so that a slow moment meets all of them.
    for _ in 0..rounds {
        for ((run, count), samples) in runs.iter_mut().zip(counts).zip(&mut samples) {
            samples.push(sample(run, count));
        }
    }
    samples.map(median)
}

/// The least that any reader of these bytes has to do.
fn count_delimiters(bytes: &[u8]) -> usize {
    // Counts of a byte's size can be added many at a time.
    let count = |block: &[u8]| block.iter().fold(0u8, |count, b| count + u8::from(matches!(b, b'\r' | b'|')));
    bytes.chunks(255).map(|block| usize::from(count(block))).sum()
}

/// How often a run fits into one sample.
fn repeats<T>(run: &mut impl FnMut() -> T) -> u32 {
    let mut count = 1;
    loop {
        let start = Instant::now();
        for _ in 0..count {
            black_box(run());
        }
        if start.elapsed() >= ONE_SAMPLE {
            return count;
        }
        count *= 2;
    }
}

fn sample<T>(run: &mut impl FnMut() -> T, count: u32) -> f64 {
    let start = Instant::now();
    for _ in 0..count {
        black_box(run());
    }
    start.elapsed().as_nanos() as f64 / f64::from(count)
}

fn median(mut samples: Vec<f64>) -> f64 {
    samples.sort_by(f64::total_cmp);
    samples[samples.len() / 2]
}

/// Microseconds in which python3-hl7 parses the message; `None` where it is not installed.
fn python(message: &[u8]) -> Option<String> {
    const SCRIPT: &str = "\
import sys, time, statistics, hl7
text = sys.stdin.buffer.read().decode('ascii')
samples = []
for _ in range(9):
    start = time.perf_counter()
    for _ in range(50):
        hl7.parse(text)
    samples.append((time.perf_counter() - start) / 50 * 1e6)
print('%.3f' % statistics.median(samples))";
    // The module belongs to one interpreter, which need not be the first of its name.
    env::split_paths(&env::var_os("PATH")?).find_map(|folder| {
        let mut command = Command::new(folder.join("python3"));
        command.args(["-c", SCRIPT]).stdin(Stdio::piped()).stdout(Stdio::piped()).stderr(Stdio::null());
        let mut child = command.spawn().ok()?;
        // Without the module it ends before it reads; then it prints nothing either.
        let _ = child.stdin.take()?.write_all(message);
        let output = child.wait_with_output().ok()?;
        let text = String::from_utf8(output.stdout).ok()?;
        output.status.success().then(|| text.trim().to_string())
    })
}
