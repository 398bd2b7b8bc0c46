//! The programs as they are started, with their files and their line.

use second::samples::{worked_example, Sample};
use std::fs;
use std::io::Write;
use std::path::{Path, PathBuf};
use std::process::{Command, Stdio};

const RELAY: &str = env!("CARGO_BIN_EXE_second");
const BATCH: &str = env!("CARGO_BIN_EXE_batch");
const BOOK: &str = env!("CARGO_BIN_EXE_book");

/// A folder of a test's own with the files that are given.
fn folder_with(name: &str, files: [(&str, Option<&[u8]>); 2]) -> PathBuf {
    let folder = Path::new(env!("CARGO_TARGET_TMPDIR")).join(name);
    let _ = fs::remove_dir_all(&folder);
    fs::create_dir_all(&folder).unwrap();
    for (file, contents) in files {
        if let Some(contents) = contents {
            fs::write(folder.join(file), contents).unwrap();
        }
    }
    folder
}

fn folder(name: &str, message: Option<&[u8]>, book: Option<&[u8]>) -> PathBuf {
    folder_with(name, [("message.hl7", message), ("book.vxb", book)])
}

fn printed(folder: &Path, input: &[u8]) -> String {
    printed_by(RELAY, folder, input)
}

fn printed_by(program: &str, folder: &Path, input: &[u8]) -> String {
    let mut command = Command::new(program);
    let mut child = command.current_dir(folder).stdin(Stdio::piped()).stdout(Stdio::piped()).spawn().unwrap();
    // What stands after the line need not be read.
    let _ = child.stdin.take().unwrap().write_all(input);
    String::from_utf8(child.wait_with_output().unwrap().stdout).unwrap()
}

#[test]
fn worked_example_and_lines() {
    let Sample { case, expected, .. } = worked_example();
    let folder = folder("example", Some(&case.message), Some(&case.book));
    assert_eq!(printed(&folder, b"20250113120000+0000 7\n"), expected);
    assert_eq!(printed(&folder, b"20250113120000+0000 7"), expected);
    assert_eq!(printed(&folder, b"20250113120000+0000 7\nrest"), expected);
    let zeros = [b"20250113120000+0000 ".as_slice(), &[b'0'; 70_000], b"7\n"].concat();
    assert_eq!(printed(&folder, &zeros), expected);
    let long = [vec![b'2'; 70_000], b" 7\n".to_vec()].concat();
    assert_eq!(printed(&folder, &long), "refused 10 0\n");
    assert_eq!(printed(&folder, b"\0\xFF 7\n"), "refused 10 0\n");
    for bad in [b"".as_slice(), b"\n", b"20250113120000+0000 7\r\n", b"20250113120000+0000 \n", b"7\n"] {
        assert_eq!(printed(&folder, bad), "bad line\n");
    }
}

#[test]
fn files() {
    let Sample { case, .. } = worked_example();
    let line = b"20250113120000+0000 7\n";
    assert_eq!(printed(&folder("none", None, None), line), "refused 1 0\n");
    assert_eq!(printed(&folder("none", None, None), b"7\n"), "bad line\n");
    assert_eq!(printed(&folder("no-book", Some(&case.message), None), line), "refused 7 0\n");
    let mut long = case.message.clone();
    long.extend(b"ZZZ|");
    long.resize(32_767, b'x');
    long.extend(b"\r\r");
    assert_eq!(printed(&folder("message", Some(&long), Some(&case.book)), line), "refused 2 0\n");
    let mut long = case.book.clone();
    long[4] = 2;
    assert_eq!(printed(&folder("version", Some(&case.message), Some(&long)), line), "refused 8 0\n");
    long.resize(65_537, 0);
    assert_eq!(printed(&folder("book", Some(&case.message), Some(&long)), line), "refused 7 0\n");
}

#[test]
fn more_findings_than_records() {
    // Section AX: PID-3 NUMBER E, broken by each repetition. An ACK of so many findings is too long in any case.
    let book = b"VXB\0\x01\x01\x02AX\0\x01\0PID\x03\0\x03E\0\0\0";
    let message = |count: usize| {
        let header = b"MSH|^~\\&|CAB|C1|REG|AX|||VXU^V04|M1|P|2.5.1\r".as_slice();
        [header, b"PID|||", &b"x~".repeat(count - 1), b"x\r"].concat()
    };
    let of = |count: usize, line: &[u8]| printed(&folder("findings", Some(&message(count)), Some(book)), line);
    let good = b"20250113120000+0000 7\n";
    // 92 and 10 bytes of MSH and MSA, and an ERR of 49 bytes and the repetition's digits for each.
    let length = 102 + 8_192 * 49 + 9 + 90 * 2 + 900 * 3 + 7_193 * 4;
    assert_eq!(of(8_192, good), format!("refused 11 {length}\n"));
    assert_eq!(of(8_192, b"20250113120000 7\n"), "refused 10 0\n");
    assert_eq!(of(8_193, good), "refused 12 8193\n");
    assert_eq!(of(8_193, b"20250113120000 7\n"), "refused 12 8193\n");
    assert_eq!(of(8_193, b"7\n"), "bad line\n");
}

#[test]
fn batches() {
    let Sample { case, expected, .. } = worked_example();
    let line = b"20250113120000+0000 7\n";
    let framed = |body: &[u8]| [b"FHS|^~\\&|\rBHS\r", body, b"BTS\rFTS\r"].concat();
    let batch = |name, file: Option<&[u8]>, book: Option<&[u8]>, input: &[u8]| {
        printed_by(BATCH, &folder_with(name, [("batch.hl7", file), ("book.vxb", book)]), input)
    };
    let two = framed(&case.message.repeat(2));
    let joined = [expected.as_str(), &expected.replacen("|7|", "|8|", 1)].concat();
    assert_eq!(batch("batch", Some(&two), Some(&case.book), line), joined);
    assert_eq!(batch("batch-line", Some(&two), Some(&case.book), b"7\n"), "bad line\n");
    assert_eq!(batch("batch-no-book", Some(&two), None, line), "refused 15 1\n");
    assert_eq!(batch("batch-none", None, None, line), "refused 14 0\n");
    assert_eq!(batch("batch-empty", Some(&framed(b"")), None, b" 0"), "");
    // What stands after the limit is seen to stand there: a file of 1 MiB, then one byte more, then many.
    let filler = 1_048_576 - framed(&case.message).len() - 5;
    let filler = [b"ZZZ|".as_slice(), &vec![b'x'; filler], b"\r"].concat();
    let mut long = framed(&[case.message.as_slice(), &filler].concat());
    assert_eq!(batch("batch-long", Some(&long), Some(&case.book), line), "refused 15 1\n");
    long.push(b'\r');
    assert_eq!(batch("batch-longer", Some(&long), Some(&case.book), line), "refused 14 0\n");
    long.resize(3_000_000, b'\r');
    assert_eq!(batch("batch-longest", Some(&long), Some(&case.book), line), "refused 14 0\n");
}

/// What the book program prints, and its status.
fn book(folder: &Path, arguments: &[&str]) -> (String, i32) {
    let output = Command::new(BOOK).current_dir(folder).args(arguments).output().unwrap();
    (String::from_utf8(output.stdout).unwrap(), output.status.code().unwrap())
}

#[test]
fn books_as_text() {
    let text = "book 1\nset s x\nsection A | words\nrule PID-3 CODE E s\n";
    let folder = folder_with("book-text", [("a", Some(text.as_bytes())), ("b", Some(b"old"))]);
    let run = |arguments: &[&str]| book(&folder, arguments);
    let told = |text: &str, status: i32| (text.to_string(), status);
    let compiled = told("compiled 25 bytes, 1 sections, 1 rules, 1 sets\n", 0);
    assert_eq!(run(&["check", "a"]), compiled);
    assert_eq!(fs::read(folder.join("b")).unwrap(), b"old");
    assert_eq!(run(&["show", "b"]), told("book refused 7\n", 3));
    assert_eq!(run(&["compile", "a", "b"]), compiled);
    let bytes = b"VXB\0\x01\x01\x01A\0\x01\x01PID\x03\0\x06E\x01\0\0\0\x01\x01x";
    assert_eq!(fs::read(folder.join("b")).unwrap(), bytes);
    let shown = "book 1\nset A/1\ncode x\nsection A\nsets A/1\nrule PID-3 CODE E A/1\n";
    assert_eq!(run(&["show", "b"]), told(shown, 0));
    assert_eq!(run(&["legend", "a"]), told("A 0 | words\nA 1 PID-3 CODE E s\n", 0));
    // A source that is refused leaves the book alone, also one of 1 MiB and a byte.
    fs::write(folder.join("a"), text.replace("E s", "E t")).unwrap();
    let refused = told("refused 45 line 4: it names a set or common that there is not\n", 2);
    assert_eq!(run(&["compile", "a", "b"]), refused);
    assert_eq!(run(&["compile", "a", "nowhere/b"]), refused);
    assert_eq!(run(&["legend", "a"]), refused);
    // A legend's second word is 0, which no refusal has there.
    fs::write(folder.join("a"), "book 1\nsection refused | x\n").unwrap();
    assert_eq!(run(&["legend", "a"]), told("refused 0 | x\n", 0));
    fs::write(folder.join("a"), [b'\n'; 1_048_577]).unwrap();
    assert_eq!(run(&["compile", "a", "b"]), told("refused 31: the text has over 1,048,576 bytes\n", 2));
    assert_eq!(fs::read(folder.join("b")).unwrap(), bytes);
    for (zeros, told_of) in
        [(65_531, "book refused 8\n"), (65_532, "book refused 7\n"), (3_000_000, "book refused 7\n")]
    {
        fs::write(folder.join("b"), [b"VXB\0\x02".as_slice(), &vec![0; zeros]].concat()).unwrap();
        assert_eq!(run(&["show", "b"]), told(told_of, 3));
    }
    for call in ["show", "legend"] {
        assert_eq!(run(&[call, "c"]), told("file cannot be read: c\n", 4));
    }
    fs::write(folder.join("a"), text).unwrap();
    assert_eq!(run(&["compile", "a", "nowhere/b"]), told("file cannot be written: nowhere/b\n", 4));
    let usage = told("usage: book compile SOURCE BOOK | check SOURCE | show BOOK | legend SOURCE | diff OLD NEW\n", 5);
    for wrong in [
        ["compile", "a"].as_slice(),
        &[],
        &["show"],
        &["legend"],
        &["check", "a", "b"],
        &["diff", "a"],
        &["diff", "a", "b", "c"],
    ] {
        assert_eq!(run(wrong), usage);
    }
}

#[test]
fn books_that_differ() {
    let old = b"VXB\0\x01\x01\x01A\0\x01\x01PID\x03\0\x06E\x01\0\0\0\x02\x01x\x01y";
    let new = b"VXB\0\x01\x01\x01A\0\x01\x01PID\x03\0\x06W\x01\0\0\0\x02\x01x\x01z";
    let folder = folder_with("diff", [("old", Some(old)), ("new", Some(new))]);
    fs::write(folder.join("8"), b"VXB\0\x02").unwrap();
    fs::write(folder.join("7"), [b"VXB\0\x02".as_slice(), &[0; 65_532]].concat()).unwrap();
    let run = |old: &str, new: &str| book(&folder, &["diff", old, new]);
    let told = |text: &str, status: i32| (text.to_string(), status);
    assert_eq!(run("old", "new"), told("A ~ 1 PID-3 CODE E -> W\nA ~ 1 PID-3 CODE -y +z\n", 1));
    assert_eq!(run("new", "new"), told("", 0));
    assert_eq!(run("7", "8"), told("book refused 7 old\n", 3));
    assert_eq!(run("8", "7"), told("book refused 8 old\n", 3));
    assert_eq!(run("old", "8"), told("book refused 8 new\n", 3));
    assert_eq!(run("old", "7"), told("book refused 7 new\n", 3));
    assert_eq!(run("none", "nothing"), told("file cannot be read: none\n", 4));
    assert_eq!(run("7", "nothing"), told("file cannot be read: nothing\n", 4));
}
