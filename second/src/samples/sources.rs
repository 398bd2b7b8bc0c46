//! Books as text. What is to be answered is written by hand: of a book its bytes, of a refusal number, line, section.

mod borders;
mod changes;
mod idle;
mod refusals;
mod shown;

use crate::cases::{BookCall, BookCase};

pub struct BookSample {
    pub name: String,
    pub case: BookCase,
    /// What has to be printed for it as a packed case.
    pub expected: Vec<u8>,
}

/// More than any book takes; with it a sample's text is shorter than what a runner of packed cases has room for.
const ROOM: usize = 70_000;

/// The first lines of most samples; what follows is on line 3.
const SECTION: &str = "book 1\nsection A\n";
/// A book of one section without anything, whose key is A.
const EMPTY_BOOK: &[u8] = b"VXB\0\x01\x01\x01A\0\0\0";

/// Two quotes are a word like others (A3 of 02 is about values alone).
const QUOTED: &str = "book 1\nset s \"\" x\nsection \"\"\nrule PID-3 CODE E s\n";
const QUOTED_BOOK: &[u8] = b"VXB\0\x01\x01\x02\"\"\0\x01\x01PID\x03\0\x06E\x01\0\0\0\x02\x02\"\"\x01x";

/// Every sample with an expectation by hand.
pub fn samples() -> Vec<BookSample> {
    let mut all = page_example();
    all.extend(books_by_hand());
    all.extend(lines_and_bytes());
    all.extend(set_orders());
    all.extend(inclusions());
    all.extend(changes::samples());
    all.extend(refusals::samples());
    all.extend(idle::samples());
    all.extend(borders::samples());
    all.extend(shown::samples());
    all.extend(legends());
    all.extend(outputs());
    all
}

fn sample(name: &str, call: BookCall, given: &[u8], output_length: usize, expected: Vec<u8>) -> BookSample {
    let case = BookCase { call, given: given.to_vec(), output_length };
    BookSample { name: format!("{call:?}: {name}"), case, expected }
}

/// Number 0, its detail and what was written.
fn written(bytes: &[u8]) -> Vec<u8> {
    [format!("0 {} 0\n", bytes.len()).as_bytes(), bytes, b"\n"].concat()
}

fn book(name: &str, text: impl AsRef<[u8]>, book: impl AsRef<[u8]>) -> BookSample {
    sample(name, BookCall::Compile, text.as_ref(), ROOM, written(book.as_ref()))
}

fn legend(name: &str, text: impl AsRef<[u8]>, legend: &str) -> BookSample {
    sample(name, BookCall::Legend, text.as_ref(), ROOM, written(legend.as_bytes()))
}

fn show(name: &str, book: impl AsRef<[u8]>, text: &str) -> BookSample {
    sample(name, BookCall::Show, book.as_ref(), ROOM, written(text.as_bytes()))
}

fn refused(name: &str, text: impl AsRef<[u8]>, [number, line, section]: [usize; 3]) -> BookSample {
    let expected = format!("{number} {line} {section}\n").into_bytes();
    sample(name, BookCall::Compile, text.as_ref(), ROOM, expected)
}

/// Refused alike where the legend is asked for.
fn refused_twice(name: &str, text: impl AsRef<[u8]>, told: [usize; 3]) -> [BookSample; 2] {
    let by_compile = refused(name, text, told);
    let BookSample { case, expected, .. } = &by_compile;
    let by_legend = sample(name, BookCall::Legend, &case.given, ROOM, expected.clone());
    [by_compile, by_legend]
}

/// So many lines, each with its number from 1 for the sign #.
fn numbered(line: &str, count: usize) -> String {
    (1..=count).map(|number| line.replace('#', &number.to_string()) + "\n").collect()
}

/// A line so many times.
fn repeated(line: &str, count: usize) -> String {
    format!("{line}\n").repeat(count)
}

/// So many sets of 1,024 codes, each of 20 bytes. A set takes 21,506 bytes of the book.
fn large_sets(count: usize) -> String {
    let codes = " 12345678901234567890".repeat(1_024);
    (1..=count).map(|number| format!("set large{number}{codes}\n")).collect()
}

/// The page's own example without changes.
const EXAMPLE: &str = "\
| A line of words alone is a remark.
book 1
set 0001-sex F M U              | HL7 0001
set 0322-completion CP RE NA PA | HL7 0322
set nip001-source               | CDC NIP001
code 00                         | new record
code 01 02 03 04 05 06 07 08    | historical, by source

common national                 | what the national guide asks
rule PID-7.1 REQUIRED E         | date of birth is missing; 004:843
rule PID-7.1 TIME     E 8       | date of birth is not a date; 004:845
rule PID-8   CODE     W 0001-sex
rule RXA-6   REQUIRED E         | amount is missing
rule RXA-9.1 CODE     W nip001-source
rule RXA-20  CODE     W 0322-completion

section ND0000                  | North Dakota
use national

section NYCDOHMH                | New York City
use national
rule PID-11.2 LENGTH W 1 10     | second address line is too long; 004:940
";

fn page_example() -> Vec<BookSample> {
    let rules: &[u8] = b"PID\x07\x01\x01E\0\0\0PID\x07\x01\x05E\0\x08\0PID\x08\0\x06W\x01\0\0\
        RXA\x06\0\x01E\0\0\0RXA\x09\x01\x06W\x02\0\0RXA\x14\0\x06W\x03\0\0";
    let sets: &[u8] = b"\0\x03\x01F\x01M\x01U\
        \0\x09\x0200\x0201\x0202\x0203\x0204\x0205\x0206\x0207\x0208\
        \0\x04\x02CP\x02RE\x02NA\x02PA";
    let nd = [b"\x06ND0000\0\x06\x03".as_slice(), rules, sets].concat();
    let nyc = [b"\x08NYCDOHMH\0\x07\x03".as_slice(), rules, b"PID\x0B\x02\x02W\0\x01\x0A", sets].concat();
    let bytes = [b"VXB\0\x01\x02".as_slice(), &nd, &nyc].concat();
    let text = "\
book 1
set ND0000/1
code F
code M
code U
set ND0000/2
code 00
code 01
code 02
code 03
code 04
code 05
code 06
code 07
code 08
set ND0000/3
code CP
code RE
code NA
code PA
section ND0000
sets ND0000/1 ND0000/2 ND0000/3
rule PID-7.1 REQUIRED E
rule PID-7.1 TIME E 8
rule PID-8 CODE W ND0000/1
rule RXA-6 REQUIRED E
rule RXA-9.1 CODE W ND0000/2
rule RXA-20 CODE W ND0000/3
set NYCDOHMH/1
code F
code M
code U
set NYCDOHMH/2
code 00
code 01
code 02
code 03
code 04
code 05
code 06
code 07
code 08
set NYCDOHMH/3
code CP
code RE
code NA
code PA
section NYCDOHMH
sets NYCDOHMH/1 NYCDOHMH/2 NYCDOHMH/3
rule PID-7.1 REQUIRED E
rule PID-7.1 TIME E 8
rule PID-8 CODE W NYCDOHMH/1
rule RXA-6 REQUIRED E
rule RXA-9.1 CODE W NYCDOHMH/2
rule RXA-20 CODE W NYCDOHMH/3
rule PID-11.2 LENGTH W 1 10
";
    let meant = "\
ND0000 0 | North Dakota
ND0000 1 PID-7.1 REQUIRED E | date of birth is missing; 004:843
ND0000 2 PID-7.1 TIME E 8 | date of birth is not a date; 004:845
ND0000 3 PID-8 CODE W 0001-sex
ND0000 4 RXA-6 REQUIRED E | amount is missing
ND0000 5 RXA-9.1 CODE W nip001-source
ND0000 6 RXA-20 CODE W 0322-completion
NYCDOHMH 0 | New York City
NYCDOHMH 1 PID-7.1 REQUIRED E | date of birth is missing; 004:843
NYCDOHMH 2 PID-7.1 TIME E 8 | date of birth is not a date; 004:845
NYCDOHMH 3 PID-8 CODE W 0001-sex
NYCDOHMH 4 RXA-6 REQUIRED E | amount is missing
NYCDOHMH 5 RXA-9.1 CODE W nip001-source
NYCDOHMH 6 RXA-20 CODE W 0322-completion
NYCDOHMH 7 PID-11.2 LENGTH W 1 10 | second address line is too long; 004:940
";
    vec![
        book("the page's example without changes", EXAMPLE, &bytes),
        book("the page's example without changes as it is shown", text, &bytes),
        show("the page's example without changes", &bytes, text),
        legend("the page's example without changes", EXAMPLE, meant),
    ]
}

/// Every kind, severity and form of a place, and the shortest text.
fn books_by_hand() -> Vec<BookSample> {
    let kinds =
        "book 1\nset s A\nsection A\nrule PID-1 REQUIRED E\nrule PID-99.20 LENGTH W 1 255\nrule PID-3 NUMBER I\n\
                 rule PID-3 DATE I\nrule MSH-3 TIME E 4\nrule MSH-99.1 TIME E 14\nrule NTE-3.9 CODE E s\n";
    let kind_bytes: &[u8] =
        b"VXB\0\x01\x01\x01A\0\x07\x01PID\x01\0\x01E\0\0\0PID\x63\x14\x02W\0\x01\xFFPID\x03\0\x03I\0\0\0\
        PID\x03\0\x04I\0\0\0MSH\x03\0\x05E\0\x04\0MSH\x63\x01\x05E\0\x0E\0NTE\x03\x09\x06E\x01\0\0\0\x01\x01A";
    let segments = ["MSH", "PID", "PD1", "NK1", "PV1", "ORC", "RXA", "RXR", "OBX", "NTE"];
    let lines: String = segments.iter().map(|name| format!("rule {name}-7 DATE W\n")).collect();
    let rules = segments.map(|name| [name.as_bytes(), b"\x07\0\x04W\0\0\0"].concat()).concat();
    let times = [4, 6, 8, 10, 12, 14];
    let time_lines: String = times.iter().map(|digits| format!("rule PID-{digits} TIME I {digits}\n")).collect();
    let time_rules = times.map(|digits| [b"PID", [digits, 0, 5].as_slice(), b"I\0", &[digits, 0]].concat()).concat();
    vec![
        book("the shortest text", "book 1\nsection A", EMPTY_BOOK),
        book("each kind", kinds, kind_bytes),
        book("two quotes for a key and a code", QUOTED, QUOTED_BOOK),
        book("each segment", format!("{SECTION}{lines}"), [b"VXB\0\x01\x01\x01A\0\x0A\0".as_slice(), &rules].concat()),
        book("each time", format!("{SECTION}{time_lines}"), [b"VXB\0\x01\x01\x01A\0\x06\0", &time_rules[..]].concat()),
        book(
            "a rule of one place in each kind, and each of them again",
            format!("{SECTION}rule PID-3 DATE E\nrule PID-3 NUMBER E\nalso PID-3 DATE W\nalso PID-3 NUMBER I\n"),
            b"VXB\0\x01\x01\x01A\0\x04\0PID\x03\0\x04E\0\0\0PID\x03\0\x03E\0\0\0\
              PID\x03\0\x04W\0\0\0PID\x03\0\x03I\0\0\0",
        ),
        book(
            "PID-3 and PID-3.1 are two places",
            format!("{SECTION}rule PID-3 DATE E\nrule PID-3.1 DATE E\n"),
            b"VXB\0\x01\x01\x01A\0\x02\0PID\x03\0\x04E\0\0\0PID\x03\x01\x04E\0\0\0",
        ),
        book(
            "LENGTH with equal bounds",
            format!("{SECTION}rule PID-3 LENGTH E 255 255\n"),
            b"VXB\0\x01\x01\x01A\0\x01\0PID\x03\0\x02E\0\xFF\xFF",
        ),
        book(
            "odd signs in a key",
            "book 1\nsection !\"#'()/:;<=>?@[]`{}\n",
            b"VXB\0\x01\x01\x13!\"#'()/:;<=>?@[]`{}\0\0\0",
        ),
        book(
            "odd signs in names",
            "book 1\nset ^&~\\ x\ncommon ^&~\\\nrule PID-3 CODE E ^&~\\\nsection A\nuse ^&~\\\n",
            b"VXB\0\x01\x01\x01A\0\x01\x01PID\x03\0\x06E\x01\0\0\0\x01\x01x",
        ),
        book(
            "words of statements as names",
            "book 1\nset set set\ncommon set\nrule PID-3 CODE E set\nsection set\nuse set\n",
            b"VXB\0\x01\x01\x03set\0\x01\x01PID\x03\0\x06E\x01\0\0\0\x01\x03set",
        ),
        book("a set that nobody names", "book 1\nset s x\nsection A\n", EMPTY_BOOK),
        book("a set without codes that nobody names", "book 1\nset s\nsection A\n", EMPTY_BOOK),
        book(
            "a common that nobody uses",
            "book 1\ncommon c\n\
            rule PID-3 DATE E\nrule PID-3 DATE E\nsection A\n",
            EMPTY_BOOK,
        ),
        book("a common without statements", "book 1\ncommon c\nsection A\nuse c\n", EMPTY_BOOK),
        book(
            "keys that differ by case or length",
            "book 1\nsection A\nsection a\nsection AA\n",
            b"VXB\0\x01\x03\x01A\0\0\0\x01a\0\0\0\x02AA\0\0\0",
        ),
    ]
}

fn lines_and_bytes() -> Vec<BookSample> {
    let one_rule: &[u8] = b"VXB\0\x01\x01\x01A\0\x01\0PID\x03\0\x04E\0\0\0";
    let mut all = vec![
        book("CR LF", "book 1\r\nsection A\r\nrule PID-3 DATE E\r\n", one_rule),
        book("CR, tabs and blanks anywhere", "\t\r book\r\r1 \n\rsection\t \tA\n rule \tPID-3\rDATE\t\tE", one_rule),
        book(
            "empty lines and remarks",
            "\n\r\n|\n || x\n\t| book 2\nbook 1\n\nsection A|use c\nrule PID-3 DATE E|1|2\n\n",
            one_rule,
        ),
        book("no blank before the bar", "book 1| 2\nsection A|\nrule PID-3 DATE E|", one_rule),
        book(
            "each allowed sign in a remark",
            [b"|".as_slice(), &(0x20..=0x7E).collect::<Vec<u8>>(), b"\n", SECTION.as_bytes()].concat(),
            EMPTY_BOOK,
        ),
        book(
            "a million blanks",
            [b"book 1".as_slice(), &[b' '; 500_000], b"\nsection", &[b'\t'; 500_000], b"A"].concat(),
            EMPTY_BOOK,
        ),
        book("a million line ends", [&[b'\n'; 1_000_000], SECTION.as_bytes()].concat(), EMPTY_BOOK),
    ];
    let refusals: [(&str, &[u8], [usize; 3]); 19] = [
        ("an empty text", b"", [44, 0, 0]),
        ("a line end alone", b"\n", [44, 0, 0]),
        ("a remark alone", b"| book 1", [44, 0, 0]),
        ("only book", b"book 1", [44, 0, 0]),
        ("CR alone ends no line", b"book 1\rsection A\r", [35, 1, 0]),
        ("a byte 0", b"book 1\nsection A\0\n", [32, 2, 0]),
        ("a byte 0 at the beginning", b"\0", [32, 1, 0]),
        ("a byte 0 at the end", b"book 1\nsection A\n\0", [32, 3, 0]),
        ("DEL", b"book 1\nsection A\n\x7F", [32, 3, 0]),
        ("form feed", b"book 1\n\x0Csection A\n", [32, 2, 0]),
        ("vertical tab", b"book 1\n\n\x0Bsection A\n", [32, 3, 0]),
        ("a byte before tab", b"\x08\nbook 1\nsection A\n", [32, 1, 0]),
        ("a byte after CR", b"book 1\nsection A\n\n\n\x0E\n", [32, 5, 0]),
        ("the byte before blank", b"book 1\nsection A\n\x1F\n", [32, 3, 0]),
        ("byte 128 in a remark", b"book 1\nsection A | \x80\n", [32, 2, 0]),
        ("byte 255", b"book 1\nsection A\xFF\n", [32, 2, 0]),
        ("a Cyrillic letter in a key", "book 1\nsection \u{410}\n".as_bytes(), [32, 2, 0]),
        ("a mark of byte order", b"\xEF\xBB\xBFbook 1\nsection A\n", [32, 1, 0]),
        ("the first of several bytes", b"|\x80\n\xFF\n\0", [32, 1, 0]),
    ];
    all.extend(refusals.into_iter().flat_map(|(name, text, told)| refused_twice(name, text, told)));
    all
}

/// The numbers of sets, pinned or by first use, and the codes of sets.
fn set_orders() -> Vec<BookSample> {
    let sets = "book 1\nset a 1\nset b 2\nset c 3\nsection A\n";
    let head = |rules: u8, sets: u8| [b"VXB\0\x01\x01\x01A\0".as_slice(), &[rules, sets]].concat();
    let code = |field: u8, set: u8| [b"PID", [field, 0, 6].as_slice(), b"E", &[set, 0, 0]].concat();
    let set = |codes: &str| [b"\0\x01\x01", codes.as_bytes()].concat();
    vec![
        book(
            "sets by first use",
            format!("{sets}rule PID-1 CODE E c\nrule PID-2 CODE E a\nrule PID-3 CODE E c\n"),
            [head(3, 2), code(1, 1), code(2, 2), code(3, 1), set("3"), set("1")].concat(),
        ),
        book(
            "pinned sets come first, wherever they are pinned",
            format!("{sets}rule PID-1 CODE E c\nrule PID-2 CODE E a\nsets b a\n"),
            [head(2, 3), code(1, 3), code(2, 2), set("2"), set("1"), set("3")].concat(),
        ),
        book(
            "sets pinned twice stand once, at their first place",
            format!("{sets}sets b b\nsets a b\nrule PID-1 CODE E b\nsets c a\n"),
            [head(1, 3), code(1, 1), set("2"), set("1"), set("3")].concat(),
        ),
        book(
            "pinned sets that no rule uses, and two equal ones",
            "book 1\nset x 1\nset y 1\nsection A\nsets y x\n",
            [head(0, 2), set("1"), set("1")].concat(),
        ),
        book(
            "sets given after their use, with codes on several lines",
            "book 1\nsection A\nrule PID-1 CODE E s\nset t\ncode z\nset s b a\ncode b\n\ncode c a\n",
            [head(1, 1), code(1, 1), b"\0\x05\x01b\x01a\x01b\x01c\x01a".to_vec()].concat(),
        ),
        book(
            "a set named as a common and as a section",
            "book 1\nset A A\ncommon A\nrule PID-1 CODE E A\nsection A\nuse A\n",
            [head(1, 1), code(1, 1), set("A")].concat(),
        ),
        book(
            "set names are compared whole and by case",
            "book 1\nset s 1\nset S 2\nset ss 3\nsection A\nsets ss S s\n",
            [head(0, 3), set("3"), set("2"), set("1")].concat(),
        ),
        book(
            "two sections with sets of their own order",
            "book 1\nset a 1\nset b 2\nsection A\nrule PID-1 CODE E b\nrule PID-2 CODE E a\n\
             section B\nrule PID-1 CODE E a\n",
            [
                b"VXB\0\x01\x02\x01A\0\x02\x02".to_vec(),
                code(1, 1),
                code(2, 2),
                set("2"),
                set("1"),
                b"\x01B\0\x01\x01".to_vec(),
                code(1, 1),
                set("1"),
            ]
            .concat(),
        ),
    ]
}

fn inclusions() -> Vec<BookSample> {
    let commons = "book 1\ncommon c\nrule PID-1 DATE E\nrule PID-2 DATE I\ncommon d\nalso PID-1 DATE W\n";
    let head = |rules: u8| [b"VXB\0\x01\x01\x01A\0".as_slice(), &[rules, 0]].concat();
    let date = |field: u8, severity: u8| [b"PID", [field, 0, 4].as_slice(), &[severity, 0, 0, 0]].concat();
    vec![
        book(
            "two commons and own rules between them",
            format!("{commons}section A\nrule PID-3 DATE E\nuse c\nalso PID-3 DATE W\nuse d\n"),
            [head(5), date(3, b'E'), date(1, b'E'), date(2, b'I'), date(3, b'W'), date(1, b'W')].concat(),
        ),
        book(
            "with a severity for all that a common brings",
            format!("{commons}section A\nuse c W\nuse d I\nrule PID-3 DATE E\n"),
            [head(4), date(1, b'W'), date(2, b'W'), date(1, b'I'), date(3, b'E')].concat(),
        ),
        book(
            "commons given after the section that uses them",
            "book 1\nsection A\nuse d\nuse c I\ncommon c\nrule PID-1 DATE E\ncommon d\nrule PID-2 DATE W\n",
            [head(2), date(2, b'W'), date(1, b'I')].concat(),
        ),
        book(
            "one common in two sections, each with its severity",
            "book 1\ncommon c\nrule PID-1 DATE E\nsection A\nuse c\nsection B\nuse c I\n",
            [b"VXB\0\x01\x02\x01A\0\x01\0".to_vec(), date(1, b'E'), b"\x01B\0\x01\0".to_vec(), date(1, b'I')].concat(),
        ),
        legend(
            "the severity after inclusion",
            format!("{commons}section A\nuse c W\nuse d\n"),
            "A 0\nA 1 PID-1 DATE W\nA 2 PID-2 DATE W\nA 3 PID-1 DATE W\n",
        ),
    ]
}

fn legends() -> Vec<BookSample> {
    let words = "book 1 | x\nset s x | y\ncommon c | z\nrule PID-1 DATE E|a\n\
                 rule PID-2  CODE\tW s |  two  blanks | and a bar |\r\n\
                 section A |\nuse c | used\nalso PID-1 DATE I |\t \nsets s | pinned\n\
                 rule PID-3 LENGTH E 1 20 || \nsection B | B's | words \t\r\n";
    let meant = "A 0\nA 1 PID-1 DATE E | a\nA 2 PID-2 CODE W s | two  blanks | and a bar |\nA 3 PID-1 DATE I\n\
                 A 4 PID-3 LENGTH E 1 20 | |\nB 0 | B's | words\n";
    let (name, long) = ("n".repeat(300), "a  |".repeat(15_000));
    vec![
        legend("the shortest text", "book 1\nsection A", "A 0\n"),
        legend("words for people", words, meant),
        legend("two quotes for a key and a code", QUOTED, "\"\" 0\n\"\" 1 PID-3 CODE E s\n"),
        legend(
            "every kind of bound",
            "book 1\nset s^ x\nsection A\nrule PID-1 REQUIRED E\nrule PID-1 NUMBER W\nrule PID-1 TIME I 10\n\
             rule PID-1.2 CODE E s^ | x\nalso PID-1.2 CODE E s^\n",
            "A 0\nA 1 PID-1 REQUIRED E\nA 2 PID-1 NUMBER W\nA 3 PID-1 TIME I 10\n\
             A 4 PID-1.2 CODE E s^ | x\nA 5 PID-1.2 CODE E s^\n",
        ),
        legend(
            "numbers of three digits",
            format!("{SECTION}rule PID-9 DATE E\n{}", repeated("also PID-9 DATE E", 255)),
            &format!("A 0\n{}", numbered("A # PID-9 DATE E", 256)),
        ),
        legend("CR inside the words", "book 1\nsection A | a\rb\r\n", "A 0 | a\rb\n"),
        legend("tabs inside the words", "book 1\nsection A |\ta\t\tb\t\n", "A 0 | a\t\tb\n"),
        legend(
            "words of a common in several sections, with and without a severity",
            "book 1\ncommon c\nrule PID-1 DATE E | born\nalso PID-1 DATE W |\nsection A\nuse c I | used\n\
             section B | B\nuse c\nsection C\nrule PID-2 DATE E | own\nuse c W\n",
            "A 0\nA 1 PID-1 DATE I | born\nA 2 PID-1 DATE I\nB 0 | B\nB 1 PID-1 DATE E | born\nB 2 PID-1 DATE W\n\
             C 0\nC 1 PID-2 DATE E | own\nC 2 PID-1 DATE W | born\nC 3 PID-1 DATE W\n",
        ),
        legend(
            "bars and blanks alone",
            "book 1\nsection A |||\nsection B | \t\r|\t|\r \nsection C \t\r|\r\t \r\n",
            "A 0 | ||\nB 0 | |\t|\nC 0\n",
        ),
        legend("keys that a program could print", "book 1\nsection refused\nsection book\n", "refused 0\nbook 0\n"),
        legend(
            "a long name and long words",
            format!("book 1\nset {name} x\nsection A\nrule PID-1 CODE E {name}|{long}\n"),
            &format!("A 0\nA 1 PID-1 CODE E {name} | {long}\n"),
        ),
        sample(
            "a long remark of a common in 64 sections",
            BookCall::Legend,
            format!(
                "book 1\ncommon c\nrule PID-1 DATE E | {}\n{}",
                "x".repeat(100_000),
                numbered("section #\nuse c", 64)
            )
            .as_bytes(),
            ROOM,
            // With a key of one digit a section's line has 4 bytes, the rule's 20 and the remark; 55 keys have two.
            format!("55 {} 0\n", 64 * (4 + 20 + 100_000) + 2 * 55).into_bytes(),
        ),
    ]
}

/// Outputs that are too short, just long enough and longer.
fn outputs() -> Vec<BookSample> {
    let calls: [(BookCall, &[u8], &[u8]); 3] = [
        (BookCall::Compile, SECTION.as_bytes(), EMPTY_BOOK),
        (BookCall::Show, EMPTY_BOOK, SECTION.as_bytes()),
        (BookCall::Legend, b"book 1\nsection A | x y\n", b"A 0 | x y\n"),
    ];
    let mut all = Vec::new();
    for (call, given, made) in calls {
        let length = made.len();
        for (name, output_length) in [("just enough", length), ("one byte more", length + 1)] {
            all.push(sample(name, call, given, output_length, written(made)));
        }
        let needed = format!("55 {length} 0\n").into_bytes();
        for (name, output_length) in [("one byte short", length - 1), ("no output", 0)] {
            all.push(sample(name, call, given, output_length, needed.clone()));
        }
    }
    let refusals: [(BookCall, &[u8], &[u8]); 4] = [
        (BookCall::Compile, b"book 1\n", b"44 0 0\n"),
        (BookCall::Legend, b"book 1\n", b"44 0 0\n"),
        (BookCall::Show, b"VXB\0\x02", b"8 0 0\n"),
        (BookCall::Show, b"", b"7 0 0\n"),
    ];
    all.extend(refusals.map(|(call, given, told)| sample("refused without output", call, given, 0, told.to_vec())));
    all
}

#[cfg(test)]
mod tests {
    use super::*;
    use crate::{books, booktext, limits};

    #[test]
    fn every_book_is_told_as_written_by_hand() {
        for BookSample { name, case, expected } in samples() {
            let printed = case.printed();
            let shown = |bytes: &[u8]| bytes[..bytes.len().min(400)].escape_ascii().to_string();
            assert_eq!(shown(&printed), shown(&expected), "{name}");
            assert!(printed == expected, "{name}");
        }
    }

    #[test]
    fn outputs_are_left_alone_where_nothing_is_to_be_written() {
        for BookSample { name, case, .. } in samples() {
            let mut out = vec![0xA5; case.output_length + 9];
            let told = case.answer(&mut out[..case.output_length]);
            let written = if told.number == 0 { told.detail as usize } else { 0 };
            assert!(out[written..].iter().all(|b| *b == 0xA5), "{name}");
        }
    }

    #[test]
    fn what_is_shown_compiles_to_the_same_book() {
        let registries = [books::registries_book(), books::largest_book(), limits::wordiest_book()];
        let samples = samples().into_iter().filter(|sample| sample.case.call == BookCall::Show);
        let mut shown = 0;
        for book in samples.map(|sample| sample.case.given).chain(registries) {
            if let Ok(text) = booktext::shown(&book) {
                let compiled = booktext::compiled(&text).unwrap_or_else(|told| panic!("{told:?}"));
                assert!(compiled.book == book && booktext::shown(&compiled.book) == Ok(text));
                shown += 1;
            }
        }
        assert!(shown > 10, "{shown}");
    }
}
