//! What changes make of a section's rules and sets, and what the legend says of them.

use super::{book, legend, numbered, repeated, BookSample, EMPTY_BOOK, EXAMPLE, SECTION};

pub fn samples() -> Vec<BookSample> {
    let mut all = whole_example();
    all.extend(severities());
    all.extend(bounds());
    all.extend(drops());
    all.extend(codes());
    all.extend(sets_of_changed_rules());
    all.extend(limits());
    all.extend(legends());
    all
}

/// What the page's example has besides: a registry drops, changes and adds.
fn whole_example() -> Vec<BookSample> {
    let text = EXAMPLE
        .replace(
            "\nsection NYCDOHMH",
            "drop RXA-9.1 CODE               | 001 does not ask it\ndrop RXA-20 CODE\n\nsection NYCDOHMH",
        )
        .replace(
            "rule PID-11.2",
            "drop RXA-6 REQUIRED             | 004 does not ask it\n\
             severity RXA-20 CODE E          | 004:1704, the dose is dropped\nrule PID-11.2",
        )
        + "more 0001-sex D N P O A         | 004:868-876\nless nip001-source 04           | 004:1632, no longer taken\n";
    let bytes: &[u8] = b"VXB\0\x01\x02\
        \x06ND0000\0\x04\x01PID\x07\x01\x01E\0\0\0PID\x07\x01\x05E\0\x08\0PID\x08\0\x06W\x01\0\0RXA\x06\0\x01E\0\0\0\
        \0\x03\x01F\x01M\x01U\
        \x08NYCDOHMH\0\x06\x03PID\x07\x01\x01E\0\0\0PID\x07\x01\x05E\0\x08\0PID\x08\0\x06W\x01\0\0\
        RXA\x09\x01\x06W\x02\0\0RXA\x14\0\x06E\x03\0\0PID\x0B\x02\x02W\0\x01\x0A\
        \0\x08\x01F\x01M\x01U\x01D\x01N\x01P\x01O\x01A\
        \0\x08\x0200\x0201\x0202\x0203\x0205\x0206\x0207\x0208\
        \0\x04\x02CP\x02RE\x02NA\x02PA";
    let meant = "\
ND0000 0 | North Dakota
ND0000 1 PID-7.1 REQUIRED E | date of birth is missing; 004:843
ND0000 2 PID-7.1 TIME E 8 | date of birth is not a date; 004:845
ND0000 3 PID-8 CODE W 0001-sex
ND0000 4 RXA-6 REQUIRED E | amount is missing
NYCDOHMH 0 | New York City
NYCDOHMH 1 PID-7.1 REQUIRED E | date of birth is missing; 004:843
NYCDOHMH 2 PID-7.1 TIME E 8 | date of birth is not a date; 004:845
NYCDOHMH 3 PID-8 CODE W 0001-sex
NYCDOHMH 4 RXA-9.1 CODE W nip001-source
NYCDOHMH 5 RXA-20 CODE E 0322-completion | 004:1704, the dose is dropped
NYCDOHMH 6 PID-11.2 LENGTH W 1 10 | second address line is too long; 004:940
";
    vec![
        book("the page's example with its changes", &text, bytes),
        legend("the page's example with its changes", &text, meant),
    ]
}

/// The head of a book whose only section has the key A.
fn head(rules: u8, sets: u8) -> Vec<u8> {
    [b"VXB\0\x01\x01\x01A\0".as_slice(), &[rules, sets]].concat()
}

/// A DATE rule of a field of PID.
fn date(field: u8, severity: u8) -> Vec<u8> {
    [b"PID", [field, 0, 4].as_slice(), &[severity, 0, 0, 0]].concat()
}

/// A CODE rule of a field of PID, with severity E.
fn code(field: u8, set: u8) -> Vec<u8> {
    [b"PID", [field, 0, 6].as_slice(), b"E", &[set, 0, 0]].concat()
}

/// A set of codes that have one sign each.
fn set(codes: &str) -> Vec<u8> {
    let mut bytes = vec![0, codes.len() as u8];
    bytes.extend(codes.bytes().flat_map(|code| [1, code]));
    bytes
}

fn severities() -> Vec<BookSample> {
    let common = "book 1\ncommon c\nrule PID-1 DATE E\nrule PID-2 DATE E\n";
    let of = |rules: &[Vec<u8>]| [head(rules.len() as u8, 0), rules.concat()].concat();
    vec![
        book(
            "severity",
            format!("{SECTION}rule PID-1 DATE E\nrule PID-2 DATE E\nseverity PID-1 DATE I\n"),
            of(&[date(1, b'I'), date(2, b'E')]),
        ),
        book(
            "the last severity counts",
            format!("{SECTION}rule PID-1 DATE E\nseverity PID-1 DATE I\nrule PID-2 DATE E\nseverity PID-1 DATE W\n"),
            of(&[date(1, b'W'), date(2, b'E')]),
        ),
        book(
            "severity of all rules so far of that place and kind",
            format!(
                "{SECTION}rule PID-1 DATE E\nalso PID-1 DATE W\nseverity PID-1 DATE I\nalso PID-1 DATE E\n\
                 rule PID-1 NUMBER E\nrule PID-1.1 DATE E\n"
            ),
            [
                head(5, 0),
                date(1, b'I'),
                date(1, b'I'),
                date(1, b'E'),
                b"PID\x01\0\x03E\0\0\0PID\x01\x01\x04E\0\0\0".to_vec(),
            ]
            .concat(),
        ),
        book(
            "the same severity again",
            format!("{SECTION}rule PID-1 DATE E\nseverity PID-1 DATE E\n"),
            of(&[date(1, b'E')]),
        ),
        book(
            "severity of what a common brings",
            format!("{common}section A\nuse c\nseverity PID-2 DATE I\n"),
            of(&[date(1, b'E'), date(2, b'I')]),
        ),
        book(
            "a common with a severity, and a later severity",
            format!("{common}section A\nuse c W\nseverity PID-2 DATE I\n"),
            of(&[date(1, b'W'), date(2, b'I')]),
        ),
        book(
            "severity in a common that is used with a severity",
            format!("{common}severity PID-1 DATE I\nsection A\nuse c W\n"),
            of(&[date(1, b'I'), date(2, b'W')]),
        ),
        book(
            "severity in a common that is used with a severity changes what stands before it",
            "book 1\ncommon c\nseverity PID-1 DATE I\nalso PID-1 DATE E\nsection A\nrule PID-1 DATE E\nuse c W\n",
            of(&[date(1, b'I'), date(1, b'W')]),
        ),
        book(
            "a common that changes another one's rules, in one of two sections",
            format!(
                "{common}common d\nseverity PID-1 DATE W\ndrop PID-2 DATE\nsection A\nuse c\nuse d\nsection B\nuse c\n"
            ),
            [
                b"VXB\0\x01\x02\x01A\0\x01\0".to_vec(),
                date(1, b'W'),
                b"\x01B\0\x02\0".to_vec(),
                date(1, b'E'),
                date(2, b'E'),
            ]
            .concat(),
        ),
        book(
            "two sections change one common each in its way",
            format!("{common}section A\nuse c\nseverity PID-1 DATE I\nsection B\nuse c\nseverity PID-1 DATE W\n"),
            [
                b"VXB\0\x01\x02\x01A\0\x02\0".to_vec(),
                date(1, b'I'),
                date(2, b'E'),
                b"\x01B\0\x02\0".to_vec(),
                date(1, b'W'),
                date(2, b'E'),
            ]
            .concat(),
        ),
        book(
            "changes in a common that nobody uses",
            "book 1\ncommon c\nseverity PID-1 DATE E\ndrop PID-1 TIME\nbound PID-1 TIME 8\nsection A\n",
            EMPTY_BOOK,
        ),
    ]
}

fn bounds() -> Vec<BookSample> {
    vec![
        book(
            "bounds of a length and a time",
            format!(
                "{SECTION}rule PID-1 LENGTH E 1 10\nrule PID-1 TIME W 8\nbound PID-1 LENGTH 2 20\nbound PID-1 TIME 14\n"
            ),
            b"VXB\0\x01\x01\x01A\0\x02\0PID\x01\0\x02E\0\x02\x14PID\x01\0\x05W\0\x0E\0",
        ),
        book(
            "the last bound counts, for all rules before it",
            format!(
                "{SECTION}rule PID-1 TIME W 8\nbound PID-1 TIME 14\nalso PID-1 TIME E 4\nbound PID-1 TIME 6\n\
                 also PID-1 TIME I 12\n"
            ),
            b"VXB\0\x01\x01\x01A\0\x03\0PID\x01\0\x05W\0\x06\0PID\x01\0\x05E\0\x06\0PID\x01\0\x05I\0\x0C\0",
        ),
        book(
            "bound and severity, in a common that is used with a severity",
            "book 1\ncommon c\nrule PID-1 TIME E 8\nbound PID-1 TIME 4\nsection A\nuse c I\nbound PID-1 TIME 14\n",
            b"VXB\0\x01\x01\x01A\0\x01\0PID\x01\0\x05I\0\x0E\0",
        ),
        book(
            "the bound of a code, its set given later",
            "book 1\nset a 1\nsection A\nrule PID-1 CODE E a\nbound PID-1 CODE b\nset b 2\n",
            [head(1, 1), code(1, 1), set("2")].concat(),
        ),
    ]
}

fn drops() -> Vec<BookSample> {
    let three = format!("{SECTION}rule PID-1 DATE E\nrule PID-2 DATE W\nrule PID-3 DATE I\n");
    let of = |rules: &[Vec<u8>]| [head(rules.len() as u8, 0), rules.concat()].concat();
    vec![
        book("drop", format!("{three}drop PID-2 DATE\n"), of(&[date(1, b'E'), date(3, b'I')])),
        book("drop of the only rule", format!("{SECTION}rule PID-1 DATE E\ndrop PID-1 DATE\n"), EMPTY_BOOK),
        book(
            "drop of several rules of a place and kind",
            format!("{three}also PID-1 DATE I\nseverity PID-1 DATE W\ndrop PID-1 DATE\n"),
            of(&[date(2, b'W'), date(3, b'I')]),
        ),
        book(
            "drop, then the rule again with its own severity, at its new place",
            format!("{three}severity PID-1 DATE W\ndrop PID-1 DATE\nrule PID-1 DATE I\n"),
            of(&[date(2, b'W'), date(3, b'I'), date(1, b'I')]),
        ),
        book(
            "drop, rule, drop, rule and a further one",
            format!("{SECTION}{}rule PID-1 DATE W\nalso PID-1 DATE I\n", repeated("rule PID-1 DATE E\ndrop PID-1 DATE", 3)),
            of(&[date(1, b'W'), date(1, b'I')]),
        ),
        book(
            "drop of a common's rule and one of its own instead",
            "book 1\ncommon c\nrule PID-1 DATE E\nsection A\nuse c\ndrop PID-1 DATE\nrule PID-1 DATE W\nsection B\nuse c\n",
            [b"VXB\0\x01\x02\x01A\0\x01\0".to_vec(), date(1, b'W'), b"\x01B\0\x01\0".to_vec(), date(1, b'E')].concat(),
        ),
        book(
            "drop in a common of what stands before it",
            "book 1\ncommon c\ndrop PID-1 DATE\nrule PID-1 DATE W\nsection A\nrule PID-1 DATE E\nuse c\n",
            of(&[date(1, b'W')]),
        ),
    ]
}

/// The codes of one set by changes, with a rule for it.
fn codes() -> Vec<BookSample> {
    let changed = |name: &str, set_line: &str, changes: &str, codes: &str| {
        let text = format!("book 1\n{set_line}\nsection A\nrule PID-1 CODE E s\n{changes}");
        book(name, text, [head(1, 1), code(1, 1), set(codes)].concat())
    };
    vec![
        changed("more", "set s a b", "more s d c\n", "abdc"),
        changed("more in several lines", "set s a\ncode b", "more s d\nmore s c e\n", "abdce"),
        changed("a code twice in one more", "set s a", "more s b b\n", "abb"),
        changed("less", "set s a b c d", "less s c a\n", "bd"),
        changed("a code twice in one less", "set s a b c", "less s c c\n", "ab"),
        changed("less takes a code wherever it stands", "set s a b a c a", "less s a\n", "bc"),
        changed("more of a code that less took", "set s a b", "less s a\nmore s a\n", "ba"),
        changed("less of a code that more added", "set s a", "more s b c\nless s b\n", "ac"),
        changed("less, more and less again", "set s a b", "less s a\nmore s a c\nless s a\n", "bc"),
        changed("more, less and more again", "set s a", "more s b c b\nless s b\nmore s b\n", "acb"),
        changed("all codes go and others come", "set s a b", "less s a b\nmore s c\n", "c"),
        changed("all codes come back in another order", "set s a b", "less s b a\nmore s b\nmore s a\n", "ba"),
        changed("a set without codes gets some", "set s", "more s a\n", "a"),
        changed("codes that differ by case or length", "set s a A", "less s a\nmore s b\nless s A\n", "b"),
        book(
            "changes before the rule that names the set",
            "book 1\nset s a b\nsection A\nmore s c\nless s a\nrule PID-1 CODE E s\n",
            [head(1, 1), code(1, 1), set("bc")].concat(),
        ),
        book(
            "changes of a pinned set, before and after it is pinned",
            "book 1\nset s a b\nsection A\nmore s c\nsets s\nless s a\n",
            [head(0, 1), set("bc")].concat(),
        ),
        book(
            "changes in a common, then in the section",
            "book 1\nset s a b\ncommon c\nrule PID-1 CODE E s\nless s a\nsection A\nuse c\nmore s a\nsection B\nuse c\n",
            [
                b"VXB\0\x01\x02\x01A\0\x01\x01".to_vec(),
                code(1, 1),
                set("ba"),
                b"\x01B\0\x01\x01".to_vec(),
                code(1, 1),
                set("b"),
            ]
            .concat(),
        ),
        book(
            "one section changes a set, another has it as it is",
            "book 1\nset s a b\nsection A\nsets s\nmore s c\nsection B\nsets s\n",
            [b"VXB\0\x01\x02\x01A\0\0\x01".to_vec(), set("abc"), b"\x01B\0\0\x01".to_vec(), set("ab")].concat(),
        ),
        book(
            "two sets, one changed",
            "book 1\nset s a\nset ss a\nsection A\nsets s ss\nmore ss b\n",
            [head(0, 2), set("a"), set("ab")].concat(),
        ),
        book(
            "one set for two rules, changed between them",
            "book 1\nset s a\nsection A\nrule PID-1 CODE E s\nmore s b\nrule PID-2 CODE E s\n",
            [head(2, 1), code(1, 1), code(2, 1), set("ab")].concat(),
        ),
    ]
}

/// Sets are numbered by the rules as they are in the end.
fn sets_of_changed_rules() -> Vec<BookSample> {
    let sets = "book 1\nset a 1\nset b 2\nset c 3\nsection A\n";
    vec![
        book(
            "a bound brings a set and another leaves",
            format!("{sets}rule PID-1 CODE E a\nrule PID-2 CODE E b\nbound PID-1 CODE c\n"),
            [head(2, 2), code(1, 1), code(2, 2), set("3"), set("2")].concat(),
        ),
        book(
            "a bound changes the order of sets",
            format!("{sets}rule PID-1 CODE E a\nrule PID-2 CODE E b\nrule PID-3 CODE E a\nbound PID-1 CODE b\n"),
            [head(3, 2), code(1, 1), code(2, 1), code(3, 2), set("2"), set("1")].concat(),
        ),
        book(
            "a bound and back",
            format!("{sets}rule PID-1 CODE E a\nbound PID-1 CODE b\nbound PID-1 CODE a\n"),
            [head(1, 1), code(1, 1), set("1")].concat(),
        ),
        book(
            "the set of a dropped rule leaves",
            format!("{sets}rule PID-1 CODE E a\nrule PID-2 CODE E b\ndrop PID-1 CODE\n"),
            [head(1, 1), code(2, 1), set("2")].concat(),
        ),
        book(
            "a pinned set stays when its rule is dropped",
            format!("{sets}sets c a\nrule PID-1 CODE E a\ndrop PID-1 CODE\nless c 3\nmore c 4\n"),
            [head(0, 2), set("4"), set("1")].concat(),
        ),
        book(
            "more for a set that a bound brings",
            format!("{sets}rule PID-1 CODE E a\nmore c 4\nbound PID-1 CODE c\n"),
            [head(1, 1), code(1, 1), set("34")].concat(),
        ),
        book(
            "more for a set of which one of two rules is left",
            format!("{sets}rule PID-1 CODE E a\nrule PID-2 CODE E a\nmore a 4\nbound PID-1 CODE b\n"),
            [head(2, 2), code(1, 1), code(2, 2), set("2"), set("14")].concat(),
        ),
        book(
            "a set without codes that a bound makes leave",
            "book 1\nset e\nset a 1\nsection A\nrule PID-1 CODE E e\nbound PID-1 CODE a\n",
            [head(1, 1), code(1, 1), set("1")].concat(),
        ),
    ]
}

/// What is counted is what is left.
fn limits() -> Vec<BookSample> {
    let rules = |count: usize| format!("rule PID-9 DATE E\n{}", repeated("also PID-9 DATE E", count - 1));
    let many_sets = numbered("set s# x", 65);
    let many_rules = numbered("rule PID-# CODE E s#", 65);
    let many_codes = [b"VXB\0\x01\x01\x01A\0\0\x01\x04\0".as_slice(), &b"\x01x".repeat(1_024)].concat();
    let ruled = |from: u8| (from..from + 64).map(|field| code(field, field - from + 1)).collect::<Vec<_>>().concat();
    let one_code = || set("x").repeat(64);
    vec![
        book("300 rules that are dropped", format!("{SECTION}{}drop PID-9 DATE\n", rules(300)), EMPTY_BOOK),
        book(
            "257 rules, one dropped",
            format!("{SECTION}rule PID-1 DATE E\n{}drop PID-1 DATE\n", rules(256)),
            [b"VXB\0\x01\x01\x01A\x01\0\0", &b"PID\x09\0\x04E\0\0\0".repeat(256)[..]].concat(),
        ),
        book(
            "65 sets by rules, one dropped",
            format!("book 1\n{many_sets}section A\n{many_rules}drop PID-1 CODE\n"),
            [head(64, 64), ruled(2), one_code()].concat(),
        ),
        book(
            "65 sets by rules, one by a bound of another's",
            format!("book 1\n{many_sets}section A\n{many_rules}bound PID-65 CODE s1\n"),
            [head(65, 64), ruled(1), code(65, 1), one_code()].concat(),
        ),
        book(
            "1,025 codes, one less",
            format!("book 1\nset s{} y\nsection A\nsets s\nless s y\n", " x".repeat(1_024)),
            &many_codes,
        ),
        book(
            "1,024 codes by more",
            format!("book 1\nset s x\nsection A\nless s x\nmore s{}\nsets s\n", " x".repeat(1_024)),
            &many_codes,
        ),
        book(
            "2,048 statements with changes",
            format!("{SECTION}rule PID-1 DATE E\n{}", repeated("severity PID-1 DATE I", 2_047)),
            [head(1, 0), date(1, b'I')].concat(),
        ),
    ]
}

fn legends() -> Vec<BookSample> {
    let common = "book 1\nset s x | set\nset t y\ncommon c\nrule PID-1 TIME E 8 | a time\nrule PID-2 CODE W s\n";
    vec![
        legend(
            "severity and bound with their words",
            format!("{SECTION}rule PID-1 TIME E 8 | a\nseverity PID-1 TIME I | b\nbound PID-1 TIME 14 | c\n"),
            "A 0\nA 1 PID-1 TIME I 14 | a | b | c\n",
        ),
        legend(
            "words in the order of the text, empty ones left out",
            format!(
                "{SECTION}rule PID-1 LENGTH E 1 2 |\nbound PID-1 LENGTH 1 3 | b\nseverity PID-1 LENGTH I\n\
                 severity PID-1 LENGTH W | \t\nbound PID-1 LENGTH 1 4 | c | d\nrule PID-2 DATE E | e\nseverity PID-2 DATE I\n"
            ),
            "A 0\nA 1 PID-1 LENGTH W 1 4 | b | c | d\nA 2 PID-2 DATE I | e\n",
        ),
        legend(
            "words of changes go to all rules before them",
            format!(
                "{SECTION}rule PID-1 DATE E | one\nseverity PID-1 DATE W | first\nalso PID-1 DATE E | two\n\
                 severity PID-1 DATE I | second\nalso PID-1 DATE E | three\n"
            ),
            "A 0\nA 1 PID-1 DATE I | one | first | second\nA 2 PID-1 DATE I | two | second\nA 3 PID-1 DATE E | three\n",
        ),
        legend(
            "words of drop, more and less are in no legend",
            "book 1\nset s x\nsection A\nrule PID-1 CODE E s | a\nrule PID-2 DATE E | gone\nmore s y | m\nless s x | l\n\
             drop PID-2 DATE | d\nsets s | pinned\n",
            "A 0\nA 1 PID-1 CODE E s | a\n",
        ),
        legend(
            "a rule again after its drop has its own words",
            format!(
                "{SECTION}rule PID-1 DATE E | old\nseverity PID-1 DATE I | changed\ndrop PID-1 DATE | dropped\n\
                 rule PID-1 DATE W | new\nrule PID-2 DATE E\nseverity PID-1 DATE E | again\n"
            ),
            "A 0\nA 1 PID-1 DATE E | new | again\nA 2 PID-2 DATE E\n",
        ),
        legend(
            "a set by the name that the last bound gives",
            format!("{common}section A\nuse c\nbound PID-2 CODE t | other codes\n"),
            "A 0\nA 1 PID-1 TIME E 8 | a time\nA 2 PID-2 CODE W t | other codes\n",
        ),
        legend(
            "changes of a common's rules, in the common and in the section",
            format!(
                "{common}severity PID-1 TIME W | in the common\nsection A | A\nuse c I | used\n\
                 bound PID-1 TIME 4 | in the section\nsection B\nuse c\n"
            ),
            "A 0 | A\nA 1 PID-1 TIME W 4 | a time | in the common | in the section\nA 2 PID-2 CODE I s\nB 0\n\
             B 1 PID-1 TIME W 8 | a time | in the common\nB 2 PID-2 CODE W s\n",
        ),
        legend(
            "changes of another place or kind",
            format!(
                "{SECTION}rule PID-1 DATE E | a\nrule PID-1.1 DATE E | b\nrule PID-1 NUMBER E | c\n\
                 severity PID-1.1 DATE I | of b\nseverity PID-1 NUMBER W | of c\n"
            ),
            "A 0\nA 1 PID-1 DATE E | a\nA 2 PID-1.1 DATE I | b | of b\nA 3 PID-1 NUMBER W | c | of c\n",
        ),
    ]
}
