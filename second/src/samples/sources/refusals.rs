//! Sources that are refused: each row alone, and which of several is told.

use super::{large_sets, numbered, refused, refused_twice, repeated, BookSample, SECTION};

/// Every one of them.
pub fn samples() -> Vec<BookSample> {
    let mut all = bad_statements();
    all.extend(positions());
    all.extend(bad_names());
    all.extend(bad_sections());
    all.extend(rows_in_turn());
    all
}

/// Rows 33 to 42, one statement alone.
fn bad_statements() -> Vec<BookSample> {
    let in_section: [(&str, usize); 110] = [
        ("Rule PID-3 DATE E", 33),
        ("rules PID-3 DATE E", 33),
        ("x", 33),
        ("end", 33),
        ("dropped PID-3 DATE", 33),
        ("Severity PID-3 DATE E", 33),
        ("bounds PID-3 TIME 8", 33),
        ("MORE s x", 33),
        ("les s x", 33),
        ("book 1", 34),
        ("book 2", 34),
        ("code x", 34),
        ("code", 34),
        ("rule", 35),
        ("rule PID-3 DATE", 35),
        ("rule PID-3 LENGTH E 1 2 3", 35),
        ("also PID-3 DATE", 35),
        ("also PID-3 LENGTH E 1 2 3", 35),
        ("use", 35),
        ("use c E E", 35),
        ("sets", 35),
        ("set", 35),
        ("common", 35),
        ("common c d", 35),
        ("section", 35),
        ("section A B", 35),
        ("section A^", 37),
        ("section &", 37),
        ("section a~b", 37),
        ("section \\", 37),
        ("section 123456789012345678901", 37),
        ("set s x^", 38),
        ("set s x y~", 38),
        ("set s 123456789012345678901", 38),
        ("set s & y", 38),
        ("set s \\", 38),
        ("rule PID DATE E", 39),
        ("rule PID-8.0 DATE E", 39),
        ("rule PID-08 DATE E", 39),
        ("rule PID-8. DATE E", 39),
        ("rule PID- DATE E", 39),
        ("rule PID-8.1.1 DATE E", 39),
        ("also MSH-2 DATE E", 39),
        ("also PID-100 DATE E", 39),
        ("rule PID-3.21 DATE E", 39),
        ("rule ZZZ-3 DATE E", 39),
        ("rule PID-3 Date E", 40),
        ("rule PID-3 SINCE-BIRTH E", 40),
        ("rule PID-3 4 E", 40),
        ("also PID-3 Time E 8", 40),
        ("rule PID-3 DATE e", 41),
        ("rule PID-3 DATE EW", 41),
        ("also PID-3 DATE e", 41),
        ("use c A", 41),
        ("use c 8", 41),
        ("rule PID-3 DATE E 8", 42),
        ("rule PID-3 LENGTH E 0 9", 42),
        ("rule PID-3 LENGTH E 9 8", 42),
        ("rule PID-3 LENGTH E 1 256", 42),
        ("rule PID-3 LENGTH E 9", 42),
        ("also PID-3 TIME E 9", 42),
        ("rule PID-3 CODE E", 42),
        ("rule PID-3 CODE E s t", 42),
        ("severity", 35),
        ("severity PID-3 DATE", 35),
        ("severity PID-3 TIME E 8", 35),
        ("bound PID-3 TIME", 35),
        ("bound PID-3 LENGTH 1 2 3", 35),
        ("drop PID-3", 35),
        ("drop PID-3 DATE E", 35),
        ("more", 35),
        ("more s", 35),
        ("less s", 35),
        ("more s ^", 38),
        ("more s x 123456789012345678901", 38),
        ("less s x&", 38),
        ("less s ~ x", 38),
        ("severity PID DATE E", 39),
        ("severity MSH-2 DATE E", 39),
        ("bound PID-03 TIME 8", 39),
        ("bound PID-3.21 TIME 8", 39),
        ("drop PID-100 DATE", 39),
        ("drop ZZZ-3 DATE", 39),
        ("severity PID-3 Date E", 40),
        ("bound PID-3 8 8", 40),
        ("drop PID-3 E", 40),
        ("severity PID-3 DATE e", 41),
        ("severity PID-3 TIME 8", 41),
        ("severity PID-3 DATE EW", 41),
        ("bound PID-3 REQUIRED 1", 42),
        ("bound PID-3 NUMBER 1", 42),
        ("bound PID-3 DATE 8", 42),
        ("bound PID-3 LENGTH 1", 42),
        ("bound PID-3 LENGTH 2 1", 42),
        ("bound PID-3 LENGTH 0 1", 42),
        ("bound PID-3 LENGTH 1 256", 42),
        ("bound PID-3 TIME 5", 42),
        ("bound PID-3 TIME 8 8", 42),
        ("bound PID-3 TIME E", 42),
        ("bound PID-3 CODE s t", 42),
        ("bound PID-3 CODE s", 45),
        ("more s x", 45),
        ("less s x", 45),
        ("use s W", 45),
        ("severity X Y Z", 39),
        ("severity PID-3 Y Z", 40),
        ("bound X Y 1", 39),
        ("bound PID-3 Y 1", 40),
        ("drop X Y", 39),
        ("more ^ ^", 38),
    ];
    let mut all: Vec<BookSample> = in_section
        .into_iter()
        .map(|(statement, row)| {
            refused(&format!("in a section {statement}"), format!("{SECTION}{statement}\n"), [row, 3, 0])
        })
        .collect();
    let others: [(&str, [usize; 3]); 40] = [
        ("section A\nbook 1\n", [34, 1, 0]),
        ("set s x\nbook 1\n", [34, 1, 0]),
        ("common c\nbook 1\n", [34, 1, 0]),
        ("rule PID-3 DATE E\n", [34, 1, 0]),
        ("\n\ncode x\n", [34, 3, 0]),
        ("book 1\ncode x\n", [34, 2, 0]),
        ("book 1\nuse c\n", [34, 2, 0]),
        ("book 1\nsets s\n", [34, 2, 0]),
        ("book 1\nrule PID-3 DATE E\n", [34, 2, 0]),
        ("book 1\nbook 1\n", [34, 2, 0]),
        ("book 1\nset s\nrule PID-3 DATE E\n", [34, 3, 0]),
        ("book 1\nset s\nalso PID-3 DATE E\n", [34, 3, 0]),
        ("book 1\nset s\nuse c\n", [34, 3, 0]),
        ("book 1\nset s\nsets s\n", [34, 3, 0]),
        ("book 1\nset s\ncode\n", [35, 3, 0]),
        ("book 1\nset s\ncode ^\n", [38, 3, 0]),
        ("book 1\ncommon c\ncode x\n", [34, 3, 0]),
        ("book 1\ncommon c\nuse c\n", [34, 3, 0]),
        ("book 1\ncommon c\nsets s\n", [34, 3, 0]),
        ("severity PID-3 DATE E\n", [34, 1, 0]),
        ("book 1\nseverity PID-3 DATE E\n", [34, 2, 0]),
        ("book 1\nbound PID-3 TIME 8\n", [34, 2, 0]),
        ("book 1\ndrop PID-3 DATE\n", [34, 2, 0]),
        ("book 1\nmore s x\n", [34, 2, 0]),
        ("book 1\nless s x\n", [34, 2, 0]),
        ("book 1\nset s\nseverity PID-3 DATE E\n", [34, 3, 0]),
        ("book 1\nset s\nbound PID-3 TIME 8\n", [34, 3, 0]),
        ("book 1\nset s\ndrop PID-3 DATE\n", [34, 3, 0]),
        ("book 1\nset s\nmore s x\n", [34, 3, 0]),
        ("book 1\nset s\nless s x\n", [34, 3, 0]),
        ("book 1\nset s\nless\n", [34, 3, 0]),
        ("book 1\ncommon c\nmore s\n", [35, 3, 0]),
        ("book 1\ncommon c\nless s ^\n", [38, 3, 0]),
        ("book 1\ncommon c\nbound PID-3 CODE s\nsection A\n", [45, 3, 0]),
        ("book 1\ncommon c\nmore s x\n", [45, 3, 0]),
        ("book 1\ncommon s\nless s x\n", [45, 3, 0]),
        ("book 2\n", [36, 1, 0]),
        ("book 01\n", [36, 1, 0]),
        ("book\n", [35, 1, 0]),
        ("book 1 1\n", [35, 1, 0]),
    ];
    all.extend(others.into_iter().flat_map(|(text, told)| refused_twice(&text.escape_debug().to_string(), text, told)));
    all
}

/// Of several statements with rows 33 to 42 the first is told, whatever its row; of one statement the first row.
fn positions() -> Vec<BookSample> {
    let rows: [(&str, [usize; 3]); 20] = [
        ("foo\nbook 2\n", [33, 1, 0]),
        ("code\n", [34, 1, 0]),
        ("book 2 2\n", [35, 1, 0]),
        ("book 2\nfoo\n", [36, 1, 0]),
        ("book 1\nsection ^\nfoo\n", [37, 2, 0]),
        ("book 1\nsection ^ ^\n", [35, 2, 0]),
        ("book 1\nset s ^\nsection ^\n", [38, 2, 0]),
        ("book 1\nsection ^\nset s ^\n", [37, 2, 0]),
        ("book 1\nsection A\nset s ^\nrule X DATE E\n", [38, 3, 0]),
        ("book 1\nsection A\nrule X DATE E\nset s ^\n", [39, 3, 0]),
        ("book 1\nset s\nrule X Y Z 1\n", [34, 3, 0]),
        ("book 1\nsection A\nrule X Y Z 1 2 3\n", [35, 3, 0]),
        ("book 1\nsection A\nrule X Y Z 1\n", [39, 3, 0]),
        ("book 1\nsection A\nrule PID-3 Y Z 1\n", [40, 3, 0]),
        ("book 1\nsection A\nrule PID-3 DATE Z 1\n", [41, 3, 0]),
        ("book 1\nsection A\nrule PID-3 DATE E 1\n", [42, 3, 0]),
        ("book 1\nsection A\nuse c A A\n", [35, 3, 0]),
        ("book 1\ncommon c\nuse c A\n", [34, 3, 0]),
        ("book 1\nsection A\nsection A\nrule PID-3 DATE E 1\n", [42, 4, 0]),
        ("book 1\nsection A\nuse c\nrule PID-3 DATE E 1\n", [42, 4, 0]),
    ];
    rows.map(|(text, told)| refused(&format!("order {}", text.escape_debug()), text, told)).into()
}

/// Rows 43 to 45, and a text without section.
fn bad_names() -> Vec<BookSample> {
    let sections = |count: usize| -> String { (1..=count).map(|number| format!("section S{number}\n")).collect() };
    let rows: [(&str, String, [usize; 3]); 20] = [
        ("a set twice", "book 1\nset s 1\nset t 2\nset s 1\nsection A\n".into(), [43, 4, 0]),
        ("a common twice", "book 1\ncommon c\nsection A\ncommon c\n".into(), [43, 4, 0]),
        ("a key twice", "book 1\nsection A\nsection B\nsection A\n".into(), [43, 4, 0]),
        ("65 sections", format!("book 1\n{}", sections(65)), [44, 66, 0]),
        ("65 sections, the last with a key that stands", format!("book 1\n{}section S9\n", sections(64)), [43, 66, 0]),
        ("66 sections, the last with a key that stands", format!("book 1\n{}section S9\n", sections(65)), [44, 66, 0]),
        ("no section", "book 1\nset s x\ncommon c\n".into(), [44, 0, 0]),
        ("no common of this name", format!("{SECTION}use c\n"), [45, 3, 0]),
        ("a set is no common", "book 1\nset c x\nsection A\nuse c\n".into(), [45, 4, 0]),
        ("a section is no common", format!("{SECTION}use A\n"), [45, 3, 0]),
        ("no set of this name", format!("{SECTION}rule PID-3 CODE E s\n"), [45, 3, 0]),
        ("a common is no set", "book 1\ncommon s\nsection A\nrule PID-3 CODE E s\n".into(), [45, 4, 0]),
        ("no set in a further rule", format!("{SECTION}also PID-3 CODE E s\n"), [45, 3, 0]),
        (
            "no set in a common that nobody uses",
            "book 1\ncommon c\nrule PID-3 CODE E s\nsection A\n".into(),
            [45, 3, 0],
        ),
        ("no set among those that are pinned", "book 1\nset s x\nsection A\nsets s t s\n".into(), [45, 4, 0]),
        ("45 before there is no section", "book 1\ncommon c\nrule PID-3 CODE E s\n".into(), [45, 3, 0]),
        ("45 stands before 43", "book 1\nsection A\nuse c\nsection A\n".into(), [45, 3, 0]),
        ("43 stands before 45", "book 1\nsection A\nsection A\nuse c\n".into(), [43, 3, 0]),
        ("45 stands before 44", format!("{SECTION}use c\n{}", sections(64)), [45, 3, 0]),
        ("44 stands before 45", format!("book 1\n{}use c\n", sections(65)), [44, 66, 0]),
    ];
    rows.into_iter().flat_map(|(name, text, told)| refused_twice(name, text, told)).collect()
}

/// Rows 46 to 53, each alone.
fn bad_sections() -> Vec<BookSample> {
    let commons = "book 1\ncommon c\nrule PID-1 DATE E\ncommon d\nalso PID-1 DATE E\n";
    let rows: [(&str, String, [usize; 3]); 17] = [
        ("a common twice", format!("{commons}section A\nuse c\nuse c\n"), [46, 8, 6]),
        (
            "the first of two that are used twice",
            format!("{commons}section A\nuse c\nuse d\nuse d\nuse c\n"),
            [46, 9, 6],
        ),
        ("a common twice, with another severity", format!("{commons}section A\nuse c E\nuse c W\n"), [46, 8, 6]),
        (
            "a common twice in the second section",
            format!("{commons}section A\nuse c\nsection B\nuse c\nuse c\n"),
            [46, 10, 8],
        ),
        ("a rule twice", format!("{SECTION}rule PID-1 DATE E\nrule PID-2 DATE E\nrule PID-1 DATE W\n"), [47, 5, 2]),
        ("a rule that a common has", format!("{commons}section A\nuse c\nrule PID-1 DATE E\n"), [47, 8, 6]),
        (
            "a rule of a common that the section has",
            format!("{commons}section A\nrule PID-1 DATE E\nuse c W\n"),
            [47, 3, 6],
        ),
        ("a rule after a further one", format!("{commons}section A\nuse c\nuse d\nrule PID-1 DATE E\n"), [47, 9, 6]),
        ("a further rule first", format!("{SECTION}also PID-1 DATE E\n"), [48, 3, 2]),
        ("a further rule of another kind", format!("{SECTION}rule PID-1 DATE E\nalso PID-1 NUMBER E\n"), [48, 4, 2]),
        ("a further rule of another place", format!("{SECTION}rule PID-1.1 DATE E\nalso PID-1 DATE E\n"), [48, 4, 2]),
        ("a further rule of a common", format!("{commons}section A\nuse d\nuse c\n"), [48, 5, 6]),
        (
            "a further rule in the second section",
            format!("{commons}section A\nuse c\nuse d\nsection B\nuse d\n"),
            [48, 5, 9],
        ),
        (
            "a set without codes",
            "book 1\nset s\nset t 1\nsection A\nrule PID-1 CODE E t\nrule PID-2 CODE E s\n".into(),
            [53, 2, 4],
        ),
        ("a pinned set without codes", "book 1\nsection A\nsets s\nset s\n".into(), [53, 4, 2]),
        (
            "the first of two sets without codes by first use",
            "book 1\nset s\nset t\nsection A\nrule PID-1 CODE E t\nrule PID-2 CODE E s\n".into(),
            [53, 3, 4],
        ),
        (
            "the pinned one of two sets without codes",
            "book 1\nset s\nset t\nsection A\nrule PID-1 CODE E t\nsets s\n".into(),
            [53, 2, 4],
        ),
    ];
    rows.into_iter().flat_map(|(name, text, told)| refused_twice(name, text, told)).collect()
}

/// Of a section's rows both hold, and the earlier one is told.
fn rows_in_turn() -> Vec<BookSample> {
    let common = "book 1\ncommon c\nrule PID-1 DATE E\nset s x\n";
    let pinned = repeated("sets s", 2_049);
    let rules = format!("rule PID-9 DATE E\n{}", repeated("also PID-9 DATE E", 256));
    let sets = numbered("set s# x", 64);
    let names: String = (1..=64).map(|number| format!(" s{number}")).collect();
    let rows: Vec<(&str, String, [usize; 3])> = vec![
        ("46 before 56", format!("{common}section A\nuse c\nuse c\n{pinned}"), [46, 7, 5]),
        ("46 before 47", format!("{common}section A\nrule PID-1 DATE E\nuse c\nuse c\n"), [46, 8, 5]),
        ("56 before 47", format!("{common}section A\nuse c\nrule PID-1 DATE E\n{pinned}"), [56, 5, 5]),
        ("56 before 48", format!("{common}section A\nalso PID-2 DATE E\n{pinned}"), [56, 5, 5]),
        (
            "47 stands before 48",
            format!("{common}section A\nuse c\nrule PID-1 DATE E\nalso PID-2 DATE E\n"),
            [47, 7, 5],
        ),
        (
            "48 stands before 47",
            format!("{common}section A\nuse c\nalso PID-2 DATE E\nrule PID-1 DATE E\n"),
            [48, 7, 5],
        ),
        ("47 before 50", format!("{common}section A\nuse c\n{rules}rule PID-1 DATE E\n"), [47, 264, 5]),
        ("48 before 50", format!("{common}section A\nuse c\n{rules}also PID-2 DATE E\n"), [48, 264, 5]),
        ("50 before 51", format!("{common}{sets}section A\nsets s{names}\n{rules}"), [50, 69, 69]),
        ("51 before 53", format!("{common}{sets}set e\nsection A\nsets e{names}\n"), [51, 70, 70]),
        ("50 before 53", format!("{common}set e\nsection A\nsets e\n{rules}"), [50, 6, 6]),
        (
            "53 before 54",
            format!("{common}{}set e\nsection A\nsets large1 large2 large3 large4 e\n", large_sets(4)),
            [53, 9, 10],
        ),
        (
            "46 in a later section than 53",
            format!("{common}set e\nsection A\nsets e\nsection B\nuse c\nuse c\n"),
            [53, 5, 6],
        ),
        (
            "53 in a later section than 46",
            format!("{common}set e\nsection B\nuse c\nuse c\nsection A\nsets e\n"),
            [46, 8, 6],
        ),
        ("45 before 46", format!("{common}section A\nuse c\nuse c\nuse d\n"), [45, 8, 0]),
        ("43 before 46", format!("{common}section A\nuse c\nuse c\nset s\n"), [43, 8, 0]),
        ("32 before 33", "foo\n\x01".into(), [32, 2, 0]),
    ];
    rows.into_iter().map(|(name, text, told)| refused(name, text, told)).collect()
}
