//! Changes that are refused: where there is nothing to change, and which of several refusals is told.

use super::{numbered, refused, refused_twice, repeated, BookSample, SECTION};

pub fn samples() -> Vec<BookSample> {
    let mut all = nothing_stands();
    all.extend(wrong_codes());
    all.extend(sets_not_held());
    all.extend(sets_left_empty());
    all.extend(rows_in_turn());
    all
}

fn both(rows: Vec<(&str, String, [usize; 3])>) -> Vec<BookSample> {
    rows.into_iter().flat_map(|(name, text, told)| refused_twice(name, text, told)).collect()
}

/// Rows 47 and 48.
fn nothing_stands() -> Vec<BookSample> {
    let rule = format!("{SECTION}rule PID-1 TIME E 8\n");
    let commons = "book 1\ncommon c\nrule PID-1 TIME E 8\ncommon d\nseverity PID-1 TIME W\n";
    both(vec![
        ("a rule after a change", format!("{rule}severity PID-1 TIME W\nrule PID-1 TIME E 8\n"), [47, 5, 2]),
        (
            "a rule twice after its drop",
            format!("{rule}drop PID-1 TIME\nrule PID-1 TIME E 8\nrule PID-1 TIME E 8\n"),
            [47, 6, 2],
        ),
        ("severity and no rule", format!("{SECTION}severity PID-1 TIME W\n"), [48, 3, 2]),
        ("bound and no rule", format!("{SECTION}bound PID-1 TIME 8\n"), [48, 3, 2]),
        ("drop and no rule", format!("{SECTION}drop PID-1 TIME\n"), [48, 3, 2]),
        ("severity of another kind", format!("{rule}severity PID-1 DATE W\n"), [48, 4, 2]),
        ("bound of another kind", format!("{rule}bound PID-1 LENGTH 1 2\n"), [48, 4, 2]),
        ("drop of another kind", format!("{rule}drop PID-1 DATE\n"), [48, 4, 2]),
        ("severity of another place", format!("{rule}severity PID-1.1 TIME W\n"), [48, 4, 2]),
        ("bound of another place", format!("{rule}bound PID-2 TIME 8\n"), [48, 4, 2]),
        ("drop of another place", format!("{rule}drop OBX-1 TIME\n"), [48, 4, 2]),
        ("severity after a drop", format!("{rule}drop PID-1 TIME\nseverity PID-1 TIME W\n"), [48, 5, 2]),
        ("bound after a drop", format!("{rule}drop PID-1 TIME\nbound PID-1 TIME 8\n"), [48, 5, 2]),
        ("drop after a drop", format!("{rule}also PID-1 TIME E 8\ndrop PID-1 TIME\ndrop PID-1 TIME\n"), [48, 6, 2]),
        ("a further rule after a drop", format!("{rule}drop PID-1 TIME\nalso PID-1 TIME E 8\n"), [48, 5, 2]),
        ("severity before the rule", format!("{SECTION}severity PID-1 TIME W\nrule PID-1 TIME E 8\n"), [48, 3, 2]),
        ("bound before the rule", format!("{SECTION}bound PID-1 TIME 8\nrule PID-1 TIME E 8\n"), [48, 3, 2]),
        ("drop before the rule", format!("{SECTION}drop PID-1 TIME\nrule PID-1 TIME E 8\n"), [48, 3, 2]),
        ("a change before its common", format!("{commons}section A\nseverity PID-1 TIME W\nuse c\n"), [48, 7, 6]),
        ("a common's change before its common", format!("{commons}section A\nuse d\nuse c\n"), [48, 5, 6]),
        (
            "a common's change in a section that dropped the rule",
            format!("{commons}section A\nuse c\nuse d\nsection B\nuse c\ndrop PID-1 TIME\nuse d\n"),
            [48, 5, 9],
        ),
        ("another section's rule is none", format!("{rule}section B\nseverity PID-1 TIME W\n"), [48, 5, 4]),
    ])
}

/// Row 49.
fn wrong_codes() -> Vec<BookSample> {
    let set = "book 1\nset s a b\nsection A\nsets s\n";
    both(vec![
        ("more of a code that the set has", format!("{set}more s a\n"), [49, 5, 3]),
        ("more of several, the last of them there", format!("{set}more s c d b\n"), [49, 5, 3]),
        ("more of a code that more added", format!("{set}more s c\nmore s d\nmore s c\n"), [49, 7, 3]),
        ("more of a code that came back", format!("{set}less s a\nmore s a\nmore s a\n"), [49, 7, 3]),
        ("less of a code that the set has not", format!("{set}less s c\n"), [49, 5, 3]),
        ("less of several, the first of them not there", format!("{set}less s c a\n"), [49, 5, 3]),
        ("less of a code that less took", format!("{set}less s a\nless s a\n"), [49, 6, 3]),
        ("less of a code that more added and less took", format!("{set}more s c\nless s c\nless s c\n"), [49, 7, 3]),
        ("less of a code before more adds it", format!("{set}less s c\nmore s c\n"), [49, 5, 3]),
        ("codes are compared whole and by case", format!("{set}more s A aa\nless s aaa\n"), [49, 6, 3]),
        (
            "a code of another set",
            "book 1\nset s a\nset t b\nsection A\nsets s t\nmore s b\nless s a\nless t a\n".into(),
            [49, 8, 4],
        ),
        (
            "a common's more in a section that has the code",
            "book 1\nset s a\ncommon c\nmore s b\nsection A\nsets s\nuse c\nsection B\nsets s\nmore s b\nuse c\n"
                .into(),
            [49, 4, 8],
        ),
        (
            "a common's less in a section that took the code",
            "book 1\nset s a b\ncommon c\nless s b\nsection A\nsets s\nuse c\nless s b\n".into(),
            [49, 8, 5],
        ),
        (
            "a code of a later line of the set",
            "book 1\nsection A\nsets s\nmore s b\nset s a\ncode b\n".into(),
            [49, 4, 2],
        ),
    ])
}

/// Row 52.
fn sets_not_held() -> Vec<BookSample> {
    let sets = "book 1\nset s a b\nset t c\nsection A\nrule PID-1 CODE E s\n";
    both(vec![
        ("more for a set that is not held", format!("{sets}more t d\n"), [52, 6, 4]),
        ("less for a set that is not held", format!("{sets}less t c\n"), [52, 6, 4]),
        ("the first of several", format!("{sets}more s c\nless t c\nmore t e\n"), [52, 7, 4]),
        ("more for a set that leaves by a bound", format!("{sets}more s c\nbound PID-1 CODE t\n"), [52, 6, 4]),
        ("less for a set that left by a bound", format!("{sets}bound PID-1 CODE t\nless s a\n"), [52, 7, 4]),
        ("more for a set that leaves by a drop", format!("{sets}more s c\ndrop PID-1 CODE\n"), [52, 6, 4]),
        (
            "a common's more in a section that does not hold the set",
            format!("{sets}use c\nsection B\nuse c\ncommon c\nmore s c\n"),
            [52, 10, 7],
        ),
        ("another section holds it", format!("{sets}section B\nmore s c\n"), [52, 7, 6]),
    ])
}

/// Row 53, by changes; the line is the set's.
fn sets_left_empty() -> Vec<BookSample> {
    let set = "book 1\nset s a b\nset t c\nsection A\nsets t s\n";
    let many = |count: usize| format!("book 1\nsection A\nset s{}\n", " x".repeat(count));
    both(vec![
        ("all codes taken at once", format!("{set}less s a b\n"), [53, 2, 4]),
        ("all codes taken one by one", format!("{set}less s b\nless s a\n"), [53, 2, 4]),
        ("all codes taken, also those that came", format!("{set}more s d\nless s a b d\n"), [53, 2, 4]),
        ("the first set in the order in which they are held", format!("{set}less s a b\nless t c\n"), [53, 3, 4]),
        ("1,025 codes by more", format!("{}common c\nmore s y\nsection B\nsets s\nuse c\n", many(1_024)), [53, 3, 6]),
        ("a set without codes in a later section", format!("{set}section B\nsets s\nless s b a\n"), [53, 2, 6]),
    ])
}

/// Of a section's rows both hold, and the earlier one is told.
fn rows_in_turn() -> Vec<BookSample> {
    let sets = "book 1\nset s a b\nset t c\nsection A\nrule PID-1 CODE E s\n";
    let rules = format!("rule PID-9 DATE E\n{}", repeated("also PID-9 DATE E", 256));
    let many_sets = numbered("set s# x", 65);
    let names: String = (1..=65).map(|number| format!(" s{number}")).collect();
    let rows: Vec<(&str, String, [usize; 3])> = vec![
        ("48 stands before 49", format!("{sets}drop PID-2 CODE\nmore s a\n"), [48, 6, 4]),
        ("49 stands before 48", format!("{sets}more s a\ndrop PID-2 CODE\n"), [49, 6, 4]),
        ("47 stands before 49", format!("{sets}rule PID-1 CODE E s\nmore s a\n"), [47, 6, 4]),
        ("49 stands before 47", format!("{sets}less s c\nrule PID-1 CODE E s\n"), [49, 6, 4]),
        ("49 before 50", format!("{sets}{rules}less s c\n"), [49, 263, 4]),
        ("49 before 52, in one statement", format!("{sets}more t c\n"), [49, 6, 4]),
        ("49 before 52, in a later statement", format!("{sets}more t d\nmore s a\n"), [49, 7, 4]),
        ("49 before 53", format!("{sets}less s a b\nless s a\n"), [49, 7, 4]),
        ("50 before 52", format!("{sets}more t d\n{rules}"), [50, 4, 4]),
        ("51 before 52", format!("book 1\n{many_sets}set t c\nsection A\nsets{names}\nmore t d\n"), [51, 68, 68]),
        ("52 before 53", format!("{sets}less s a b\nmore t d\n"), [52, 7, 4]),
        ("52 before 53 of an earlier set", format!("{sets}less t c\nless s b a\n"), [52, 6, 4]),
        ("56 before 49", format!("{sets}{}more s a\n", repeated("severity PID-1 CODE W", 2_047)), [56, 4, 4]),
        ("45 before 48", format!("{sets}drop PID-9 DATE\nbound PID-1 CODE u\n"), [45, 7, 0]),
        ("45 before 49", format!("{sets}more s a\nmore u a\n"), [45, 7, 0]),
        ("38 before 49", format!("{sets}more s a ^\n"), [38, 6, 0]),
        ("an earlier section's 53 before 49", format!("{sets}less s a b\nsection B\nmore s a\n"), [53, 2, 4]),
        ("46 before 48", format!("{sets}drop PID-9 DATE\nuse c\nuse c\ncommon c\n"), [46, 8, 4]),
    ];
    rows.into_iter().map(|(name, text, told)| refused(name, text, told)).collect()
}
