//! Statements that are faulty by themselves: rows 33 to 42.

use super::super::changes::changed;
use super::super::drafts::{rule, rule_of_kind, Draft, Statement, Word, HEADS};
use crate::cases::Random;

pub fn unknown(random: &mut Random, draft: &mut Draft) {
    let verbs = [
        "Rule", "rules", "ruled", "RULE", "dropped", "Severity", "bounds", "mores", "les", "end", "sets,", "Book", "1",
        "-", "use:", "sections", "com", "codes", "when", "#",
    ];
    let mut statement = Statement::new([random.pick(&verbs)]);
    let count = random.below(4);
    statement.words.extend((0..count).map(|_| random.pick(&["s", "PID-3", "DATE", "E"]).into()));
    let at = anywhere(random, draft);
    draft.statements.insert(at, statement);
}

/// Anywhere, and often before `book`.
fn anywhere(random: &mut Random, draft: &Draft) -> usize {
    if random.one_in(5) {
        0
    } else {
        random.below(draft.statements.len() + 1)
    }
}

pub fn misplaced(random: &mut Random, draft: &mut Draft) {
    loop {
        let texts = [
            "book 1",
            "set q x",
            "common q",
            "section q",
            "code x",
            "use q",
            "sets q",
            "rule PID-3 DATE E",
            "also PID-3 DATE E",
            "severity PID-3 DATE E",
            "bound PID-3 TIME 8",
            "drop PID-3 DATE",
            "more q x",
            "less q x",
        ];
        let statement = Statement::of(random.pick(&texts));
        let at = anywhere(random, draft);
        if !may_stand(draft, at, &statement) {
            draft.statements.insert(at, statement);
            return;
        }
    }
}

fn may_stand(draft: &Draft, at: usize, statement: &Statement) -> bool {
    if at == 0 {
        return statement.is(&["book"]);
    }
    let head = draft.statements[..at].iter().rev().find(|statement| statement.is(&HEADS));
    let inside = |names: &[&str]| head.is_some_and(|head| head.is(names));
    statement.is(&HEADS)
        || statement.is(&["code"]) && inside(&["set"])
        || statement.is(&["use", "sets"]) && inside(&["section"])
        || statement.is(&["rule", "also", "severity", "bound", "drop", "more", "less"])
            && inside(&["common", "section"])
}

/// Takes away or adds words until there are too few or too many.
pub fn miscounted(random: &mut Random, draft: &mut Draft) {
    let at = random.below(draft.statements.len());
    let statement = &mut draft.statements[at];
    let (least, most) = match statement.words[0].as_slice() {
        b"book" | b"common" | b"section" => (2, 2),
        b"use" => (2, 3),
        b"drop" => (3, 3),
        b"severity" => (4, 4),
        b"bound" => (4, 5),
        b"rule" | b"also" => (4, 6),
        b"more" | b"less" => (3, usize::MAX),
        _ => (2, usize::MAX),
    };
    if most == usize::MAX || random.one_in(2) {
        statement.words.truncate(random.between(1, least - 1));
    } else {
        let count = most + random.pick(&[1, 1, 2, 300]);
        statement.words.resize(count, b"1".to_vec());
    }
}

pub fn bad_key(random: &mut Random) -> Word {
    random.pick(&["A^", "^", "a~b", "&", "\\", "123456789012345678901", "A&1"]).into()
}

pub fn bad_code(random: &mut Random, draft: &mut Draft) {
    let code = bad_key(random);
    let places = draft.statements.iter().enumerate();
    let places = places.filter(|(_, statement)| statement.is(&["set", "code", "more", "less"]));
    let places: Vec<usize> = places.map(|(at, _)| at).collect();
    if places.is_empty() || random.one_in(3) {
        if random.one_in(2) {
            draft.insert_page(random, vec![Statement::new([b"set".to_vec(), b"q".to_vec(), code])]);
        } else {
            let verb = random.pick(&["more", "less"]);
            insert_statement(random, draft, Statement::new([verb.into(), b"q".to_vec(), b"x".to_vec(), code]));
        }
        return;
    }
    let statement = &mut draft.statements[random.pick(&places)];
    let least = if statement.is(&["code"]) { 1 } else { 2 };
    let at = random.between(least, statement.words.len());
    statement.words.insert(at, code);
}

/// A new statement about a place and kind that is spoilt in one of its words, or a `use`.
pub fn bad_rule(random: &mut Random, draft: &mut Draft, row: u8) {
    let verb = verb_for(random, &[row]);
    let mut statement = worded(random, verb);
    if row == 41 && random.one_in(3) {
        statement = Statement::of("use q X");
    }
    spoil_rule(random, &mut statement, row);
    insert_statement(random, draft, statement);
}

/// A verb about a place and kind for which all the rows can hold.
pub fn verb_for(random: &mut Random, rows: &[u8]) -> &'static str {
    loop {
        let verb = random.pick(&["rule", "rule", "also", "severity", "bound", "drop"]);
        let lacks: &[u8] = match verb {
            "severity" => &[42],
            "bound" => &[41],
            "drop" => &[41, 42],
            _ => &[],
        };
        if !rows.iter().any(|row| lacks.contains(row)) {
            return verb;
        }
    }
}

/// A statement with that verb for any place and kind.
pub fn worded(random: &mut Random, verb: &str) -> Statement {
    let mut rule = rule(random, &[]);
    match verb {
        "rule" | "also" => {
            rule.words[0] = verb.into();
            rule
        }
        "bound" => changed(&rule_of_kind(random, 5, &[]), verb),
        _ => changed(&rule, verb),
    }
}

/// Into a section or, if it may stand there, into a common.
pub fn insert_statement(random: &mut Random, draft: &mut Draft, statement: Statement) {
    let own = statement.is(&["use", "sets"]) || random.one_in(2);
    let page = draft.page(random, if own { "section" } else { "common" });
    match page {
        Some(page) => draft.insert_into(random, page, vec![statement]),
        None => {
            let head = Statement::of(if own { "section q" } else { "common q" });
            draft.insert_page(random, vec![head, statement]);
        }
    }
}

/// Makes one of rows 39 to 42 hold, and before them 35.
pub fn spoil_rule(random: &mut Random, statement: &mut Statement, row: u8) {
    let words = &mut statement.words;
    match row {
        35 => words.resize(random.pick(&[7, 8, 40]), b"1".to_vec()),
        39 => {
            let places = [
                "PID",
                "PID-",
                "PID-0",
                "PID-08",
                "PID-8.",
                "PID-8.0",
                "PID-8.01",
                "PID-8.1.1",
                "PID-100",
                "PID-8.21",
                "PID-256",
                "PID-264",
                "PID-8.257",
                "MSH-1",
                "MSH-2",
                "MSH-2.1",
                "pid-8",
                "IN1-3",
                "QPD-3",
                "PID8",
                "PID.8",
                "PID-8-1",
                "PID--8",
                "PID-+8",
                "PID-8,1",
                "-8",
                "PI-8",
                "PIDX-8",
                "P",
                "PID-1000",
                "PID-8.1000",
            ];
            words[1] = random.pick(&places).into();
        }
        40 => {
            words[2] = random
                .pick(&[
                    "REQUIRE",
                    "REQUIREDX",
                    "required",
                    "Date",
                    "TIMES",
                    "CODES",
                    "1",
                    "SINCE-BIRTH",
                    "UNTIL",
                    "E",
                    "INT",
                ])
                .into()
        }
        41 if words[0] == b"use" => words[2] = bad_severity(random),
        41 => words[3] = bad_severity(random),
        _ => bad_bound(random, words),
    }
}

fn bad_severity(random: &mut Random) -> Word {
    random.pick(&["e", "EE", "A", "0", "EW", "Error", "-"]).into()
}

/// Another kind where that one stands alone, and a bound that does not fit.
fn bad_bound(random: &mut Random, words: &mut Vec<Word>) {
    let bounds = [
        "REQUIRED 1",
        "NUMBER 1",
        "DATE 8",
        "DATE 8 8",
        "LENGTH",
        "LENGTH 1",
        "LENGTH 0 1",
        "LENGTH 2 1",
        "LENGTH 01 2",
        "LENGTH 1 256",
        "LENGTH 1 1000",
        "LENGTH 1 02",
        "LENGTH 1 +2",
        "LENGTH 256 257",
        "LENGTH s s",
        "TIME",
        "TIME 0",
        "TIME 5",
        "TIME 08",
        "TIME 16",
        "TIME 8 8",
        "TIME 264",
        "CODE",
        "CODE s s",
    ];
    let in_place = words[0] == b"bound";
    let bound = loop {
        let bound = random.pick(&bounds);
        // A `bound` without one has too few words.
        if !in_place || bound.contains(' ') {
            break bound;
        }
    };
    let mut bound = bound.split(' ').map(Word::from);
    words.truncate(if in_place { 3 } else { 4 });
    words.splice(2..3, bound.next());
    words.extend(bound);
}
