//! What is wrong with names or with a section as a whole: rows 43 to 54, and 56.

use super::super::changes::{changed, further, of_kind};
use super::super::drafts::{rule, rule_of_kind, severity, using, Draft, Statement, Word, HEADS};
use super::super::state::State;
use super::statements::insert_statement;
use crate::cases::{near, Random};
use std::ops::Range;

/// A set, common or section whose name or key stands.
pub fn twice(random: &mut Random, draft: &mut Draft) {
    let heads: Vec<Statement> = draft.statements.iter().filter(|statement| statement.is(&HEADS)).cloned().collect();
    let mut head = match heads.len() {
        0 => {
            let head = Statement::of(random.pick(&["set q", "common q"]));
            draft.insert_page(random, vec![head.clone()]);
            head
        }
        count => heads[random.below(count)].clone(),
    };
    head.words.truncate(2);
    draft.insert_page(random, vec![head]);
}

pub fn more_sections(random: &mut Random, draft: &mut Draft, count: usize) {
    for number in draft.pages("section").len()..count {
        let head = Statement::of(&format!("section more-{number}"));
        draft.insert_page(random, vec![head]);
    }
}

pub fn unnamed(random: &mut Random, draft: &mut Draft) {
    let sets: Vec<Word> = names(draft, "set");
    let known =
        |random: &mut Random| if sets.is_empty() { b"q".to_vec() } else { sets[random.below(sets.len())].clone() };
    // Near to names that may stand.
    let name: Word = random.pick(&["q", "s ", "sss", "A1", "nationalx", "none"]).trim().repeat(3).into();
    let statement = match random.below(6) {
        0 => using(random, &name),
        1 => {
            let mut statement = Statement::new([b"sets".to_vec(), known(random), name]);
            if random.one_in(2) {
                statement.words.push(known(random));
            }
            statement
        }
        2 => Statement::new([random.pick(&["more", "less"]).into(), name, b"x".to_vec()]),
        3 => Statement::new([b"bound".to_vec(), b"PID-3".into(), b"CODE".into(), name]),
        _ => Statement::new([b"rule".to_vec(), b"PID-3".into(), b"CODE".into(), severity(random), name]),
    };
    insert_statement(random, draft, statement);
}

fn names(draft: &Draft, head: &str) -> Vec<Word> {
    draft.pages(head).iter().map(|page| draft.statements[page.start].words[1].clone()).collect()
}

/// A section that is there or a new one.
pub fn any_section(random: &mut Random, draft: &mut Draft) -> Range<usize> {
    loop {
        match draft.page(random, "section") {
            Some(page) => return page,
            None => draft.insert_page(random, vec![Statement::of("section q")]),
        }
    }
}

pub fn used_twice(random: &mut Random, draft: &mut Draft) {
    let name = format!("twice{}", draft.statements.len());
    let mut page = vec![Statement::of(&format!("common {name}"))];
    page.extend((0..random.below(3)).map(|_| rule(random, &[])));
    draft.insert_page(random, page);
    let page = any_section(random, draft);
    let (one, other) = (using(random, name.as_bytes()), using(random, name.as_bytes()));
    draft.insert_into(random, page.clone(), vec![one]);
    draft.insert_into(random, page.start..page.end + 1, vec![other]);
}

/// What a section has after all its statements.
fn state(draft: &Draft, page: Range<usize>) -> State {
    let sets = draft.pages("set").into_iter().map(|page| &draft.statements[page]);
    let mut state = State::of_sets(sets);
    for statement in &draft.statements[page] {
        if statement.is(&["use"]) {
            let commons = draft.pages("common").into_iter();
            let named = commons.filter(|page| draft.statements[page.start].words[1] == statement.words[1]);
            for included in named.flat_map(|page| &draft.statements[page.start + 1..page.end]) {
                state.apply(included);
            }
        } else {
            state.apply(statement);
        }
    }
    state
}

/// A rule that the section has already, as `rule` again, sometimes by a common.
pub fn standing_rule(random: &mut Random, draft: &mut Draft) {
    let page = any_section(random, draft);
    let rules = state(draft, page.clone()).rules;
    let mut again = match rules.len() {
        0 => vec![Statement::of("rule PID-3 DATE E"); 2],
        count => {
            let ruled = &rules[random.below(count)];
            vec![of_kind(random, ruled, &names(draft, "set"))]
        }
    };
    if random.one_in(4) {
        // Taken back and said twice again.
        let rule = again[0].clone();
        let at = again.len() - 1;
        again.splice(at..at, [changed(&rule, "drop"), rule]);
    }
    insert_by_hand_or_common(random, draft, page.start, again);
}

/// At the end of a section, or by a common that it uses there.
fn insert_by_hand_or_common(random: &mut Random, draft: &mut Draft, start: usize, some: Vec<Statement>) {
    let end = draft.pages("section").into_iter().find(|page| page.start == start).map_or(start + 1, |page| page.end);
    if random.one_in(2) {
        draft.statements.splice(end..end, some);
        return;
    }
    let name = format!("by{}", draft.statements.len());
    draft.statements.insert(end, using(random, name.as_bytes()));
    let mut page = vec![Statement::of(&format!("common {name}"))];
    page.extend(some);
    draft.insert_page(random, page);
}

/// A further rule or a change of a place and kind that has none, none yet or none any more.
pub fn nothing_to_change(random: &mut Random, draft: &mut Draft) {
    let page = any_section(random, draft);
    let state = state(draft, page.clone());
    let rule = loop {
        let kind = random.pick(&[1, 2, 3, 4, 5]);
        let rule = rule_of_kind(random, kind, &[]);
        if !state.has(&rule) {
            break rule;
        }
    };
    let change = match random.pick(&["also", "severity", "bound", "drop"]) {
        "also" => further(&rule),
        "bound" if rule.words.len() == 4 => changed(&rule, "severity"),
        verb => changed(&rule, verb),
    };
    let some = match random.below(4) {
        0 => vec![change, rule],
        1 => vec![rule.clone(), changed(&rule, "drop"), change],
        _ => vec![change],
    };
    insert_by_hand_or_common(random, draft, page.start, some);
}

/// A `more` of a code that the set has, or a `less` of one that it has not.
pub fn wrong_codes(random: &mut Random, draft: &mut Draft) {
    if draft.pages("set").is_empty() {
        draft.insert_page(random, vec![Statement::of("set q x")]);
    }
    let page = any_section(random, draft);
    let sets = state(draft, page.clone()).sets;
    let (name, codes) = &sets[random.below(sets.len())];
    let other = loop {
        let word = near::word(random);
        if !codes.contains(&word) {
            break word;
        }
    };
    let mut some = vec![other];
    let verb = if codes.is_empty() || random.one_in(2) { "less" } else { "more" };
    // In a line with a code that fits.
    if !codes.is_empty() && (verb == "more" || random.one_in(2)) {
        let at = random.below(2);
        some.insert(at, codes[random.below(codes.len())].clone());
    }
    let statement = Statement::new([&[verb.into(), name.clone()], some.as_slice()].concat());
    insert_by_hand_or_common(random, draft, page.start, vec![statement]);
}

/// A change of a set that the section does not hold, or holds no more; its codes fit or not.
pub fn idle_change(random: &mut Random, draft: &mut Draft, fits: bool) {
    let stamp = draft.statements.len();
    draft.insert_page(random, vec![Statement::of(&format!("set idle{stamp} x y"))]);
    draft.insert_page(random, vec![Statement::of(&format!("set held{stamp} x"))]);
    let (verb, code) = match (random.pick(&["more", "less"]), fits) {
        ("more", true) => ("more", "z"),
        ("more", false) => ("more", "x"),
        (verb, true) => (verb, "y"),
        (verb, false) => (verb, "z"),
    };
    let change = format!("{verb} idle{stamp} {code}");
    let rule = format!("rule RXR-55.5 CODE E idle{stamp}");
    let lines = match random.below(4) {
        0 => vec![rule, change, format!("bound RXR-55.5 CODE held{stamp}")],
        1 => vec![rule, change, "drop RXR-55.5 CODE".into()],
        _ => vec![change],
    };
    let page = any_section(random, draft);
    draft.insert_into(random, page, lines.iter().map(|line| Statement::of(line)).collect());
}

/// 257 rules of a new place.
pub fn many_rules(random: &mut Random, draft: &mut Draft) {
    let page = any_section(random, draft);
    let mut rules = vec![Statement::of("rule RXR-77.7 DATE E")];
    rules.extend(vec![Statement::of("also RXR-77.7 DATE W"); random.pick(&[256, 257, 300])]);
    draft.insert_into(random, page, rules);
}

fn pin(random: &mut Random, draft: &mut Draft, names: &[String]) {
    let page = any_section(random, draft);
    let words = ["sets"].into_iter().chain(names.iter().map(String::as_str));
    draft.insert_into(random, page, vec![Statement::new(words)]);
}

pub fn many_sets(random: &mut Random, draft: &mut Draft) {
    let stamp = draft.statements.len();
    let count = random.pick(&[65, 66, 255, 256, 257, 300]);
    let names: Vec<String> = (0..count).map(|number| format!("many{stamp}-{number}")).collect();
    for name in &names {
        draft.insert_page(random, vec![Statement::of(&format!("set {name} x"))]);
    }
    pin(random, draft, &names);
}

/// A set with no code or too many, as it stands or by changes.
pub fn wrong_set(random: &mut Random, draft: &mut Draft) {
    let name = format!("wrong{}", draft.statements.len());
    let (count, changes) = match random.below(5) {
        0 | 1 => (random.pick(&[0, 0, 1_025, 1_026, 2_048]), vec![]),
        2 => (random.pick(&[1, 2, 1_025]), vec![format!("less {name} x")]),
        3 => (1, vec![format!("more {name} y"), format!("less {name} x y")]),
        _ => (1_020, vec![format!("more {name} y y y y"), format!("more {name} z")]),
    };
    draft.insert_page(random, vec![Statement::of(&format!("set {name}{}", " x".repeat(count)))]);
    let held = random.pick(&["rule RXR-88.8 CODE E", "sets"]);
    let mut some = vec![Statement::of(&format!("{held} {name}"))];
    some.extend(changes.iter().map(|line| Statement::of(line)));
    let page = any_section(random, draft);
    draft.insert_into(random, page, some);
}

pub fn large_sets(random: &mut Random, draft: &mut Draft) {
    let stamp = draft.statements.len();
    let names: Vec<String> = (0..4).map(|number| format!("large{stamp}-{number}")).collect();
    for name in &names {
        draft.insert_page(random, vec![Statement::of(&format!("set {name}{}", " 12345678901234567890".repeat(1_024)))]);
    }
    // In one section or in two of them.
    let cut = random.pick(&[0, 0, 1, 2]);
    let (some, others) = names.split_at(cut);
    if !some.is_empty() {
        pin(random, draft, some);
    }
    pin(random, draft, others);
    if cut > 0 {
        pin(random, draft, &names);
    }
}

/// 2,049 statements, by hand or by a common.
pub fn many_statements(random: &mut Random, draft: &mut Draft) {
    let name = format!("pinned{}", draft.statements.len());
    let page = vec![Statement::of(&format!("set {name} x"))];
    draft.insert_page(random, page);
    let page = any_section(random, draft);
    if random.one_in(2) {
        let count = random.pick(&[2_049, 2_050]);
        draft.insert_into(random, page, vec![Statement::of(&format!("sets {name}")); count]);
        return;
    }
    let mut common = vec![Statement::of(&format!("common {name}")), Statement::of("rule RXR-66.6 DATE E")];
    common.extend(vec![Statement::of("also RXR-66.6 DATE W"); 2_047]);
    let statement = using(random, name.as_bytes());
    draft.insert_into(random, page, vec![statement]);
    draft.insert_page(random, common);
}
