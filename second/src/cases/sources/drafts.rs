//! Sound sources: statements as lists of words, and ways to write them down.

use super::changes::changes;
use super::state::State;
use crate::books::RuleBytes;
use crate::cases::{near, plans, Random};
use std::collections::HashSet;
use std::ops::Range;

pub type Word = Vec<u8>;

#[derive(Clone, Debug, PartialEq, Eq)]
pub struct Statement {
    pub words: Vec<Word>,
    /// What stands behind the bar, if there is one.
    pub people: Option<Vec<u8>>,
}

impl Statement {
    pub fn new<W: AsRef<[u8]>>(words: impl IntoIterator<Item = W>) -> Self {
        Statement { words: words.into_iter().map(|word| word.as_ref().to_vec()).collect(), people: None }
    }

    pub fn of(text: &str) -> Self {
        Statement::new(text.split(' '))
    }

    pub fn is(&self, verbs: &[&str]) -> bool {
        verbs.iter().any(|verb| self.words[0] == verb.as_bytes())
    }
}

/// The statements of a source; `book` is the first.
pub struct Draft {
    pub statements: Vec<Statement>,
}

pub const HEADS: [&str; 3] = ["set", "common", "section"];
/// Names that are near to each other, or to something else.
const NAMES: [&str; 14] =
    ["s", "S", "ss", "s1", "=RE", "0001-sex", "set", "common", "A", "1", "^", "a&b~c\\d", "national", "nationa"];

impl Draft {
    /// A source that is not refused.
    pub fn sound(random: &mut Random) -> Self {
        let count = if random.one_in(60) { 64 } else { random.pick(&[1, 1, 1, 2, 2, 3, 4, 7]) };
        Draft::of_sections(random, count)
    }

    pub fn of_sections(random: &mut Random, count: usize) -> Self {
        let sets: Vec<Word> = distinct(random, 6);
        let mut pages: Vec<Vec<Statement>> = sets.iter().map(|name| set(random, name)).collect();
        let bare = State::of_sets(pages.iter().map(Vec::as_slice));
        let commons = commons(random, &bare, &sets);
        pages.extend(commons.iter().map(Common::page));
        let mut keys = HashSet::new();
        while keys.len() < count {
            let key = near::word(random);
            if keys.insert(key.clone()) {
                pages.push(section(random, key, &commons, (&bare, &sets), count < 20));
            }
        }
        shuffle(random, &mut pages);
        let mut statements = vec![Statement::of("book 1")];
        statements.extend(pages.into_iter().flatten());
        let wordy = random.pick(&[1, 2, 4, 100]);
        for statement in &mut statements {
            statement.people = random.one_in(wordy).then(|| people(random));
        }
        Draft { statements }
    }

    /// Where the heads of one sort stand, each with its body.
    pub fn pages(&self, head: &str) -> Vec<Range<usize>> {
        let starts = (0..self.statements.len()).filter(|at| self.statements[*at].is(&[head]));
        starts.map(|start| start..self.end(start)).collect()
    }

    /// Where the body of a head ends.
    fn end(&self, start: usize) -> usize {
        let mut later = self.statements.iter().enumerate().skip(start + 1);
        later.find(|(_, statement)| statement.is(&HEADS)).map_or(self.statements.len(), |(at, _)| at)
    }

    pub fn page(&self, random: &mut Random, head: &str) -> Option<Range<usize>> {
        let pages = self.pages(head);
        (!pages.is_empty()).then(|| pages[random.below(pages.len())].clone())
    }

    /// Puts statements where a head may stand.
    pub fn insert_page(&mut self, random: &mut Random, page: Vec<Statement>) {
        let heads = (1..self.statements.len()).filter(|at| self.statements[*at].is(&HEADS));
        let places: Vec<usize> = heads.chain([self.statements.len()]).collect();
        let at = random.pick(&places);
        self.statements.splice(at..at, page);
    }

    /// Puts statements together somewhere into a body.
    pub fn insert_into(&mut self, random: &mut Random, page: Range<usize>, some: Vec<Statement>) {
        let at = random.between(page.start + 1, page.end);
        self.statements.splice(at..at, some);
    }

    /// The text, written with more or less care.
    pub fn text(&self, random: &mut Random) -> Vec<u8> {
        let style = Style::any(random);
        let mut text = Vec::new();
        for statement in &self.statements {
            style.idle(random, &mut text);
            style.write(random, &mut text, statement);
        }
        style.idle(random, &mut text);
        if random.one_in(3) {
            text.pop();
        }
        text
    }
}

/// Some names, none twice.
fn distinct(random: &mut Random, most: usize) -> Vec<Word> {
    let mut names: Vec<Word> = Vec::new();
    for _ in 0..random.below(most + 1) {
        let name = match random.below(8) {
            0 => near::word(random),
            1 => b"n".repeat(random.pick(&[20, 21, 70, 300])),
            _ => random.pick(&NAMES).into(),
        };
        if !names.contains(&name) {
            names.push(name);
        }
    }
    names
}

fn shuffle<T>(random: &mut Random, items: &mut [T]) {
    for at in (1..items.len()).rev() {
        items.swap(at, random.below(at + 1));
    }
}

/// A set with at least one code, on the head's line, on further ones or on both.
fn set(random: &mut Random, name: &Word) -> Vec<Statement> {
    let mut page = vec![Statement::new([b"set".to_vec(), name.clone()])];
    let count = if random.one_in(150) { 1_024 } else { random.pick(&[1, 1, 2, 3, 5, 17]) };
    let mut on_head = random.one_in(2);
    for _ in 0..count {
        let code = near::word(random);
        on_head &= !random.one_in(4);
        let same_line = on_head || (page.len() > 1 && !random.one_in(3));
        match page.last_mut() {
            Some(last) if same_line => last.words.push(code),
            _ => page.push(Statement::new([b"code".to_vec(), code])),
        }
    }
    page
}

struct Common {
    name: Word,
    statements: Vec<Statement>,
}

impl Common {
    fn page(&self) -> Vec<Statement> {
        let mut page = vec![Statement::new([b"common".to_vec(), self.name.clone()])];
        page.extend(self.statements.clone());
        page
    }
}

/// Mostly such that they can be used by themselves or after the one before.
fn commons(random: &mut Random, bare: &State, sets: &[Word]) -> Vec<Common> {
    let mut commons = Vec::new();
    let mut state = bare.clone();
    for name in distinct(random, 5) {
        if random.one_in(2) {
            state = bare.clone();
        }
        commons.push(common(random, name, &mut state, sets));
    }
    commons
}

fn common(random: &mut Random, name: Word, state: &mut State, sets: &[Word]) -> Common {
    let mut statements: Vec<Statement> = Vec::new();
    for _ in 0..random.pick(&[0, 1, 2, 3, 5, 8]) {
        let mut some = if random.one_in(4) { changes(random, state, sets) } else { Vec::new() };
        if some.is_empty() {
            let mut rule = rule(random, sets);
            state.suit(&mut rule);
            some.push(rule);
        }
        if random.one_in(30) {
            some = vec![rule(random, sets)];
        }
        if state.take_over(&some) || random.one_in(30) {
            statements.extend(some);
        }
    }
    Common { name, statements }
}

fn section(
    random: &mut Random,
    key: Word,
    commons: &[Common],
    (bare, sets): (&State, &[Word]),
    large: bool,
) -> Vec<Statement> {
    let mut page = vec![Statement::new([b"section".to_vec(), key])];
    let mut state = bare.clone();
    // Mostly in the order in which they go together.
    let mut unused: Vec<&Common> = commons.iter().rev().collect();
    if random.one_in(3) {
        shuffle(random, &mut unused);
    }
    let counts: &[usize] = if large { &[0, 1, 2, 4, 8, 20] } else { &[0, 1, 2] };
    for _ in 0..random.pick(counts) {
        match random.below(12) {
            0 if !sets.is_empty() => {
                let pinned = pinning(random, sets);
                state.apply(&pinned);
                page.push(pinned);
            }
            1..5 => {
                if let Some(common) = unused.pop().filter(|common| state.take_over(&common.statements)) {
                    page.push(using(random, &common.name));
                }
            }
            5..8 => {
                let some = changes(random, &state, sets);
                if state.take_over(&some) {
                    page.extend(some);
                }
            }
            _ => {
                let mut rule = rule(random, sets);
                state.suit(&mut rule);
                state.apply(&rule);
                page.push(rule);
            }
        }
    }
    let idle = state.idle();
    if !idle.is_empty() {
        let at = random.between(1, page.len());
        page.insert(at, Statement::new([b"sets".to_vec()].into_iter().chain(idle)));
    }
    page
}

fn pinning(random: &mut Random, sets: &[Word]) -> Statement {
    let count = random.between(1, 4);
    let names = (0..count).map(|_| sets[random.below(sets.len())].clone());
    Statement::new([b"sets".to_vec()].into_iter().chain(names))
}

pub fn using(random: &mut Random, name: &[u8]) -> Statement {
    let mut statement = Statement::new([b"use", name]);
    if random.one_in(3) {
        statement.words.push(severity(random));
    }
    statement
}

pub fn severity(random: &mut Random) -> Word {
    vec![random.letter(b"EWI")]
}

/// A `rule` for any place; its sets are of those given.
pub fn rule(random: &mut Random, sets: &[Word]) -> Statement {
    said(plans::rule(random, sets.len()), sets)
}

pub fn rule_of_kind(random: &mut Random, kind: u8, sets: &[Word]) -> Statement {
    said(plans::rule_of_kind(random, kind, sets.len()), sets)
}

/// The `rule` that makes these bytes.
fn said([n0, n1, n2, field, component, kind, severity, set, low, high]: RuleBytes, sets: &[Word]) -> Statement {
    let mut place = [n0, n1, n2, b'-'].to_vec();
    place.extend(field.to_string().bytes());
    if component > 0 {
        place.extend(format!(".{component}").bytes());
    }
    let (kind, bound) = match kind {
        1 => ("REQUIRED", vec![]),
        2 => ("LENGTH", vec![low.to_string().into(), high.to_string().into()]),
        3 => ("NUMBER", vec![]),
        4 => ("DATE", vec![]),
        5 => ("TIME", vec![low.to_string().into()]),
        _ => ("CODE", vec![sets[usize::from(set) - 1].clone()]),
    };
    let words = [b"rule".to_vec(), place, kind.into(), vec![severity]];
    Statement::new(words.into_iter().chain(bound))
}

/// Words for people, with blanks and bars where they matter.
fn people(random: &mut Random) -> Vec<u8> {
    let length = random.pick(&[0, 0, 1, 2, 5, 12, 40, 40, 300]);
    random.text(b"abcxyz019:; ,.-' \t\r|", length)
}

/// How a source is written down.
struct Style {
    /// What ends a line.
    end: &'static [u8],
    /// Of so many gaps one is odd.
    odd: usize,
    /// Of so many statements one has something before it that says nothing.
    idle: usize,
}

impl Style {
    fn any(random: &mut Random) -> Self {
        Style {
            end: random.pick(&[b"\n".as_slice(), b"\n", b"\n", b"\r\n", b" \r\n", b"\t\n"]),
            odd: random.pick(&[2, 10, 1_000]),
            idle: random.pick(&[3, 10, 1_000]),
        }
    }

    fn gap(&self, random: &mut Random, usual: &[u8], text: &mut Vec<u8>) {
        if random.one_in(self.odd) {
            let length = random.pick(&[1, 1, 2, 5, 30]);
            text.extend(random.text(b"   \t\r", length));
        } else {
            text.extend(usual);
        }
    }

    fn write(&self, random: &mut Random, text: &mut Vec<u8>, statement: &Statement) {
        for (at, word) in statement.words.iter().enumerate() {
            self.gap(random, if at == 0 { b"" } else { b" " }, text);
            text.extend(word);
        }
        if let Some(people) = &statement.people {
            self.gap(random, b" ", text);
            text.push(b'|');
            self.gap(random, b" ", text);
            text.extend(people);
        }
        text.extend(self.end);
    }

    /// Empty lines and remarks.
    fn idle(&self, random: &mut Random, text: &mut Vec<u8>) {
        while random.one_in(self.idle) {
            self.gap(random, b"", text);
            let remark = random.pick(&[b"".as_slice(), b"|", b"| a remark", b"|rule PID-3 DATE E", b"| a | b"]);
            text.extend(remark);
            text.extend(self.end);
        }
    }
}
