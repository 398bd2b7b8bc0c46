//! Statements, and what can be wrong with one of them by itself: rows 33 to 42.

use super::lines::Line;
use super::words::{self, Bound, KindName, Spot, Word};
use super::Told;
use crate::book::Severity;
use std::ops::RangeInclusive;

/// A statement for which none of rows 33 to 42 holds.
pub struct Statement<'t> {
    pub line: usize,
    pub says: Says<'t>,
    pub people: &'t [u8],
}

pub enum Says<'t> {
    Book,
    Set { name: Word<'t>, codes: Vec<Word<'t>> },
    Code { codes: Vec<Word<'t>> },
    Common { name: Word<'t> },
    Section { key: Word<'t> },
    Use { name: Word<'t>, severity: Option<Severity> },
    Rule(Rule<'t>),
    Severity { spot: Spot, severity: Severity },
    Bound { spot: Spot, bounded: Bounded<'t> },
    Drop { spot: Spot },
    More { name: Word<'t>, codes: Vec<Word<'t>> },
    Less { name: Word<'t>, codes: Vec<Word<'t>> },
    Sets { names: Vec<Word<'t>> },
}

/// What `rule` and `also` say.
pub struct Rule<'t> {
    /// Whether it is an `also`.
    pub further: bool,
    pub spot: Spot,
    pub severity: Severity,
    pub bounded: Bounded<'t>,
    /// Place and kind as they are written.
    pub place_word: Word<'t>,
    pub kind_word: Word<'t>,
}

/// A bound, and its words as they are written.
pub struct Bounded<'t> {
    pub bound: Bound<'t>,
    pub words: Vec<Word<'t>>,
}

#[derive(Clone, Copy, PartialEq, Eq)]
enum Verb {
    Book,
    Set,
    Code,
    Common,
    Section,
    Use,
    Rule,
    Also,
    Severity,
    Bound,
    Drop,
    More,
    Less,
    Sets,
}

/// What a statement stands in: the last head before it.
#[derive(Clone, Copy, PartialEq, Eq)]
enum Inside {
    Nothing,
    Book,
    Set,
    Common,
    Section,
}

impl Verb {
    fn of(word: Word) -> Option<Verb> {
        Some(match word {
            b"book" => Verb::Book,
            b"set" => Verb::Set,
            b"code" => Verb::Code,
            b"common" => Verb::Common,
            b"section" => Verb::Section,
            b"use" => Verb::Use,
            b"rule" => Verb::Rule,
            b"also" => Verb::Also,
            b"severity" => Verb::Severity,
            b"bound" => Verb::Bound,
            b"drop" => Verb::Drop,
            b"more" => Verb::More,
            b"less" => Verb::Less,
            b"sets" => Verb::Sets,
            _ => return None,
        })
    }

    fn may_stand(self, inside: Inside) -> bool {
        match self {
            Verb::Book => inside == Inside::Nothing,
            Verb::Set | Verb::Common | Verb::Section => inside != Inside::Nothing,
            Verb::Code => inside == Inside::Set,
            Verb::Use | Verb::Sets => inside == Inside::Section,
            Verb::Rule | Verb::Also | Verb::Severity | Verb::Bound | Verb::Drop | Verb::More | Verb::Less => {
                matches!(inside, Inside::Common | Inside::Section)
            }
        }
    }

    /// How many words a statement has, the verb counted.
    fn word_counts(self) -> RangeInclusive<usize> {
        match self {
            Verb::Book | Verb::Common | Verb::Section => 2..=2,
            Verb::Set | Verb::Code | Verb::Sets => 2..=usize::MAX,
            Verb::Use => 2..=3,
            Verb::Drop => 3..=3,
            Verb::More | Verb::Less => 3..=usize::MAX,
            Verb::Severity => 4..=4,
            Verb::Bound => 4..=5,
            Verb::Rule | Verb::Also => 4..=6,
        }
    }

    /// What the statements after this one stand in.
    fn begins(self) -> Option<Inside> {
        match self {
            Verb::Book => Some(Inside::Book),
            Verb::Set => Some(Inside::Set),
            Verb::Common => Some(Inside::Common),
            Verb::Section => Some(Inside::Section),
            _ => None,
        }
    }
}

/// All statements, or the first of the refusals 33 to 42.
pub fn read(lines: Vec<Line<'_>>) -> Result<Vec<Statement<'_>>, Told> {
    let mut inside = Inside::Nothing;
    let mut statements = Vec::with_capacity(lines.len());
    for Line { number, words, people } in lines {
        let verb = found(&words, inside).map_err(|row| Told::at(row, number))?;
        let says = said(verb, &words[1..]).map_err(|row| Told::at(row, number))?;
        statements.push(Statement { line: number, says, people });
        inside = verb.begins().unwrap_or(inside);
    }
    Ok(statements)
}

/// Rows 33 to 35.
fn found(words: &[Word], inside: Inside) -> Result<Verb, u8> {
    let verb = Verb::of(words[0]).ok_or(33)?;
    if !verb.may_stand(inside) {
        return Err(34);
    }
    if !verb.word_counts().contains(&words.len()) {
        return Err(35);
    }
    Ok(verb)
}

/// Rows 36 to 42; the words are those after the verb, and as many as it takes.
fn said<'t>(verb: Verb, words: &[Word<'t>]) -> Result<Says<'t>, u8> {
    let first = words[0];
    Ok(match verb {
        Verb::Book if first != b"1" => return Err(36),
        Verb::Book => Says::Book,
        Verb::Set => Says::Set { name: first, codes: codes(&words[1..])? },
        Verb::Code => Says::Code { codes: codes(words)? },
        Verb::Common => Says::Common { name: first },
        Verb::Section if !words::is_key(first) => return Err(37),
        Verb::Section => Says::Section { key: first },
        Verb::Use => Says::Use { name: first, severity: words.get(1).map(|word| severity(word)).transpose()? },
        Verb::Rule | Verb::Also => Says::Rule(rule(verb == Verb::Also, words)?),
        Verb::Severity => Says::Severity { spot: spot(words)?, severity: severity(words[2])? },
        Verb::Bound => {
            let spot = spot(words)?;
            Says::Bound { spot, bounded: bounded(spot.kind, &words[2..])? }
        }
        Verb::Drop => Says::Drop { spot: spot(words)? },
        Verb::More => Says::More { name: first, codes: codes(&words[1..])? },
        Verb::Less => Says::Less { name: first, codes: codes(&words[1..])? },
        Verb::Sets => Says::Sets { names: words.to_vec() },
    })
}

fn codes<'t>(words: &[Word<'t>]) -> Result<Vec<Word<'t>>, u8> {
    if words.iter().all(|word| words::is_key(word)) {
        Ok(words.to_vec())
    } else {
        Err(38)
    }
}

fn rule<'t>(further: bool, words: &[Word<'t>]) -> Result<Rule<'t>, u8> {
    let spot = spot(words)?;
    let severity = severity(words[2])?;
    let bounded = bounded(spot.kind, &words[3..])?;
    Ok(Rule { further, spot, severity, bounded, place_word: words[0], kind_word: words[1] })
}

/// Rows 39 and 40, of the first two words.
fn spot(words: &[Word]) -> Result<Spot, u8> {
    let place = words::place(words[0]).ok_or(39)?;
    let kind = words::kind_name(words[1]).ok_or(40)?;
    Ok(Spot { place, kind })
}

fn severity(word: Word) -> Result<Severity, u8> {
    words::severity(word).ok_or(41)
}

fn bounded<'t>(kind: KindName, words: &[Word<'t>]) -> Result<Bounded<'t>, u8> {
    let bound = words::bound(kind, words).ok_or(42)?;
    Ok(Bounded { bound, words: words.to_vec() })
}
