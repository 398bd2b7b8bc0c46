//! What a section has after some of its statements, as far as those that follow depend on it.

use super::drafts::{Statement, Word};

/// The place, kind and, of kind CODE, set of a rule.
#[derive(Clone)]
pub struct Ruled {
    pub place: Word,
    pub kind: Word,
    pub set: Option<Word>,
}

impl Ruled {
    fn is_of(&self, words: &[Word]) -> bool {
        self.place == words[1] && self.kind == words[2]
    }
}

/// Vectors, so that a choice among them depends on the seed alone.
#[derive(Clone, Default)]
pub struct State {
    pub rules: Vec<Ruled>,
    /// All sets of the source with their codes here.
    pub sets: Vec<(Word, Vec<Word>)>,
    pinned: Vec<Word>,
    changed: Vec<Word>,
}

impl State {
    /// Before any statement, by the source's sets; each is a head with its `code` lines.
    pub fn of_sets<'s>(pages: impl IntoIterator<Item = &'s [Statement]>) -> Self {
        let sets = pages.into_iter().map(|page| {
            let later = page[1..].iter().flat_map(|statement| &statement.words[1..]);
            (page[0].words[1].clone(), page[0].words[2..].iter().chain(later).cloned().collect())
        });
        State { sets: sets.collect(), ..State::default() }
    }

    pub fn has(&self, rule: &Statement) -> bool {
        self.rules.iter().any(|ruled| ruled.is_of(&rule.words))
    }

    /// Makes it a `rule` or an `also`, as it has to be here.
    pub fn suit(&self, rule: &mut Statement) {
        rule.words[0] = if self.has(rule) { b"also".into() } else { b"rule".into() };
    }

    pub fn codes(&self, name: &Word) -> &[Word] {
        self.sets.iter().find(|(of, _)| of == name).map_or(&[], |(_, codes)| codes)
    }

    /// Takes all of them over if none would be refused and no set is left with too few or too many codes.
    pub fn take_over(&mut self, statements: &[Statement]) -> bool {
        let mut after = self.clone();
        let fits = statements.iter().all(|statement| after.apply(statement));
        let fits = fits && after.changed.iter().all(|name| (1..=1_024).contains(&after.codes(name).len()));
        if fits {
            *self = after;
        }
        fits
    }

    /// Says whether the statement is none for 47 to 49.
    pub fn apply(&mut self, statement: &Statement) -> bool {
        let words = &statement.words;
        let stands = statement.is(&["rule", "also", "severity", "bound", "drop"]) && self.has(statement);
        match words[0].as_slice() {
            b"rule" | b"also" => {
                let set = (words[2] == b"CODE").then(|| words[4].clone());
                self.rules.push(Ruled { place: words[1].clone(), kind: words[2].clone(), set });
                stands == statement.is(&["also"])
            }
            b"severity" => stands,
            b"bound" => {
                let set = (words[2] == b"CODE").then(|| words[3].clone());
                self.rules.iter_mut().filter(|ruled| ruled.is_of(words)).for_each(|ruled| ruled.set = set.clone());
                stands
            }
            b"drop" => {
                self.rules.retain(|ruled| !ruled.is_of(words));
                stands
            }
            b"more" | b"less" => self.change_codes(statement.is(&["more"]), &words[1], &words[2..]),
            b"sets" => {
                self.pinned.extend(words[1..].iter().cloned());
                true
            }
            _ => true,
        }
    }

    fn change_codes(&mut self, more: bool, name: &Word, words: &[Word]) -> bool {
        self.changed.push(name.clone());
        let Some((_, codes)) = self.sets.iter_mut().find(|(of, _)| of == name) else {
            return false;
        };
        let fits = words.iter().all(|word| codes.contains(word) != more);
        if more {
            codes.extend(words.iter().cloned());
        } else {
            codes.retain(|code| !words.contains(code));
        }
        fits
    }

    /// The sets that were changed and are not held, each once.
    pub fn idle(&self) -> Vec<Word> {
        let mut idle: Vec<Word> = Vec::new();
        for name in &self.changed {
            let held = self.pinned.contains(name) || self.rules.iter().any(|ruled| ruled.set.as_ref() == Some(name));
            if !held && !idle.contains(name) {
                idle.push(name.clone());
            }
        }
        idle
    }
}
