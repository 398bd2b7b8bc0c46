//! Books of two sources of which one is the other with a statement changed.

use super::drafts::{severity, Draft, Statement, HEADS};
use crate::booktext;
use crate::cases::{near, Random};

/// Both sources are sound, and their books have other bytes.
pub fn edited_books(random: &mut Random) -> [Vec<u8>; 2] {
    loop {
        let mut draft = Draft::sound(random);
        let old = book(random, &draft);
        edit(random, &mut draft);
        let new = book(random, &draft);
        if let (Some(old), Some(new)) = (old, new) {
            if old != new {
                return [old, new];
            }
        }
    }
}

fn book(random: &mut Random, draft: &Draft) -> Option<Vec<u8>> {
    booktext::compiled(&draft.text(random)).ok().map(|compiled| compiled.book)
}

/// A statement is another one, goes, or changes places with the next.
fn edit(random: &mut Random, draft: &mut Draft) {
    let at = random.between(1, draft.statements.len() - 1);
    match random.below(6) {
        0 if !draft.statements[at].is(&HEADS) => drop(draft.statements.remove(at)),
        1 if at + 1 < draft.statements.len() => draft.statements.swap(at, at + 1),
        _ => reword(random, &mut draft.statements[at]),
    }
}

fn reword(random: &mut Random, statement: &mut Statement) {
    let words = &mut statement.words;
    let last = words.len() - 1;
    match words[0].as_slice() {
        b"rule" | b"also" | b"severity" => words[3] = severity(random),
        b"bound" if words[2] == b"TIME" => words[3] = random.pick(&["4", "8", "14"]).into(),
        b"bound" if words[2] == b"LENGTH" => words[4] = b"255".into(),
        b"use" if last == 1 => words.push(severity(random)),
        b"set" | b"code" | b"more" | b"less" | b"section" if last > 0 => words[last] = near::word(random),
        _ => {}
    }
}
