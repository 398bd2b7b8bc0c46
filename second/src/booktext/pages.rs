//! Sets, commons and sections with what belongs to them: rows 43 to 45, and that there is a section.

use super::statements::{Rule, Says, Statement};
use super::words::{Bound, Word};
use super::Told;
use std::collections::{HashMap, HashSet};

const SECTIONS: usize = 64;

pub struct Set<'t> {
    pub line: usize,
    pub codes: Vec<Word<'t>>,
}

pub struct Section<'s, 't> {
    pub line: usize,
    pub key: Word<'t>,
    pub people: &'t [u8],
    pub body: &'s [Statement<'t>],
}

/// A text by its heads.
#[derive(Default)]
pub struct Pages<'s, 't> {
    pub sets: HashMap<Word<'t>, Set<'t>>,
    /// The statements of each common.
    pub commons: HashMap<Word<'t>, &'s [Statement<'t>]>,
    /// In the order of the text.
    pub sections: Vec<Section<'s, 't>>,
}

pub fn read<'s, 't>(statements: &'s [Statement<'t>]) -> Result<Pages<'s, 't>, Told> {
    let pages = gathered(statements);
    refuse(statements, &pages)?;
    if pages.sections.is_empty() {
        return Err(Told::at(44, 0));
    }
    Ok(pages)
}

/// Names may be given below the line that uses them, so all are gathered first. Of two equal names
/// either may be kept: the text is refused.
fn gathered<'s, 't>(statements: &'s [Statement<'t>]) -> Pages<'s, 't> {
    let mut pages = Pages::default();
    for (at, Statement { line, says, people }) in statements.iter().enumerate() {
        let body = || body(&statements[at + 1..]);
        match says {
            Says::Set { name, codes } => {
                let later = body().iter().flat_map(|statement| match &statement.says {
                    Says::Code { codes } => codes.as_slice(),
                    _ => &[],
                });
                let codes = codes.iter().chain(later).copied().collect();
                pages.sets.insert(name, Set { line: *line, codes });
            }
            Says::Common { name } => drop(pages.commons.insert(name, body())),
            Says::Section { key } => pages.sections.push(Section { line: *line, key, people, body: body() }),
            _ => {}
        }
    }
    pages
}

/// The statements up to the next head.
fn body<'s, 't>(after: &'s [Statement<'t>]) -> &'s [Statement<'t>] {
    let end = after.iter().position(|statement| {
        matches!(statement.says, Says::Book | Says::Set { .. } | Says::Common { .. } | Says::Section { .. })
    });
    &after[..end.unwrap_or(after.len())]
}

/// Rows 43 to 45 in one pass.
fn refuse(statements: &[Statement], pages: &Pages) -> Result<(), Told> {
    let (mut sets, mut commons, mut keys) = (HashSet::new(), HashSet::new(), HashSet::new());
    for Statement { line, says, .. } in statements {
        let row = match says {
            Says::Set { name, .. } => (!sets.insert(*name)).then_some(43),
            Says::Common { name } => (!commons.insert(*name)).then_some(43),
            Says::Section { key } if !keys.insert(*key) => Some(43),
            Says::Section { .. } => (keys.len() > SECTIONS).then_some(44),
            _ => (!names_are_given(says, pages)).then_some(45),
        };
        if let Some(row) = row {
            return Err(Told::at(row, *line));
        }
    }
    Ok(())
}

fn names_are_given(says: &Says, pages: &Pages) -> bool {
    let is_set = |name: Word| pages.sets.contains_key(name);
    match says {
        Says::Use { name, .. } => pages.commons.contains_key(name),
        Says::Sets { names } => names.iter().all(|name| is_set(name)),
        Says::More { name, .. } | Says::Less { name, .. } => is_set(name),
        Says::Rule(Rule { bounded, .. }) | Says::Bound { bounded, .. } => match bounded.bound {
            Bound::Code { set } => is_set(set),
            _ => true,
        },
        _ => true,
    }
}
