//! What each section holds, and what can be wrong with a section as a whole: rows 46 to 54, and 56.

use super::pages::{Pages, Section, Set};
use super::statements::{Bounded, Rule, Says, Statement};
use super::words::{Bound, Spot, Word};
use super::Told;
use crate::book::{Severity, BOOK_LIMIT};
use crate::books::{self, RuleBytes, SectionPlan};
use std::collections::{HashMap, HashSet};

const STATEMENTS: usize = 2_048;
const RULES: usize = 256;
const SETS: usize = 64;
const CODES: usize = 1_024;

/// All sections, and the book that they make.
pub struct Meaning<'p, 't> {
    pub contents: Vec<Contents<'p, 't>>,
    pub book: Vec<u8>,
}

pub struct Contents<'p, 't> {
    pub section: &'p Section<'p, 't>,
    included: Vec<Included<'p, 't>>,
    /// The first has number 1.
    pub rules: Vec<Made<'p, 't>>,
    /// The first has number 1.
    pub sets: Vec<Held<'t>>,
}

/// A rule as it is after the statements that follow it.
pub struct Made<'p, 't> {
    /// Which of the included statements makes it.
    at: usize,
    pub rule: &'p Rule<'t>,
    pub severity: Severity,
    pub bounded: &'p Bounded<'t>,
}

/// A set with the codes that it has in its section.
pub struct Held<'t> {
    name: Word<'t>,
    line: usize,
    codes: Vec<Word<'t>>,
}

/// A statement of a section after inclusion, with the severity that its `use` gives to a rule.
struct Included<'p, 't> {
    statement: &'p Statement<'t>,
    severity: Option<Severity>,
}

impl<'t> Contents<'_, 't> {
    /// The words for people of a rule and of what changed it later.
    pub fn people(&self, made: &Made) -> impl Iterator<Item = &'t [u8]> + '_ {
        let spot = made.rule.spot;
        let changes = self.included[made.at + 1..].iter().map(|included| included.statement);
        let changes = changes.filter(move |statement| match statement.says {
            Says::Severity { spot: of, .. } | Says::Bound { spot: of, .. } => of == spot,
            _ => false,
        });
        let own = self.included[made.at].statement;
        [own].into_iter().chain(changes).map(|statement| statement.people).filter(|people| !people.is_empty())
    }
}

pub fn read<'p, 't>(pages: &'p Pages<'p, 't>) -> Result<Meaning<'p, 't>, Told> {
    let mut meaning = Meaning { contents: Vec::new(), book: books::head(pages.sections.len()) };
    for section in &pages.sections {
        let contents = read_section(pages, section)?;
        books::encode_section(&plan(&contents), &mut meaning.book);
        if meaning.book.len() > BOOK_LIMIT {
            return Err(Told::within(54, section.line, section.line));
        }
        meaning.contents.push(contents);
    }
    Ok(meaning)
}

/// A section's contents, or the first of its refusals but 54.
fn read_section<'p, 't>(pages: &'p Pages<'p, 't>, section: &'p Section<'p, 't>) -> Result<Contents<'p, 't>, Told> {
    let told = |(row, line): (u8, usize)| Told::within(row, line, section.line);
    refuse_uses(section).map_err(told)?;
    if included_count(pages, section) > STATEMENTS {
        return Err(told((56, section.line)));
    }
    let included = expand(pages, section);
    refuse_statements(pages, &included).map_err(told)?;
    let rules: Vec<Made> = (0..included.len()).filter_map(|at| made(&included, at)).collect();
    if rules.len() > RULES {
        return Err(told((50, section.line)));
    }
    let names = set_names(&included, &rules);
    if names.len() > SETS {
        return Err(told((51, section.line)));
    }
    refuse_idle_changes(&names, &included).map_err(told)?;
    let sets: Vec<Held> = names.into_iter().map(|name| held(name, set(pages, name), &included)).collect();
    if let Some(faulty) = sets.iter().find(|set| !(1..=CODES).contains(&set.codes.len())) {
        return Err(told((53, faulty.line)));
    }
    Ok(Contents { section, included, rules, sets })
}

fn set<'p, 't>(pages: &'p Pages<'_, 't>, name: Word) -> &'p Set<'t> {
    // Row 45 let only names pass that are given.
    &pages.sets[name]
}

/// Row 46.
fn refuse_uses(section: &Section) -> Result<(), (u8, usize)> {
    let mut used = HashSet::new();
    for statement in section.body {
        match statement.says {
            Says::Use { name, .. } if !used.insert(name) => return Err((46, statement.line)),
            _ => {}
        }
    }
    Ok(())
}

/// What row 56 counts.
fn included_count(pages: &Pages, section: &Section) -> usize {
    let brought = section.body.iter().map(|statement| match statement.says {
        Says::Use { name, .. } => pages.commons[name].len(),
        _ => 0,
    });
    section.body.len() + brought.sum::<usize>()
}

fn expand<'p, 't>(pages: &'p Pages<'p, 't>, section: &'p Section<'p, 't>) -> Vec<Included<'p, 't>> {
    let mut included = Vec::new();
    for statement in section.body {
        match statement.says {
            Says::Use { name, severity } => {
                included.extend(pages.commons[name].iter().map(|statement| Included { statement, severity }));
            }
            _ => included.push(Included { statement, severity: None }),
        }
    }
    included
}

/// Rows 47 to 49: each statement is judged by those before it.
fn refuse_statements<'t>(pages: &Pages<'_, 't>, included: &[Included<'_, 't>]) -> Result<(), (u8, usize)> {
    let mut codes = CodesSoFar { pages, sets: HashMap::new() };
    for (at, Included { statement, .. }) in included.iter().enumerate() {
        let stands = |spot: Spot| stands(&included[..at], spot);
        let row = match &statement.says {
            Says::Rule(Rule { further: false, spot, .. }) => stands(*spot).then_some(47),
            Says::Rule(Rule { spot, .. })
            | Says::Severity { spot, .. }
            | Says::Bound { spot, .. }
            | Says::Drop { spot } => (!stands(*spot)).then_some(48),
            Says::More { name, codes: more } => (!codes.add(name, more)).then_some(49),
            Says::Less { name, codes: less } => (!codes.take(name, less)).then_some(49),
            _ => None,
        };
        if let Some(row) = row {
            return Err((row, statement.line));
        }
    }
    Ok(())
}

/// Whether these statements leave a rule of this place and kind.
fn stands(before: &[Included], spot: Spot) -> bool {
    let last = before.iter().rev().find_map(|included| match &included.statement.says {
        Says::Rule(rule) if rule.spot == spot => Some(true),
        Says::Drop { spot: of } if *of == spot => Some(false),
        _ => None,
    });
    last.unwrap_or(false)
}

/// The codes of each set that was changed, after the statements so far.
struct CodesSoFar<'p, 't> {
    pages: &'p Pages<'p, 't>,
    sets: HashMap<Word<'t>, HashSet<Word<'t>>>,
}

impl<'t> CodesSoFar<'_, 't> {
    fn of(&mut self, name: Word<'t>) -> &mut HashSet<Word<'t>> {
        let pages = self.pages;
        self.sets.entry(name).or_insert_with(|| set(pages, name).codes.iter().copied().collect())
    }

    /// Says whether none of them was there.
    fn add(&mut self, name: Word<'t>, codes: &[Word<'t>]) -> bool {
        let held = self.of(name);
        let fits = codes.iter().all(|code| !held.contains(code));
        held.extend(codes);
        fits
    }

    /// Says whether all of them were there.
    fn take(&mut self, name: Word<'t>, codes: &[Word<'t>]) -> bool {
        let held = self.of(name);
        let fits = codes.iter().all(|code| held.contains(code));
        for code in codes {
            held.remove(code);
        }
        fits
    }
}

/// The rule that a statement makes, judged by those after it; a later `drop` takes it back.
fn made<'p, 't>(included: &[Included<'p, 't>], at: usize) -> Option<Made<'p, 't>> {
    let Included { statement: Statement { says: Says::Rule(rule), .. }, severity } = &included[at] else {
        return None;
    };
    let severity = severity.unwrap_or(rule.severity);
    let mut made = Made { at, rule, severity, bounded: &rule.bounded };
    for Included { statement, .. } in &included[at + 1..] {
        match &statement.says {
            Says::Drop { spot } if *spot == rule.spot => return None,
            Says::Severity { spot, severity } if *spot == rule.spot => made.severity = *severity,
            Says::Bound { spot, bounded } if *spot == rule.spot => made.bounded = bounded,
            _ => {}
        }
    }
    Some(made)
}

/// Those pinned, then as the rules first name them; each once.
fn set_names<'t>(included: &[Included<'_, 't>], rules: &[Made<'_, 't>]) -> Vec<Word<'t>> {
    let pinned = included.iter().flat_map(|included| match &included.statement.says {
        Says::Sets { names } => names.as_slice(),
        _ => &[],
    });
    let named = rules.iter().filter_map(|made| match &made.bounded.bound {
        Bound::Code { set } => Some(set),
        _ => None,
    });
    let mut seen = HashSet::new();
    pinned.chain(named).copied().filter(|name| seen.insert(*name)).collect()
}

/// Row 52.
fn refuse_idle_changes(names: &[Word], included: &[Included]) -> Result<(), (u8, usize)> {
    for Included { statement, .. } in included {
        match statement.says {
            Says::More { name, .. } | Says::Less { name, .. } if !names.contains(&name) => {
                return Err((52, statement.line));
            }
            _ => {}
        }
    }
    Ok(())
}

/// The codes of the set, then those of each `more`, all without what a later `less` takes.
fn held<'t>(name: Word<'t>, set: &Set<'t>, included: &[Included<'_, 't>]) -> Held<'t> {
    let mut taken = HashSet::new();
    let mut parts = Vec::new();
    // From the end, so that what is taken later is known.
    for Included { statement, .. } in included.iter().rev() {
        match &statement.says {
            Says::Less { name: of, codes } if *of == name => taken.extend(codes),
            Says::More { name: of, codes } if *of == name => parts.push(kept(codes, &taken)),
            _ => {}
        }
    }
    parts.push(kept(&set.codes, &taken));
    Held { name, line: set.line, codes: parts.into_iter().rev().flatten().collect() }
}

fn kept<'t>(codes: &[Word<'t>], taken: &HashSet<&Word>) -> Vec<Word<'t>> {
    codes.iter().filter(|code| !taken.contains(code)).copied().collect()
}

fn plan(contents: &Contents) -> SectionPlan {
    let codes = |set: &Held| set.codes.iter().map(|code| code.to_vec()).collect();
    SectionPlan {
        key: contents.section.key.to_vec(),
        rules: contents.rules.iter().map(|made| rule_bytes(made, &contents.sets)).collect(),
        sets: contents.sets.iter().map(codes).collect(),
    }
}

fn rule_bytes(Made { rule, severity, bounded, .. }: &Made, sets: &[Held]) -> RuleBytes {
    let (kind, uses) = match bounded.bound {
        Bound::Required => (1, [0, 0, 0]),
        Bound::Length { low, high } => (2, [0, low, high]),
        Bound::Number => (3, [0, 0, 0]),
        Bound::Date => (4, [0, 0, 0]),
        Bound::Time { digits } => (5, [0, digits, 0]),
        Bound::Code { set } => {
            let before = sets.iter().take_while(|held| held.name != set).count();
            (6, [before as u8 + 1, 0, 0])
        }
    };
    let place = rule.spot.place;
    let [n0, n1, n2] = *place.name.bytes();
    let [set, low, high] = uses;
    [n0, n1, n2, place.field, place.component, kind, severity.letter()[0], set, low, high]
}

#[cfg(test)]
mod tests {
    use super::super::{lines, pages, statements};
    use super::*;

    #[test]
    fn codes_so_far_are_those_that_would_be_held() {
        let text = b"book 1\nset s a b a\ncommon c\nless s a\nmore s a d d\nsection A\nuse c\nless s d a\nmore s d e\n\
            less s b\nmore s b\nless s d e b\nmore s a\n";
        let statements = lines::read(text).and_then(statements::read).unwrap_or_else(|told| panic!("{told:?}"));
        let pages = pages::read(&statements).unwrap_or_else(|told| panic!("{told:?}"));
        let included = expand(&pages, &pages.sections[0]);
        let mut codes = CodesSoFar { pages: &pages, sets: HashMap::new() };
        for (at, Included { statement, .. }) in included.iter().enumerate() {
            let before = held(b"s", &pages.sets[b"s".as_slice()], &included[..at]).codes;
            assert_eq!(*codes.of(b"s"), before.into_iter().collect(), "{at}");
            assert!(match &statement.says {
                Says::More { name, codes: more } => codes.add(name, more),
                Says::Less { name, codes: less } => codes.take(name, less),
                _ => false,
            });
        }
        assert_eq!(held(b"s", &pages.sets[b"s".as_slice()], &included).codes, [b"a"]);
    }
}
