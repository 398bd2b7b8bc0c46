//! One fault for each row, put into a source that is not refused, and two of them where they meet in one statement.

mod sections;
mod statements;

use super::drafts::{Draft, Statement};
use crate::booktext::TEXT_LIMIT;
use crate::cases::Random;
use sections::{any_section, more_sections};
use statements::{bad_key, insert_statement, spoil_rule, verb_for, worded};

/// Row 44 has two conditions; this one stands for a source without sections.
pub const NO_SECTION: u8 = 244;
/// All rows in the order in which they are tried.
pub const ROWS: [u8; 27] = [
    31, 32, 33, 34, 35, 36, 37, 38, 39, 40, 41, 42, 43, 44, 45, NO_SECTION, 46, 56, 47, 48, 49, 50, 51, 52, 53, 54, 55,
];
/// Those that are about one section.
pub const OF_SECTIONS: [u8; 10] = [46, 56, 47, 48, 49, 50, 51, 52, 53, 54];

/// The number that is told for a row.
pub fn number_of(row: u8) -> u8 {
    if row == NO_SECTION {
        44
    } else {
        row
    }
}

/// Each two rows that can hold together, the earlier one first. Of a text that is too long nothing else is looked at,
/// so that a few are enough.
pub fn pairs() -> Vec<(u8, u8)> {
    let all = ROWS.iter().enumerate().flat_map(|(at, earlier)| ROWS[at + 1..].iter().map(|later| (*earlier, *later)));
    let possible = |(earlier, later): &(u8, u8)| match *earlier {
        31 => [32, 33, NO_SECTION, 54, 55].contains(later),
        44 => *later != NO_SECTION,
        NO_SECTION => !OF_SECTIONS.contains(later),
        _ => true,
    };
    all.filter(possible).collect()
}

/// Makes the condition of a row true, those of bytes and of the output excepted.
pub fn put(random: &mut Random, draft: &mut Draft, row: u8) {
    match row {
        33 => statements::unknown(random, draft),
        34 => statements::misplaced(random, draft),
        35 => statements::miscounted(random, draft),
        36 => draft.statements[0].words[1] = random.pick(&["0", "2", "01", "1.", "11", "one"]).into(),
        37 => {
            let words = [b"section".to_vec(), bad_key(random)];
            draft.insert_page(random, vec![Statement::new(words)]);
        }
        38 => statements::bad_code(random, draft),
        39..=42 => statements::bad_rule(random, draft, row),
        43 => sections::twice(random, draft),
        44 => more_sections(random, draft, 65),
        45 => sections::unnamed(random, draft),
        NO_SECTION => {
            while let Some(page) = draft.pages("section").first() {
                draft.statements.drain(page.clone());
            }
        }
        46 => sections::used_twice(random, draft),
        47 => sections::standing_rule(random, draft),
        48 => sections::nothing_to_change(random, draft),
        49 => sections::wrong_codes(random, draft),
        50 => sections::many_rules(random, draft),
        51 => sections::many_sets(random, draft),
        52 => sections::idle_change(random, draft, true),
        53 => sections::wrong_set(random, draft),
        54 => sections::large_sets(random, draft),
        _ => sections::many_statements(random, draft),
    }
}

/// Rows 31 and 32, of the text as it is written.
pub fn put_bytes(random: &mut Random, text: &mut Vec<u8>, row: u8) {
    if row == 31 {
        let length = TEXT_LIMIT + random.pick(&[1, 1, 2, 1_000]);
        text.push(random.letter(b"\n|"));
        text.resize(length.max(text.len()), random.letter(b"\n |x"));
    } else {
        for _ in 0..random.pick(&[1, 1, 2]) {
            let at = random.below(text.len() + 1);
            text.insert(at, random.letter(b"\0\x01\x08\x0B\x0C\x0E\x1B\x1F\x7F\x80\xA0\xC3\xFF"));
        }
    }
}

/// Makes both rows hold for one statement; says whether that can be.
pub fn put_in_one(random: &mut Random, draft: &mut Draft, (earlier, later): (u8, u8)) -> bool {
    let both = |rows: &[u8]| rows.contains(&earlier) && rows.contains(&later);
    if (earlier, later) == (43, 44) {
        more_sections(random, draft, 64);
        let page = any_section(random, draft);
        let mut head = draft.statements[page.start].clone();
        head.words.truncate(2);
        draft.statements.push(head);
    } else if both(&[34, 35, 39, 40, 41, 42]) {
        let verb = verb_for(random, &[earlier, later]);
        let mut statement = worded(random, verb);
        // The bound first, since it brings a kind of its own.
        for row in [42, 41, 40, 39, 35].into_iter().filter(|row| [earlier, later].contains(row)) {
            spoil_rule(random, &mut statement, row);
        }
        if earlier == 34 {
            draft.insert_page(random, vec![Statement::of("set q x"), statement]);
        } else {
            insert_statement(random, draft, statement);
        }
    } else if both(&[35, 36]) {
        draft.statements[0] = Statement::of(random.pick(&["book 2 1", "book 1 2", "book 2 2 2"]));
    } else if both(&[34, 36]) {
        let at = random.between(1, draft.statements.len());
        draft.statements.insert(at, Statement::of(random.pick(&["book 2", "book 0"])));
    } else if both(&[34, 37]) {
        draft.statements.insert(0, Statement::new([b"section".to_vec(), bad_key(random)]));
    } else if both(&[35, 37]) {
        let words = [b"section".to_vec(), bad_key(random), b"A".into()];
        draft.insert_page(random, vec![Statement::new(words)]);
    } else if both(&[34, 38]) && random.one_in(2) {
        let page = any_section(random, draft);
        let words = [b"code".to_vec(), bad_key(random)];
        draft.insert_into(random, page, vec![Statement::new(words)]);
    } else if both(&[34, 38]) {
        let words = [random.pick(&["more", "less"]).into(), b"q".to_vec(), bad_key(random)];
        draft.insert_page(random, vec![Statement::of("set q x"), Statement::new(words)]);
    } else if both(&[38, 45]) {
        let words = [random.pick(&["more", "less"]).into(), b"none".to_vec(), bad_key(random)];
        insert_statement(random, draft, Statement::new(words));
    } else if both(&[49, 52]) {
        sections::idle_change(random, draft, false);
    } else {
        return false;
    }
    true
}
