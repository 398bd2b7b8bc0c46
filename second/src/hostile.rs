//! Texts and pairs of books that are slow on purpose, for the benchmark: many names, long ways to what they name, and
//! many changes of many rules and codes.

use crate::books::{self, rule as rule_bytes, SectionPlan};

/// Each with what it holds. Most are of the length; those that have to be longer are left out.
pub fn texts(length: usize) -> Vec<(&'static str, String)> {
    let filled = |before: &str, unit: &str, after: &str| {
        let room = length.saturating_sub(before.len() + after.len());
        format!("{before}{}{after}", unit.repeat(room / unit.len()))
    };
    let half = |unit: &str| unit.repeat(length / 2 / unit.len());
    // A set, then a section that names it as often as there is room for.
    let named = |before: &str| filled(&format!("{before}set ~ x\n{SECTION}sets"), " ~", "");
    let commons_used = |count: usize, between: &str| {
        let (commons, uses) = (numbered("common #\n", count), numbered("use #\n", count));
        format!("{BOOK}{commons}{SECTION}{between}{uses}")
    };
    let many_sets = sets(length / 9);
    let in_64 = |statement: &str| format!("{BOOK}{}", numbered(&format!("section #\n{statement}\n"), 64));
    let mut texts = vec![
        ("blanks", filled(BOOK, " ", SECTION)),
        ("line feeds", filled(BOOK, "\n", SECTION)),
        ("one line of words for people", filled("book 1\nsection A | ", "x ", "")),
        ("blanks between two words for people", filled("book 1\nsection A | x", " ", "x")),
        ("a rule's words in 64 sections", filled(&(in_64("use c") + "common c\nrule PID-1 DATE E | "), "x ", "")),
        ("a rule behind blanks in 64 sections", filled(&(in_64("use c") + "common c\nrule"), " ", "PID-1 DATE E\n")),
        ("a common of line feeds in 64 sections", filled(&(in_64("use c") + "common c\n"), "\n", "")),
        ("a set with line feeds in 64 sections", filled(&(in_64("sets s") + "set s\n"), "\n", "code x")),
        ("codes on one line", filled("book 1\nsection A\nset s\ncode", " x", "")),
        ("codes on a line each", filled("book 1\nsection A\nset s\n", "code x\n", "")),
        ("64 sets of 1,024 codes, two held", {
            let sets = numbered(&format!("set #{}\n", " fourteen-signs".repeat(1_024)), 64);
            format!("{BOOK}{sets}section A\nsets a b\n")
        }),
        ("sets", format!("{many_sets}{SECTION}")),
        ("sets, the last one twice", format!("{many_sets}{SECTION}set ~\nset ~\n")),
        ("64 sets, the last named over and over", named(&sets(63))),
        ("4,095 sets, the last named over and over", named(&sets(4_094))),
        ("16,384 sets, the last named over and over", named(&sets(16_383))),
        ("half of sets, the last named over and over", named(&sets(length / 18))),
        ("4,096 sets and half of LFs, likewise", named(&(sets(4_096) + &half("\n")))),
        ("a set with half of blanks in it, likewise", named(&format!("{BOOK}set{}a\n", half(" ")))),
        ("a set named before the last line gives it", filled(&(sets(4_096) + SECTION + "sets"), " ~", "\nset ~ x\n")),
        ("a set that there is not, at the end", named(&sets(length / 18)) + "?"),
        ("2,047 commons used after half of LFs", commons_used(2_047, &half("\n"))),
        ("commons used after half of LFs", commons_used(length / 40, &half("\n"))),
        ("commons used", commons_used(length / 20, "")),
        ("64 sections that use 2,047 commons", {
            let section = format!("section #\n{}", numbered("use #\n", 2_047));
            format!("{BOOK}{}{}", numbered("common #\n", 2_047), numbered(&section, 64))
        }),
        ("16 sections that use 256 commons of a rule", {
            let commons: String = (0..256).map(|n| format!("common {}\n{}", name(n), rule(n, "DATE E"))).collect();
            format!("{BOOK}{commons}{}", numbered(&format!("section #\n{}", numbered("use #\n", 256)), 16))
        }),
        ("22 sections of 256 CODE rules", code_rules(22)),
        ("64 sections of 256 CODE rules", code_rules(64)),
        ("2,000 rules", format!("{BOOK}{SECTION}{}", (0..2_000).map(|n| rule(n, "DATE E")).collect::<String>())),
    ];
    texts.extend(changes(length));
    texts.retain(|(_, text)| text.len() <= length);
    texts
}

/// Many changes of rules and of codes.
fn changes(length: usize) -> Vec<(&'static str, String)> {
    // Lines of one place, the last of them with so many words that the text has its length.
    let severities = |sections: usize, rules: usize, words: usize| {
        let also = "also PID-1 DATE E\n".repeat(rules - 1);
        let change = format!("severity PID-1 DATE W | {}\n", "x".repeat(words));
        let common = format!("common c\nrule PID-1 DATE E\n{also}{}", change.repeat(2_047 - rules));
        format!("{BOOK}{common}{}", numbered("section #\nuse c\n", sections))
    };
    let words = |rules: usize| (length.saturating_sub(20 * 2_048 + 2_000) / (2_047 - rules)).saturating_sub(8);
    let in_64 = |lines: &str| format!("{BOOK}set s a b\ncommon c\n{lines}{}", numbered("section #\nuse c\n", 64));
    let apart = |count: usize, each: &dyn Fn(usize) -> String| (0..count).map(each).collect::<String>();
    // Some of the text is a set's codes, the rest is for changes of them.
    let codes = |from: usize, bytes: usize| apart(bytes / 4, &|n| format!(" {}", name(from + n)));
    let held = |codes: &str, changes: &str| format!("{BOOK}set s{codes}\n{SECTION}sets s\n{changes}");
    let [half, other_half] = [4_000, 150_000].map(|from| codes(from, length * 2 / 5));
    let some = codes(4_000, 3_000);
    let to_and_fro = |line: &str, times: usize| format!("less s{line}\nmore s{line}\n").repeat(times);
    vec![
        ("256 rules and 1,791 severities", severities(1, 256, 0)),
        ("100 rules and 1,947 severities in 64 sections", severities(64, 100, 0)),
        ("256 rules and severities with words", severities(1, 256, words(256))),
        ("100 rules and severities with words, likewise", severities(64, 100, words(100))),
        ("a rule made and dropped 1,000 times, likewise", {
            in_64(&("rule PID-1 DATE E\ndrop PID-1 DATE\n".repeat(1_000) + "rule PID-1 DATE E\n"))
        }),
        ("90 places changed 20 times each, likewise", {
            let lines = |verb: &str, rest: &str| apart(90, &|n| rule(n, rest).replacen("rule", verb, 1));
            in_64(&(lines("rule", "TIME E 8") + &lines("bound", "TIME 4").repeat(20)))
        }),
        ("90 CODE rules bound to another set, likewise", {
            let lines = |verb: &str, rest: &str| apart(90, &|n| rule(n, rest).replacen("rule", verb, 1));
            let sets = numbered("set long-name-for-a-set-# x\n", 500);
            let bounds: String =
                (0..20).map(|n| lines("bound", &format!("CODE long-name-for-a-set-{}", name(n)))).collect();
            in_64(&(lines("rule", "CODE E s") + &bounds)).replace("common c", &format!("{sets}common c"))
        }),
        ("a code taken and added 1,000 times, likewise", {
            in_64(&("rule PID-1 CODE E s\n".to_string() + &to_and_fro(" a", 1_000)))
        }),
        ("600 codes taken and added over and over", held(&some, &to_and_fro(&some, (length / 6_500).min(1_000)))),
        ("half of codes, as many taken in one line", held(&half, &format!("less s{half}\nmore s x\n"))),
        ("half of codes, as many others added in one line", held(&half, &format!("more s{other_half}\n"))),
        ("half of codes, the last taken over and over", {
            held(&format!("{half} !"), &format!("less s{}\n", " !".repeat(length / 6)))
        }),
        ("1,024 lines with more", held("", &apart(1_024, &|n| format!("more s {}\n", name(n))))),
        ("sets with a more each, none of them held", {
            let lines = apart(2_000, &|n| format!("more {} y\n", name(n)));
            format!("{BOOK}{}{SECTION}{lines}", numbered("set # x\n", 2_000))
        }),
    ]
}

/// Two books each, with what is slow about them.
pub fn books() -> Vec<(&'static str, [Vec<u8>; 2])> {
    let date = |field: usize, component: usize| {
        rule_bytes("PID", field as u8 % 99 + 1, component as u8 % 20 + 1, 4, b'E', [0, 0, 0])
    };
    // The keys and codes differ at their end.
    let key = |number: usize| format!("{number:0>20}").into_bytes();
    let code = |number: usize| key(number);
    let set = |from: usize| (0..1_024).map(|number| code(2 * number + from)).collect::<Vec<_>>();
    let coded = |field: u8, count: usize| vec![rule_bytes("PID", field, 0, 6, b'E', [1, 0, 0]); count];
    let one = |rules: Vec<_>, sets: Vec<_>| books::encode(&[SectionPlan { key: key(1), rules, sets }]);
    let many = |count: usize, rules: &dyn Fn() -> Vec<_>| {
        let plans = (0..count).map(|number| SectionPlan { key: key(number), rules: rules(), sets: Vec::new() });
        plans.collect::<Vec<_>>()
    };
    let encoded = |plans: Vec<SectionPlan>, reversed: bool| {
        let plans = if reversed { plans.into_iter().rev().collect() } else { plans };
        books::encode(&plans)
    };
    let places = || (0..256).map(|number| date(number, number / 99)).collect::<Vec<_>>();
    let backwards = || places().into_iter().rev().collect::<Vec<_>>();
    vec![
        (
            "256 rules of one set of 1,024 codes, all others",
            [one(coded(1, 256), vec![set(0)]), one(coded(1, 256), vec![set(1)])],
        ),
        ("the same codes backwards", {
            let backwards = set(0).into_iter().rev().collect();
            [one(coded(1, 256), vec![set(0)]), one(coded(1, 256), vec![backwards])]
        }),
        ("256 rules of 1,024 codes gone and others new", {
            [one(coded(1, 256), vec![set(0)]), one(coded(2, 256), vec![set(1)])]
        }),
        ("25 sections of a rule 256 times", {
            let plans = || many(25, &|| vec![date(1, 1); 256]);
            [encoded(plans(), false), encoded(plans(), true)]
        }),
        ("25 sections of 256 rules backwards", {
            [encoded(many(25, &places), false), encoded(many(25, &backwards), true)]
        }),
        ("64 sections in the other order", {
            [encoded(many(64, &Vec::new), false), encoded(many(64, &Vec::new), true)]
        }),
    ]
}

const BOOK: &str = "book 1\n";
const SECTION: &str = "section A\n";

/// So many lines, each with another name for the sign #.
fn numbered(line: &str, count: usize) -> String {
    (0..count).map(|number| line.replace('#', &name(number))).collect()
}

/// A name for each number; the shortest come first.
fn name(mut number: usize) -> String {
    const SIGNS: &[u8; 62] = b"abcdefghijklmnopqrstuvwxyzABCDEFGHIJKLMNOPQRSTUVWXYZ0123456789";
    let mut name = String::new();
    loop {
        name.push(SIGNS[number % 62].into());
        match (number / 62).checked_sub(1) {
            Some(rest) => number = rest,
            None => return name,
        }
    }
}

/// The text's beginning with so many sets.
fn sets(count: usize) -> String {
    format!("{BOOK}{}", numbered("set #\n", count))
}

/// A rule for each number below 9,900; those for two numbers have another place.
fn rule(number: usize, rest: &str) -> String {
    let names = ["PID", "PD1", "NK1", "PV1", "ORC"];
    format!("rule {}-{}.{} {rest}\n", names[number / 1_980], number % 99 + 1, number / 99 % 20 + 1)
}

/// Sections of 256 rules for 64 sets with long names that differ at their end.
fn code_rules(sections: usize) -> String {
    let long = "n".repeat(20);
    let rules: String = (0..256).map(|n| rule(n, &format!("CODE E {long}{}", name(n % 64)))).collect();
    let sets = numbered(&format!("set {long}# x\n"), 64);
    format!("{BOOK}{sets}{}", numbered(&format!("section #\n{rules}"), sections))
}

#[cfg(test)]
mod tests {
    use super::*;
    use crate::booktext;

    /// What is refused is refused late.
    #[test]
    fn changes_are_looked_at_to_their_end() {
        for (name, text) in changes(131_072) {
            let told = booktext::compile(text.as_bytes(), &mut [0; 65_536]);
            assert!([0, 52, 53].contains(&told.number), "{name}: {told:?}");
        }
        for (name, [old, new]) in books() {
            assert!(booktext::difference(&old, &new).is_ok(), "{name}");
        }
    }
}
