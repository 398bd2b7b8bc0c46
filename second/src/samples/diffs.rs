//! Two books and what is told of their difference, written by hand.

use crate::cases::DiffCase;

pub struct DiffSample {
    pub name: String,
    pub case: DiffCase,
    /// What has to be printed for it as a packed case.
    pub expected: Vec<u8>,
}

/// More than what is told of any sample.
const ROOM: usize = 10_000;

/// Every sample with an expectation by hand.
pub fn samples() -> Vec<DiffSample> {
    let mut all = sections();
    all.extend(rules());
    all.extend(changes());
    all.extend(numbers());
    all.extend(doubles());
    all.extend(no_difference());
    all.extend(refusals());
    all.extend(outputs());
    all
}

fn sample(name: &str, [old, new]: [Vec<u8>; 2], output_length: usize, expected: String) -> DiffSample {
    let case = DiffCase { old, new, output_length };
    DiffSample { name: format!("Diff: {name}"), case, expected: expected.into_bytes() }
}

fn told(name: &str, books: [Vec<u8>; 2], text: &str) -> DiffSample {
    sample(name, books, ROOM, format!("0 {} 0\n{text}\n", text.len()))
}

fn book(sections: &[Vec<u8>]) -> Vec<u8> {
    [b"VXB\0\x01".as_slice(), &[sections.len() as u8], &sections.concat()].concat()
}

/// A section with its rules in bytes and the codes of its sets.
fn section(key: &str, rules: &[&[u8; 10]], sets: &[&str]) -> Vec<u8> {
    let mut bytes = [&[key.len() as u8], key.as_bytes(), &[(rules.len() / 256) as u8, rules.len() as u8]].concat();
    bytes.push(sets.len() as u8);
    bytes.extend(rules.iter().copied().flatten());
    for set in sets {
        let codes: Vec<&str> = set.split(' ').collect();
        bytes.extend([0, codes.len() as u8]);
        for code in codes {
            bytes.push(code.len() as u8);
            bytes.extend(code.as_bytes());
        }
    }
    bytes
}

/// A book whose only section has the key A.
fn of(rules: &[&[u8; 10]], sets: &[&str]) -> Vec<u8> {
    book(&[section("A", rules, sets)])
}

const BORN: &[u8; 10] = b"PID\x07\x01\x01E\0\0\0";
const SEX: &[u8; 10] = b"PID\x08\0\x06W\x01\0\0";

fn sections() -> Vec<DiffSample> {
    let empty = |keys: &[&str]| book(&keys.iter().map(|key| section(key, &[], &[])).collect::<Vec<_>>());
    let old = book(&[section("B", &[BORN], &[]), section("A", &[BORN], &[]), section("C", &[], &[])]);
    let new = book(&[section("D", &[BORN], &[]), section("A", &[], &[]), section("E", &[], &[])]);
    vec![
        told("a section gone", [empty(&["XX", "YY"]), empty(&["YY"])], "- section XX\n"),
        told("a section new", [empty(&["XX"]), empty(&["XX", "YY"])], "+ section YY\n"),
        told("another key", [empty(&["XX"]), empty(&["YY"])], "- section XX\n+ section YY\n"),
        told(
            "keys that differ by case, length or a sign",
            [empty(&["A", "AA", "-"]), empty(&["a", "AAA", "+"])],
            "- section A\n- section AA\n- section -\n+ section a\n+ section AAA\n+ section +\n",
        ),
        told(
            "gone and changed in the old order, then new in the new one",
            [old, new],
            "- section B\nA - 1 PID-7.1 REQUIRED E\n- section C\n+ section D\n+ section E\n",
        ),
    ]
}

/// Each kind of rule gone and new.
fn rules() -> Vec<DiffSample> {
    let kinds: [&[u8; 10]; 6] = [
        b"PID\x01\0\x01E\0\0\0",
        b"PID\x63\x14\x02W\0\x01\xFF",
        b"PID\x03\0\x03I\0\0\0",
        b"PID\x03\0\x04I\0\0\0",
        b"MSH\x03\0\x05E\0\x04\0",
        b"NTE\x03\x09\x06E\x02\0\0",
    ];
    let (none, all) = (of(&[], &[]), of(&kinds, &["x", "A b A"]));
    vec![
        told(
            "a rule of each kind gone",
            [all.clone(), none.clone()],
            "A - 1 PID-1 REQUIRED E\nA - 2 PID-99.20 LENGTH W 1 255\nA - 3 PID-3 NUMBER I\nA - 4 PID-3 DATE I\n\
             A - 5 MSH-3 TIME E 4\nA - 6 NTE-3.9 CODE E -A -b -A\n",
        ),
        told(
            "a rule of each kind new",
            [none, all],
            "A + 1 PID-1 REQUIRED E\nA + 2 PID-99.20 LENGTH W 1 255\nA + 3 PID-3 NUMBER I\nA + 4 PID-3 DATE I\n\
             A + 5 MSH-3 TIME E 4\nA + 6 NTE-3.9 CODE E +A +b +A\n",
        ),
        told(
            "another kind, place or component is another rule",
            [
                of(&[b"PID\x03\0\x03I\0\0\0", b"PID\x04\0\x03I\0\0\0", b"PID\x05\0\x03I\0\0\0", BORN], &[]),
                of(&[b"PID\x03\0\x04I\0\0\0", b"PID\x06\0\x03I\0\0\0", b"PID\x05\x01\x03I\0\0\0", BORN], &[]),
            ],
            "A - 1 PID-3 NUMBER I\nA - 2 PID-4 NUMBER I\nA - 3 PID-5 NUMBER I\n\
             A + 1 PID-3 DATE I\nA + 2 PID-6 NUMBER I\nA + 3 PID-5.1 NUMBER I\n",
        ),
        told(
            "another segment is another rule",
            [of(&[b"PID\x03\0\x03I\0\0\0"], &[]), of(&[b"OBX\x03\0\x03I\0\0\0"], &[])],
            "A - 1 PID-3 NUMBER I\nA + 1 OBX-3 NUMBER I\n",
        ),
    ]
}

/// Severities, bounds and codes.
fn changes() -> Vec<DiffSample> {
    let coded = |old: &str, new: &str| [of(&[SEX], &[old]), of(&[SEX], &[new])];
    vec![
        told(
            "a severity",
            [of(&[b"RXA\x09\x01\x01E\0\0\0"], &[]), of(&[b"RXA\x09\x01\x01I\0\0\0"], &[])],
            "A ~ 1 RXA-9.1 REQUIRED E -> I\n",
        ),
        told(
            "each severity",
            [
                of(&[b"PID\x01\0\x01E\0\0\0", b"PID\x02\0\x01W\0\0\0", b"PID\x03\0\x01I\0\0\0", BORN], &[]),
                of(&[b"PID\x01\0\x01W\0\0\0", b"PID\x02\0\x01I\0\0\0", b"PID\x03\0\x01E\0\0\0", BORN], &[]),
            ],
            "A ~ 1 PID-1 REQUIRED E -> W\nA ~ 2 PID-2 REQUIRED W -> I\nA ~ 3 PID-3 REQUIRED I -> E\n",
        ),
        told(
            "a length, low, high and both",
            [
                of(&[b"PID\x01\0\x02E\0\x01\x0A", b"PID\x02\0\x02E\0\x01\x0A", b"PID\x03\0\x02E\0\x01\x0A"], &[]),
                of(&[b"PID\x01\0\x02E\0\x02\x0A", b"PID\x02\0\x02E\0\x01\x14", b"PID\x03\0\x02E\0\xFF\xFF"], &[]),
            ],
            "A ~ 1 PID-1 LENGTH 1 10 -> 2 10\nA ~ 2 PID-2 LENGTH 1 10 -> 1 20\nA ~ 3 PID-3 LENGTH 1 10 -> 255 255\n",
        ),
        told(
            "a time",
            [of(&[b"PID\x07\x01\x05E\0\x08\0"], &[]), of(&[b"PID\x07\x01\x05E\0\x0E\0"], &[])],
            "A ~ 1 PID-7.1 TIME 8 -> 14\n",
        ),
        told("a code gone and one new", coded("F M U", "F M X"), "A ~ 1 PID-8 CODE -U +X\n"),
        told("a code gone", coded("F M U", "F U"), "A ~ 1 PID-8 CODE -M\n"),
        told("two quotes gone", coded("F \"\"", "F"), "A ~ 1 PID-8 CODE -\"\"\n"),
        told("two quotes new", coded("F \"", "F \"\" \""), "A ~ 1 PID-8 CODE +\"\"\n"),
        told("a code new", coded("F M", "A F M"), "A ~ 1 PID-8 CODE +A\n"),
        told(
            "codes in the order of their sets, a double one twice",
            coded("U F T T M U", "Y M X F X"),
            "A ~ 1 PID-8 CODE -U -T -T -U +Y +X +X\n",
        ),
        told("no code in common", coded("1 2", "3"), "A ~ 1 PID-8 CODE -1 -2 +3\n"),
        told("codes are compared whole", coded("a ab b", "A abc b"), "A ~ 1 PID-8 CODE -a -ab +A +abc\n"),
        told("codes with signs", coded("-x -> #", "+x -> ="), "A ~ 1 PID-8 CODE --x -# ++x +=\n"),
        told(
            "a set of two rules",
            [
                of(&[SEX, b"NK1\x0F\0\x06E\x01\0\0"], &["F M U"]),
                of(&[SEX, b"NK1\x0F\0\x06E\x02\0\0"], &["F M U", "F M"]),
            ],
            "A ~ 2 NK1-15 CODE -U\n",
        ),
        told(
            "severity and codes of one rule, and its number",
            [of(&[SEX], &["F"]), of(&[BORN, b"PID\x08\0\x06E\x01\0\0"], &["M"])],
            "A ~ 1 PID-8 CODE W -> E\nA ~ 1 PID-8 CODE -F +M\nA # 1 -> 2 PID-8 CODE\nA + 1 PID-7.1 REQUIRED E\n",
        ),
        told(
            "severity and number of one rule",
            [of(&[SEX, BORN], &["F"]), of(&[b"PID\x07\x01\x01W\0\0\0"], &[])],
            "A - 1 PID-8 CODE W -F\nA ~ 2 PID-7.1 REQUIRED E -> W\nA # 2 -> 1 PID-7.1 REQUIRED\n",
        ),
        told(
            "severity, bound and number of one rule",
            [
                of(&[BORN, b"PID\x07\x01\x05E\0\x08\0"], &[]),
                of(&[b"PID\x07\x01\x05W\0\x04\0", BORN], &[]),
            ],
            "A # 1 -> 2 PID-7.1 REQUIRED\nA ~ 2 PID-7.1 TIME E -> W\nA ~ 2 PID-7.1 TIME 8 -> 4\nA # 2 -> 1 PID-7.1 TIME\n",
        ),
        told(
            "two sections, each by itself",
            [
                book(&[section("A", &[SEX], &["F"]), section("B", &[SEX], &["F"])]),
                book(&[section("B", &[SEX], &["M"]), section("A", &[SEX, BORN], &["F"])]),
            ],
            "A + 2 PID-7.1 REQUIRED E\nB ~ 1 PID-8 CODE -F +M\n",
        ),
    ]
}

/// Rules that have another number.
fn numbers() -> Vec<DiffSample> {
    let date: [&[u8; 10]; 3] = [b"PID\x01\0\x04E\0\0\0", b"PID\x02\0\x04E\0\0\0", b"PID\x03\0\x04E\0\0\0"];
    let [one, two, three] = date;
    let many = |count: usize| of(&vec![one; count], &[]);
    vec![
        told(
            "a rule in the middle moves the later ones",
            [of(&[one, three], &[]), of(&[one, two, three], &[])],
            "A # 2 -> 3 PID-3 DATE\nA + 2 PID-2 DATE E\n",
        ),
        told(
            "a rule gone moves the later ones",
            [of(&[one, two, three], &[]), of(&[two, three], &[])],
            "A - 1 PID-1 DATE E\nA # 2 -> 1 PID-2 DATE\nA # 3 -> 2 PID-3 DATE\n",
        ),
        told("a rule at the end moves none", [of(&[one], &[]), of(&[one, two], &[])], "A + 2 PID-2 DATE E\n"),
        told(
            "two rules in the other order",
            [of(&[one, two], &[]), of(&[two, one], &[])],
            "A # 1 -> 2 PID-1 DATE\nA # 2 -> 1 PID-2 DATE\n",
        ),
        told(
            "new rules in the order of the new section",
            [of(&[two], &[]), of(&[three, two, one], &[])],
            "A # 1 -> 2 PID-2 DATE\nA + 1 PID-3 DATE E\nA + 3 PID-1 DATE E\n",
        ),
        told("number 256", [many(256), many(255)], "A - 256 PID-1 DATE E\n"),
        told("numbers of three digits", [many(99), many(101)], "A + 100 PID-1 DATE E\nA + 101 PID-1 DATE E\n"),
    ]
}

/// Several rules of one place and kind: the first is matched with the first, the second with the second.
fn doubles() -> Vec<DiffSample> {
    let (short, long): (&[u8; 10], &[u8; 10]) = (b"PID\x05\0\x02E\0\x01\x05", b"PID\x05\0\x02W\0\x01\x09");
    vec![
        told("two of one place and kind", [of(&[short, long], &[]), of(&[short, long], &[])], ""),
        told(
            "two of one place and kind in the other order",
            [of(&[short, long], &[]), of(&[long, short], &[])],
            "A ~ 1 PID-5 LENGTH E -> W\nA ~ 1 PID-5 LENGTH 1 5 -> 1 9\n\
             A ~ 2 PID-5 LENGTH W -> E\nA ~ 2 PID-5 LENGTH 1 9 -> 1 5\n",
        ),
        told(
            "the first of two gone",
            [of(&[short, long], &[]), of(&[long], &[])],
            "A ~ 1 PID-5 LENGTH E -> W\nA ~ 1 PID-5 LENGTH 1 5 -> 1 9\nA - 2 PID-5 LENGTH W 1 9\n",
        ),
        told(
            "the second of two gone",
            [of(&[short, BORN, long], &[]), of(&[short, BORN], &[])],
            "A - 3 PID-5 LENGTH W 1 9\n",
        ),
        told(
            "a further one before another rule",
            [of(&[short, BORN], &[]), of(&[short, long, BORN], &[])],
            "A # 2 -> 3 PID-7.1 REQUIRED\nA + 2 PID-5 LENGTH W 1 9\n",
        ),
        told(
            "a rule of the place and another kind counts for itself",
            [of(&[short, b"PID\x05\0\x04E\0\0\0"], &[]), of(&[b"PID\x05\0\x04E\0\0\0", short], &[])],
            "A # 1 -> 2 PID-5 LENGTH\nA # 2 -> 1 PID-5 DATE\n",
        ),
        told(
            "two CODE rules of one place",
            [
                of(&[SEX, b"PID\x08\0\x06E\x02\0\0"], &["F M", "U"]),
                of(&[SEX, b"PID\x08\0\x06E\x02\0\0"], &["F M", "X"]),
            ],
            "A ~ 2 PID-8 CODE -U +X\n",
        ),
    ]
}

/// Other bytes, and nothing to tell.
fn no_difference() -> Vec<DiffSample> {
    let (a, b) = (section("A", &[SEX], &["F M"]), section("B", &[BORN], &[]));
    let other: &[u8; 10] = b"PID\x08\0\x06W\x02\0\0";
    vec![
        told("a book and itself", [book(&[a.clone(), b.clone()]), book(&[a.clone(), b.clone()])], ""),
        told("the order of sections", [book(&[a.clone(), b.clone()]), book(&[b, a])], ""),
        told("the order of codes", [of(&[SEX], &["F M U"]), of(&[SEX], &["U F M"])], ""),
        told("a code twice", [of(&[SEX], &["F M"]), of(&[SEX], &["F M F"])], ""),
        told("a code twice in the old book", [of(&[SEX], &["F F M"]), of(&[SEX], &["M F"])], ""),
        told("a set that no rule uses", [of(&[SEX], &["F M"]), of(&[SEX], &["F M", "x"])], ""),
        told("another set that no rule uses", [of(&[BORN], &["F M"]), of(&[BORN], &["x"])], ""),
        told("the order of sets", [of(&[SEX], &["F M", "x"]), of(&[other], &["x", "F M"])], ""),
        told(
            "one set for two rules, or two equal ones",
            [of(&[SEX, b"NK1\x0F\0\x06E\x01\0\0"], &["F M"]), of(&[SEX, b"NK1\x0F\0\x06E\x02\0\0"], &["F M", "M F"])],
            "",
        ),
    ]
}

/// 7 and 8 as the relay tells them, of the old book with detail 1, of the new one with detail 2.
fn refusals() -> Vec<DiffSample> {
    let long = [b"VXB\0\x02".as_slice(), &[0; 65_532]].concat();
    let good = of(&[BORN], &[]);
    let bad: [(&str, &[u8], u8); 6] = [
        ("nothing", b"", 7),
        ("a text", b"book 1\nsection A\n", 7),
        ("another version", b"VXB\0\x02", 8),
        ("a byte after the last section", b"VXB\0\x01\x01\x01A\0\0\0\0", 7),
        ("65,537 bytes", &long, 7),
        ("65,536 bytes of another version", &long[..65_536], 8),
    ];
    let mut all = Vec::new();
    for (name, bytes, number) in bad {
        let told = |which: u8| format!("{number} {which} 0\n");
        all.push(sample(&format!("old: {name}"), [bytes.to_vec(), good.clone()], ROOM, told(1)));
        all.push(sample(&format!("new: {name}"), [good.clone(), bytes.to_vec()], ROOM, told(2)));
        all.push(sample(&format!("both: {name}"), [bytes.to_vec(), bytes.to_vec()], 0, told(1)));
    }
    let [seven, eight] = [b"".to_vec(), b"VXB\0\x02".to_vec()];
    all.push(sample("8 of the old book and 7 of the new", [eight.clone(), seven.clone()], ROOM, "8 1 0\n".into()));
    all.push(sample("7 of the old book and 8 of the new", [seven, eight], ROOM, "7 1 0\n".into()));
    all
}

fn outputs() -> Vec<DiffSample> {
    let (old, new, text) = (of(&[BORN], &[]), of(&[], &[]), "A - 1 PID-7.1 REQUIRED E\n");
    let length = text.len();
    let books = || [old.clone(), new.clone()];
    let short = || format!("55 {length} 0\n");
    let whole = || format!("0 {length} 0\n{text}\n");
    vec![
        sample("no output", books(), 0, short()),
        sample("one byte short", books(), length - 1, short()),
        sample("just enough", books(), length, whole()),
        sample("one byte more", books(), length + 1, whole()),
        sample("no difference and no output", [old.clone(), old.clone()], 0, "0 0 0\n\n".into()),
    ]
}

#[cfg(test)]
mod tests {
    use super::*;

    #[test]
    fn every_difference_is_told_as_written_by_hand() {
        for DiffSample { name, case, expected } in samples() {
            assert_eq!(case.printed().escape_ascii().to_string(), expected.escape_ascii().to_string(), "{name}");
        }
    }
}
