//! Both sides of each limit.

use super::{book, large_sets, numbered, refused, refused_twice, repeated, BookSample, EMPTY_BOOK, SECTION};

const TEXT_LIMIT: usize = 1_048_576;

pub fn samples() -> Vec<BookSample> {
    let mut all = borders();
    all.extend(book_lengths());
    all.extend(longest_texts());
    all
}

/// Both sides of the limits, but those of book and text.
fn borders() -> Vec<BookSample> {
    let one_set: &[u8] = b"VXB\0\x01\x01\x01A\0\0\x01\0\x01\x01x";
    let pinned = |count: usize| format!("book 1\nset s x\nsection A\n{}", repeated("sets s", count));
    let commons = |count: usize, pinned: usize| {
        let commons = numbered("common c#\nrule PID-# DATE E", count);
        let uses = numbered("use c#", count);
        format!("book 1\nset s x\n{commons}section A\n{uses}{}", repeated("sets s", pinned))
    };
    let common_rules = (1..=8).map(|field| [b"PID", [field, 0, 4].as_slice(), b"E\0\0\0"].concat()).collect::<Vec<_>>();
    let rules = |count: usize| format!("{SECTION}rule PID-9 DATE E\n{}", repeated("also PID-9 DATE E", count - 1));
    let fields = |segment: &str| numbered(&format!("rule {segment}-# DATE E"), 99);
    let sets = |count: usize| {
        let names: String = (1..=count).map(|number| format!(" s{number}")).collect();
        format!("book 1\n{}section A\nsets{names}\n", numbered("set s# x", count))
    };
    let ruled_sets = |count: usize| {
        format!("book 1\n{}section A\n{}", numbered("set s# x", count), numbered("rule PID-# CODE E s#", count))
    };
    let ruled = (1..=64).map(|number| [b"PID", [number, 0, 6].as_slice(), b"E", &[number, 0, 0]].concat());
    let sections = |count: usize| format!("book 1\n{}", numbered("section S#", count));
    let section_bytes = (1..=64).map(|number| {
        let key = format!("S{number}");
        [&[key.len() as u8], key.as_bytes(), b"\0\0\0"].concat()
    });
    let codes = |count: usize| format!("book 1\nset s{}\nsection A\nsets s\n", " x".repeat(count));
    let code_lines = |count: usize| format!("book 1\nset s x\n{}section A\nsets s\n", repeated("code x", count - 1));
    let set_head: &[u8] = b"VXB\0\x01\x01\x01A\0\0";
    let many_codes = [set_head, b"\x01\x04\0", &b"\x01x".repeat(1_024)].concat();
    let key = "12345678901234567890";
    vec![
        book("2,048 statements", pinned(2_048), one_set),
        refused("2,049 statements", pinned(2_049), [56, 3, 3]),
        book(
            "2,048 statements with 8 commons",
            commons(8, 2_032),
            [b"VXB\0\x01\x01\x01A\0\x08\x01".as_slice(), &common_rules.concat(), b"\0\x01\x01x"].concat(),
        ),
        refused("2,049 statements with 8 commons", commons(8, 2_033), [56, 19, 19]),
        book(
            "256 rules",
            rules(256),
            [b"VXB\0\x01\x01\x01A\x01\0\0", &b"PID\x09\0\x04E\0\0\0".repeat(256)[..]].concat(),
        ),
        refused("257 rules", rules(257), [50, 2, 2]),
        refused(
            "297 rules of different places",
            format!("{SECTION}{}{}{}", fields("PID"), fields("OBX"), fields("RXA")),
            [50, 2, 2],
        ),
        book("64 sets", sets(64), [set_head, b"\x40", &b"\0\x01\x01x".repeat(64)].concat()),
        refused("65 sets", sets(65), [51, 67, 67]),
        book("64 sets by rules", ruled_sets(64), {
            let rules = ruled.collect::<Vec<_>>().concat();
            [b"VXB\0\x01\x01\x01A\0\x40\x40", &rules[..], &b"\0\x01\x01x".repeat(64)].concat()
        }),
        refused("65 sets by rules", ruled_sets(65), [51, 67, 67]),
        book(
            "64 sections",
            sections(64),
            [b"VXB\0\x01\x40".as_slice(), &section_bytes.collect::<Vec<_>>().concat()].concat(),
        ),
        refused("65 sections", sections(65), [44, 66, 0]),
        book("1,024 codes", codes(1_024), &many_codes),
        refused("1,025 codes", codes(1_025), [53, 2, 3]),
        book("1,024 codes on lines of their own", code_lines(1_024), &many_codes),
        refused("1,025 codes on lines of their own", code_lines(1_025), [53, 2, 1_027]),
        refused("no code", "book 1\nset s\nsection A\nsets s\n", [53, 2, 3]),
        book(
            "a set of 1,025 codes that nobody names",
            format!("book 1\nset s{}\nsection A\n", " x".repeat(1_025)),
            EMPTY_BOOK,
        ),
        book(
            "a key of 20 bytes",
            format!("book 1\nsection {key}\n"),
            [b"VXB\0\x01\x01\x14", key.as_bytes(), b"\0\0\0"].concat(),
        ),
        refused("a key of 21 bytes", format!("book 1\nsection {key}1\n"), [37, 2, 0]),
        book(
            "a code of 20 bytes",
            format!("book 1\nset s {key}\nsection A\nsets s\n"),
            [set_head, b"\x01\0\x01\x14", key.as_bytes()].concat(),
        ),
        refused("a code of 21 bytes", format!("book 1\nset s\ncode {key}1\nsection A\nsets s\n"), [38, 3, 0]),
        book(
            "names of 70 bytes",
            {
                let name = "n".repeat(70);
                format!("book 1\nset {name} x\ncommon {name}\nsection A\nuse {name}\nsets {name}\n")
            },
            one_set,
        ),
        book(
            "1,000 sets and commons",
            format!("book 1\n{}{}set s x\nsection A\nsets s\n", numbered("set n#", 500), numbered("common n#", 500)),
            one_set,
        ),
    ]
}

/// A section with three large sets and codes that bring the book to so many bytes, and its book.
fn of_length(bytes: usize) -> (String, Vec<u8>) {
    // Head and section take 11 bytes, three large sets 64,518, and a set 2 and its codes.
    let left = bytes - 11 - 64_518 - 2;
    let sizes: Vec<usize> = (0..left / 20).map(|at| if at == 0 { 20 + left % 20 } else { 20 }).collect();
    let codes: Vec<String> = sizes.iter().map(|size| "y".repeat(size - 1)).collect();
    let text =
        format!("book 1\n{}set rest {}\nsection A\nsets large1 large2 large3 rest\n", large_sets(3), codes.join(" "));
    let large = [b"\x04\0".as_slice(), &b"\x1412345678901234567890".repeat(1_024)].concat().repeat(3);
    let mut book = [b"VXB\0\x01\x01\x01A\0\0\x04".as_slice(), &large, &(codes.len() as u16).to_be_bytes()].concat();
    for code in codes {
        book.push(code.len() as u8);
        book.extend(code.as_bytes());
    }
    (text, book)
}

fn book_lengths() -> Vec<BookSample> {
    // Lengths for which the codes that fill up have 19 bytes, but the first 19 or 20.
    let (text, longest) = of_length(65_536 - 5);
    let (over, _) = of_length(65_532);
    let key = |text: &str, key: &str| text.replace("section A", &format!("section {key}"));
    let keyed = [&longest[..6], b"\x06AAAAAA", &longest[8..]].concat();
    let two = format!("{text}section B\n");
    let two_book = [b"VXB\0\x01\x02", &longest[6..], b"\x01B\0\0\0"].concat();
    vec![
        book("65,536 bytes", key(&text, "AAAAAA"), keyed),
        refused("65,537 bytes", key(&text, "AAAAAAA"), [54, 6, 6]),
        book("65,536 bytes with a second section", &two, two_book),
        refused("65,537 bytes with a second section", format!("{text}section BB\n"), [54, 8, 8]),
        refused("65,537 bytes by a code", format!("{over}section B\n"), [54, 8, 8]),
        refused("65,541 bytes with a third section", format!("{two}section C\nuse c\ncommon c\n"), [54, 9, 9]),
        refused(
            "four large sets",
            format!("book 1\n{}section A\nsets large1 large2 large3 large4\n", large_sets(4)),
            [54, 6, 6],
        ),
    ]
}

/// Texts of 1,048,576 bytes and one more.
fn longest_texts() -> Vec<BookSample> {
    let filled = |text: &str, length: usize, filler: &str| {
        let mut filled = text.as_bytes().to_vec();
        filled.resize(length, filler.as_bytes()[0]);
        filled
    };
    let mut all = vec![
        book("1,048,576 bytes, a remark", filled(&format!("{SECTION}|"), TEXT_LIMIT, "x"), EMPTY_BOOK),
        book("1,048,576 bytes, line ends", filled(SECTION, TEXT_LIMIT, "\n"), EMPTY_BOOK),
        book("1,048,576 bytes, blanks", filled(SECTION, TEXT_LIMIT, " "), EMPTY_BOOK),
        refused("1,048,576 bytes, a long word", filled(SECTION, TEXT_LIMIT, "x"), [33, 3, 0]),
        refused("1,048,576 bytes, bars", filled("", TEXT_LIMIT, "|"), [44, 0, 0]),
        refused(
            "the last byte of 1,048,576",
            [filled(SECTION, TEXT_LIMIT - 1, "\n"), vec![0]].concat(),
            [32, 1_048_561, 0],
        ),
    ];
    all.extend(refused_twice("1,048,577 bytes", filled(SECTION, TEXT_LIMIT + 1, "\n"), [31, 0, 0]));
    all.extend(refused_twice("1,048,577 bytes with a byte 0", filled("\0", TEXT_LIMIT + 1, "\n"), [31, 0, 0]));
    all.push(refused("2 MiB", filled(SECTION, 2 * TEXT_LIMIT, " "), [31, 0, 0]));
    all
}
