//! Books that are shown, and those that are none.

use super::{numbered, repeated, sample, show, BookSample, EMPTY_BOOK, QUOTED_BOOK, ROOM};
use crate::books::{self, SectionPlan};
use crate::cases::BookCall;

pub fn samples() -> Vec<BookSample> {
    let mut all = shown_books();
    all.extend(bad_books());
    all
}

fn shown_books() -> Vec<BookSample> {
    let names: String = (1..=64).map(|number| format!(" A/{number}")).collect();
    let many: String = numbered("rule PID-9 DATE E", 256).replacen("rule", "also", 256).replacen("also", "rule", 1);
    let sections = (1..=64).map(|number| {
        let key = format!("1{number}");
        [&[key.len() as u8], key.as_bytes(), &[0, 0, 0]].concat()
    });
    let sections: Vec<Vec<u8>> = sections.collect();
    vec![
        show("no rule and no set", EMPTY_BOOK, "book 1\nsection A\n"),
        show("two sections", b"VXB\0\x01\x02\x01A\0\0\0\x01a\0\0\0", "book 1\nsection A\nsection a\n"),
        show(
            "two quotes for a key and a code",
            QUOTED_BOOK,
            "book 1\nset \"\"/1\ncode \"\"\ncode x\nsection \"\"\nsets \"\"/1\nrule PID-3 CODE E \"\"/1\n",
        ),
        show(
            "each kind",
            b"VXB\0\x01\x01\x01A\0\x07\x01PID\x01\0\x01E\0\0\0PID\x63\x14\x02W\0\x01\xFFPID\x03\0\x03I\0\0\0\
              PID\x03\0\x04I\0\0\0MSH\x03\0\x05E\0\x04\0MSH\x63\x01\x05E\0\x0E\0NTE\x03\x09\x06E\x01\0\0\0\x01\x01A",
            "book 1\nset A/1\ncode A\nsection A\nsets A/1\nrule PID-1 REQUIRED E\nrule PID-99.20 LENGTH W 1 255\n\
             rule PID-3 NUMBER I\nrule PID-3 DATE I\nrule MSH-3 TIME E 4\nrule MSH-99.1 TIME E 14\n\
             rule NTE-3.9 CODE E A/1\n",
        ),
        show(
            "a further rule of a place and kind, with another severity or bound",
            b"VXB\0\x01\x01\x01A\0\x05\0PID\x03\0\x02E\0\x01\x02PID\x03\x01\x02E\0\x01\x02PID\x03\0\x02W\0\x03\x04\
              OBX\x03\0\x02E\0\x01\x02PID\x03\x01\x02E\0\x01\x02",
            "book 1\nsection A\nrule PID-3 LENGTH E 1 2\nrule PID-3.1 LENGTH E 1 2\nalso PID-3 LENGTH W 3 4\n\
             rule OBX-3 LENGTH E 1 2\nalso PID-3.1 LENGTH E 1 2\n",
        ),
        show(
            "sets out of the order of use, equal ones and one that no rule uses",
            b"VXB\0\x01\x01\x02/1\0\x02\x03PID\x01\0\x06E\x03\0\0PID\x02\0\x06E\x01\0\0\
              \0\x01\x01x\0\x02\x01y\x01y\0\x01\x01x",
            "book 1\nset /1/1\ncode x\nset /1/2\ncode y\ncode y\nset /1/3\ncode x\nsection /1\nsets /1/1 /1/2 /1/3\n\
             rule PID-1 CODE E /1/3\nrule PID-2 CODE E /1/1\n",
        ),
        show(
            "each segment",
            b"VXB\0\x01\x01\x01A\0\x0A\0MSH\x03\0\x01E\0\0\0PID\x03\0\x01E\0\0\0PD1\x03\0\x01E\0\0\0NK1\x03\0\x01E\0\0\0\
              PV1\x03\0\x01E\0\0\0ORC\x03\0\x01E\0\0\0RXA\x03\0\x01E\0\0\0RXR\x03\0\x01E\0\0\0OBX\x03\0\x01E\0\0\0\
              NTE\x03\0\x01E\0\0\0",
            "book 1\nsection A\nrule MSH-3 REQUIRED E\nrule PID-3 REQUIRED E\nrule PD1-3 REQUIRED E\n\
             rule NK1-3 REQUIRED E\nrule PV1-3 REQUIRED E\nrule ORC-3 REQUIRED E\nrule RXA-3 REQUIRED E\n\
             rule RXR-3 REQUIRED E\nrule OBX-3 REQUIRED E\nrule NTE-3 REQUIRED E\n",
        ),
        show(
            "sets of two sections",
            b"VXB\0\x01\x03\x01B\0\0\x01\0\x01\x01x\x01A\0\0\0\x01C\0\0\x02\0\x01\x01y\0\x01\x01z",
            "book 1\nset B/1\ncode x\nsection B\nsets B/1\nsection A\nset C/1\ncode y\nset C/2\ncode z\nsection C\n\
             sets C/1 C/2\n",
        ),
        show(
            "64 sections",
            [b"VXB\0\x01\x40".as_slice(), &sections.concat()].concat(),
            &format!("book 1\n{}", numbered("section 1#", 64)),
        ),
        show(
            "a set of 1,024 codes",
            [b"VXB\0\x01\x01\x01A\0\0\x01\x04\0".as_slice(), &b"\x01x".repeat(1_024)].concat(),
            &format!("book 1\nset A/1\n{}section A\nsets A/1\n", repeated("code x", 1_024)),
        ),
        show(
            "the same rule 256 times",
            [b"VXB\0\x01\x01\x01A\x01\0\0", &b"PID\x09\0\x04E\0\0\0".repeat(256)[..]].concat(),
            &format!("book 1\nsection A\n{many}"),
        ),
        show(
            "64 sets",
            [b"VXB\0\x01\x01\x01A\0\0\x40".as_slice(), &b"\0\x01\x01x".repeat(64)].concat(),
            &format!("book 1\n{}section A\nsets{names}\n", numbered("set A/#\ncode x", 64)),
        ),
        sample(
            "64 sets of one code in each of 20 sections, keys of 20 bytes: the most text for a byte",
            BookCall::Show,
            &books::encode(&long_names()),
            ROOM,
            format!("55 {} 0\n", 7 + 20 * (8 + 20 + 1 + 5) + 20 * (35 * 64 - 9 + 24 * 64 - 9)).into_bytes(),
        ),
    ]
}

/// Twenty sections, each with 64 sets of the code x.
pub fn long_names() -> Vec<SectionPlan> {
    let key = |number: usize| format!("{number:0>20}").into_bytes();
    let sets = vec![vec![b"x".to_vec()]; 64];
    (1..=20).map(|number| SectionPlan { key: key(number), rules: Vec::new(), sets: sets.clone() }).collect()
}

/// What 01 refuses is shown as nothing: 7, then 8, then 7.
fn bad_books() -> Vec<BookSample> {
    let longer = |version: u8| [b"VXB\0".as_slice(), &[version], &[0; 65_532]].concat();
    let (longest_eight, longer_one) = (longer(2)[..65_536].to_vec(), longer(1));
    let rows: [(&str, &[u8], u8); 14] = [
        ("nothing", b"", 7),
        ("four bytes", b"VXB\0", 7),
        ("no section count", b"VXB\0\x01", 7),
        ("another mark", b"VXC\0\x02", 7),
        ("another version", b"VXB\0\x02", 8),
        ("version 256", b"VXB\x01\0\x01\x01A\0\0\0", 8),
        ("no section", b"VXB\0\x01\0", 7),
        ("a byte after the last section", b"VXB\0\x01\x01\x01A\0\0\0\0", 7),
        ("a key twice", b"VXB\0\x01\x02\x01A\0\0\0\x01A\0\0\0", 7),
        ("a set without codes", b"VXB\0\x01\x01\x01A\0\0\x01\0\0", 7),
        ("MSH-2", b"VXB\0\x01\x01\x01A\0\x01\0MSH\x02\0\x01W\0\0\0", 7),
        ("a text", b"book 1\nsection A\n", 7),
        ("another version in 65,536 bytes", &longest_eight, 8),
        ("65,537 bytes", &longer_one, 7),
    ];
    let told = |number: u8| format!("{number} 0 0\n").into_bytes();
    rows.map(|(name, book, number)| sample(name, BookCall::Show, book, ROOM, told(number))).into()
}
