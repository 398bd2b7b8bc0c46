//! What the numbers of a text's rules mean: one line for each section and each of its rules.

use super::contents::Contents;

/// The legend, or its length where there is no room for it. One that repeats the words of many changes for many rules
/// can be too long to be held.
pub fn text(contents: &[Contents], room: usize) -> Result<Vec<u8>, u64> {
    let mut legend = Legend { text: Vec::new(), length: 0, room };
    for contents in contents {
        write_section(&mut legend, contents);
    }
    if legend.length > room as u64 {
        Err(legend.length)
    } else {
        Ok(legend.text)
    }
}

fn write_section(legend: &mut Legend, contents: &Contents) {
    let key = contents.section.key;
    let people = [contents.section.people].into_iter().filter(|people| !people.is_empty());
    legend.line(&[key, b"0"], people);
    for (number, made) in (1..).zip(&contents.rules) {
        let number: String = u32::to_string(&number);
        let mut words = vec![key, number.as_bytes(), made.rule.place_word, made.rule.kind_word, made.severity.letter()];
        words.extend(&made.bounded.words);
        legend.line(&words, contents.people(made));
    }
}

/// What was written while there was room, and the length of all.
struct Legend {
    text: Vec<u8>,
    length: u64,
    room: usize,
}

impl Legend {
    fn line<'t>(&mut self, words: &[&[u8]], people: impl Iterator<Item = &'t [u8]>) {
        self.write(&words.join(&b' '));
        for some in people {
            self.write(b" | ");
            self.write(some);
        }
        self.write(b"\n");
    }

    fn write(&mut self, bytes: &[u8]) {
        self.length += bytes.len() as u64;
        if self.length <= self.room as u64 {
            self.text.extend(bytes);
        }
    }
}
