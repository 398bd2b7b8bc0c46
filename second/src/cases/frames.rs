//! The frame of a batch file, and each point of row 14 broken in it.

use super::delimiters::{self, exchange, Five};
use super::near;
use super::places;
use super::random::Random;
use crate::batch::{FILE_LIMIT, POINTS};

/// A batch file in parts.
pub struct Parts {
    five: Five,
    /// FHS, BHS, BTS and FTS without their CRs.
    frame: [Vec<u8>; 4],
    messages: Vec<Vec<u8>>,
}

impl Parts {
    /// A sound frame with delimiters of its own.
    pub fn around(random: &mut Random, messages: Vec<Vec<u8>>) -> Parts {
        let mut frame = [
            [b"FHS|^~\\&|".as_slice(), &fields(random)].concat(),
            batch_header(random),
            trailer(random, b"BTS", messages.len()),
            trailer(random, b"FTS", 1),
        ];
        let five = delimiters::five(random);
        for segment in &mut frame {
            exchange(segment, &five);
        }
        Parts { five, frame, messages }
    }

    pub fn file(&self) -> Vec<u8> {
        let [fhs, bhs, bts, fts] = &self.frame;
        [fhs, b"\r".as_slice(), bhs, b"\r", &self.messages.concat(), bts, b"\r", fts, b"\r"].concat()
    }

    /// Brings the file to a length by a field that nobody looks at, if it is shorter.
    pub fn lengthen(&mut self, random: &mut Random, length: usize) {
        let missing = length.saturating_sub(self.file().len() + 2);
        let at = random.below(4);
        self.append(at, &vec![b'x'; missing]);
    }

    /// A further field of a frame segment that is not its first.
    fn append(&mut self, at: usize, field: &[u8]) {
        self.frame[at].extend([self.five[0]; 2]);
        self.frame[at].extend(field);
    }

    /// The file with one point of row 14 broken, for which the control number may have to go up. That of the control
    /// numbers needs two messages.
    pub fn spoilt(mut self, random: &mut Random, control: &mut u32, point: usize) -> Vec<u8> {
        match POINTS[point] {
            "over 1 MiB" => {
                let past = random.pick(&[1, 1, 1, 2, 9, 65_536]);
                self.lengthen(random, FILE_LIMIT + past);
            }
            "no last CR" => {
                let mut file = self.file();
                file.pop();
                return file;
            }
            "fewer than four segments" => return self.few_segments(random),
            "FHS not first" => self.rename(random, 0),
            "BHS not second" => self.rename(random, 1),
            "BTS not last but one" => self.rename(random, 2),
            "FTS not last" => self.rename(random, 3),
            "a frame name elsewhere" => self.stray(random),
            "no MSH after BHS" => {
                let first =
                    random.pick(&[b"PID\r".as_slice(), b"\r", b"ZZZ|1\r", b"MS\r", b"msh|\r", b" MSH|\r", b"\xFF\r"]);
                self.messages.insert(0, first.to_vec());
            }
            "a byte in FHS" => self.foreign_byte(random, 0),
            "a byte in BHS" => self.foreign_byte(random, 1),
            "a byte in BTS" => self.foreign_byte(random, 2),
            "a byte in FTS" => self.foreign_byte(random, 3),
            "FHS with fewer bytes" => self.frame[0].truncate(random.between(4, 8)),
            "FHS with a byte that may not delimit" => self.forbid(random),
            "FHS with two equal delimiters" => {
                let at = random.between(4, 7);
                self.frame[0][at] = self.frame[0][random.between(3, at - 1)];
            }
            "FHS with another byte 8" => {
                let others: Vec<u8> = b"|^~\\&#!A \"".iter().copied().filter(|byte| *byte != self.five[0]).collect();
                self.frame[0][8] = random.letter(&others);
            }
            "the form of BHS" => self.misshape(random, 1),
            "the form of BTS" => self.misshape(random, 2),
            "the form of FTS" => self.misshape(random, 3),
            "BTS-1" => self.miscount(random, 2, self.messages.len()),
            "FTS-1" => self.miscount(random, 3, 1),
            _ => *control = u32::MAX - random.below(self.messages.len() - 1) as u32,
        }
        self.file()
    }

    fn few_segments(&self, random: &mut Random) -> Vec<u8> {
        let [fhs, bhs, bts, fts] = self.frame.each_ref().map(Vec::as_slice);
        let some: [&[&[u8]]; 6] = [&[fhs], &[fhs, fts], &[fhs, bhs, bts], &[fhs, bts, fts], &[bhs, bts, fts], &[b""]];
        [random.pick(&some).join(&b'\r'), b"\r".to_vec()].concat()
    }

    /// Another name of a good form.
    fn rename(&mut self, random: &mut Random, at: usize) {
        let names = [b"FHS".as_slice(), b"BHS", b"BTS", b"FTS", b"ZZZ", b"PID", b"FH1", b"BTX"];
        let others: Vec<&[u8]> = names.into_iter().filter(|name| !self.frame[at].starts_with(name)).collect();
        self.frame[at][..3].copy_from_slice(random.pick(&others));
    }

    /// A frame name, or what begins with one, inside a message or after it.
    fn stray(&mut self, random: &mut Random) {
        let names = [b"FHS".as_slice(), b"BHS", b"BTS", b"FTS", b"BTS|1", b"FHS|^~\\&|", b"BTSX", b"FTS\t", b"BHSbts|"];
        let stray = [random.pick(&names), b"\r"].concat();
        match self.messages.len() {
            // Then it stands where a message would begin, too.
            0 => self.messages.push(stray),
            count => {
                let message = &mut self.messages[random.below(count)];
                let at = places::segment_start(random, message);
                message.splice(at..at, stray);
            }
        }
    }

    fn foreign_byte(&mut self, random: &mut Random, at: usize) {
        let byte = random.letter(b"\0\x01\t\n\x0C\x1F\x7F\x80\xFF");
        let before = near::filler(random);
        self.append(at, &[before, vec![byte]].concat());
    }

    /// A byte that may not delimit in FHS; where it is the bar, in the whole frame.
    fn forbid(&mut self, random: &mut Random) {
        let byte = random.letter(b" \"+-.09AZ_az");
        if byte.is_ascii_digit() || random.one_in(2) {
            self.frame[0][random.between(4, 7)] = byte;
            return;
        }
        for old in self.frame.iter_mut().flatten().filter(|old| **old == self.five[0]) {
            *old = byte;
        }
    }

    /// Something between a name and what follows it, or another byte in the place of its bar.
    fn misshape(&mut self, random: &mut Random, at: usize) {
        let others: Vec<u8> = b"X1 |^#!a".iter().copied().filter(|byte| *byte != self.five[0]).collect();
        let byte = random.letter(&others);
        match self.frame[at].get_mut(3) {
            Some(bar) if random.one_in(2) => *bar = byte,
            _ => self.frame[at].insert(3, byte),
        }
    }

    fn miscount(&mut self, random: &mut Random, at: usize, count: usize) {
        let wrong = wrong_count(random, count);
        self.frame[at].truncate(3);
        self.frame[at].push(self.five[0]);
        self.frame[at].extend(wrong.bytes());
    }
}

/// Fields that nobody looks at.
fn fields(random: &mut Random) -> Vec<u8> {
    let some = random.pick(&[b"".as_slice(), b"", b"CLINIC|C1", b"|MSH|^~\\&|", b"BTS|3", b"a^b~c&\\d", b"|"]);
    [some, &near::filler(random)].concat()
}

/// BHS with any delimiters or none.
fn batch_header(random: &mut Random) -> Vec<u8> {
    let begin = random.pick(&[b"BHS|^~\\&|".as_slice(), b"BHS|^~\\&|", b"BHS|#!$%|", b"BHS|^^ A", b"BHS|"]);
    if random.one_in(4) {
        return b"BHS".to_vec();
    }
    [begin, &fields(random)].concat()
}

/// BTS or FTS with a count in digits, or none.
fn trailer(random: &mut Random, name: &[u8], count: usize) -> Vec<u8> {
    let zeros = "0".repeat(random.pick(&[0, 0, 0, 1, 2, 9, 19, 40]));
    let number = if random.one_in(4) { String::new() } else { format!("{zeros}{count}") };
    match random.below(4) {
        0 => name.to_vec(),
        1 => [name, b"|", number.as_bytes(), b"|", &fields(random)].concat(),
        _ => [name, b"|", number.as_bytes()].concat(),
    }
}

/// A count near to the right one, or a number that a narrower type would take for it.
fn wrong_count(random: &mut Random, count: usize) -> String {
    match random.below(15) {
        0 => (count + 1).to_string(),
        1 => count.checked_sub(1).unwrap_or(2).to_string(),
        2 => format!("{count}0").replacen("00", "10", 1),
        3 => format!("1{count}"),
        4 => (count + 256).to_string(),
        5 => (count + 65_536).to_string(),
        6 => (count as u64 + (1 << 32)).to_string(),
        7 => (count as u128 + (1 << 64)).to_string(),
        8 => format!(" {count}"),
        9 => format!("+{count}"),
        10 => "\"\"".into(),
        _ => format!("{count}{}", random.pick(&["~", "^", " ", ".", "a", ".0", "-", "~1"])),
    }
}
