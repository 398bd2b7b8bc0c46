//! How a message is cut: refusals 1 to 5, segments, fields, repetitions, components.

/// A refusal's number and detail.
pub type Refusal = (u8, u64);

pub const MESSAGE_LIMIT: usize = 32_768;
/// A message's first bytes: MSH, its five delimiters and the first of them again.
pub const BEGINNING: usize = 9;

/// A part of a message by its place in it; `end` is not included.
#[derive(Clone, Copy, Debug, Default, PartialEq, Eq)]
pub struct Part {
    pub start: usize,
    pub end: usize,
}

impl Part {
    /// The empty part that stands for what is missing in this one.
    pub fn missing(self) -> Part {
        Part { start: self.end, end: self.end }
    }
}

/// A message's own delimiters that cut, each called by the name of the usual one. The other two, for escape sequences
/// and subcomponents, are ordinary characters to a reader.
#[derive(Clone, Copy)]
pub struct Delimiters {
    pub bar: u8,
    pub caret: u8,
    pub tilde: u8,
}

/// A message that meets none of refusals 1 to 5.
#[derive(Clone, Copy)]
pub struct Message<'m> {
    bytes: &'m [u8],
    pub own: Delimiters,
}

impl<'m> Message<'m> {
    pub fn read(m: &'m [u8]) -> Result<Self, Refusal> {
        if m.is_empty() {
            return Err((1, 0));
        }
        if m.len() > MESSAGE_LIMIT {
            return Err((2, 0));
        }
        if let Some(position) = first_foreign_byte(m) {
            return Err((3, position as u64));
        }
        if row_4(m).contains(&false) {
            return Err((4, 0));
        }
        let own = Delimiters { bar: m[3], caret: m[4], tilde: m[5] };
        let mut start = 0;
        while start < m.len() {
            match find(&m[start..], b'\r') {
                Some(length) if well_formed(&m[start..start + length], own.bar) => start += length + 1,
                _ => return Err((5, start as u64)),
            }
        }
        Ok(Message { bytes: m, own })
    }

    /// The bytes up to MSH-3, with which the ACK begins too.
    pub fn beginning(self) -> &'m [u8] {
        &self.bytes[..BEGINNING]
    }

    /// The bytes of a part.
    pub fn text(self, part: Part) -> &'m [u8] {
        &self.bytes[part.start..part.end]
    }

    /// The segments in turn, each without its CR.
    pub fn segments(self) -> Pieces<'m> {
        // The last CR ends the last segment and does not begin another one.
        self.cut(Part { start: 0, end: self.bytes.len() - 1 }, b'\r')
    }

    /// The fields of the first segment, which is MSH.
    pub fn header(self) -> Fields {
        let mut fields = Fields::new();
        fields.cut(self, self.segments().next().unwrap_or_default());
        fields
    }

    pub fn name(self, segment: Part) -> &'m [u8] {
        &self.bytes[segment.start..segment.start + 3]
    }

    pub fn length(self) -> usize {
        self.bytes.len()
    }

    fn cut(self, part: Part, delimiter: u8) -> Pieces<'m> {
        Pieces { bytes: self.bytes, rest: Some(part), delimiter }
    }

    /// Part 0 is the name.
    pub fn parts(self, segment: Part) -> Pieces<'m> {
        self.cut(segment, self.own.bar)
    }

    pub fn repetitions(self, field: Part) -> Pieces<'m> {
        self.cut(field, self.own.tilde)
    }

    /// Component 0 is the whole repetition.
    // Inlined like `Rule::broken`.
    #[inline]
    pub fn component(self, repetition: Part, component: usize) -> Part {
        match component {
            0 => repetition,
            k => self.cut(repetition, self.own.caret).nth(k - 1).unwrap_or(repetition.missing()),
        }
    }
}

/// Refusals 1 to 5, or number 0 with detail 0.
pub fn check(m: &[u8]) -> Refusal {
    Message::read(m).err().unwrap_or((0, 0))
}

/// Row 4 point by point: nine bytes, the name, five bytes that are allowed, that differ, and the first of them again.
/// A shorter message lacks the first point alone.
pub fn row_4(m: &[u8]) -> [bool; 5] {
    opening(m, b"MSH")
}

/// Row 4's points for what begins with another name.
pub(crate) fn opening(bytes: &[u8], name: &[u8; 3]) -> [bool; 5] {
    let Some(nine) = bytes.first_chunk::<BEGINNING>() else {
        return [false, true, true, true, true];
    };
    let five = &nine[3..8];
    let allowed = five.iter().all(|b| may_delimit(*b));
    let differ = (1..five.len()).all(|k| !five[..k].contains(&five[k]));
    [true, nine.starts_with(name), allowed, differ, nine[8] == nine[3]]
}

fn may_delimit(byte: u8) -> bool {
    byte.is_ascii_graphic() && !byte.is_ascii_alphanumeric() && !matches!(byte, b'"' | b'.' | b'+' | b'-' | b'_')
}

/// The pieces between delimiters; there is always one more than delimiters.
pub struct Pieces<'m> {
    bytes: &'m [u8],
    rest: Option<Part>,
    delimiter: u8,
}

impl Iterator for Pieces<'_> {
    type Item = Part;

    fn next(&mut self) -> Option<Part> {
        let Part { start, end } = self.rest?;
        match find(&self.bytes[start..end], self.delimiter) {
            Some(length) => {
                self.rest = Some(Part { start: start + length + 1, end });
                Some(Part { start, end: start + length })
            }
            None => {
                self.rest = None;
                Some(Part { start, end })
            }
        }
    }
}

/// Fields 1 to 99 of one segment, cut once for all rules on it.
pub struct Fields {
    parts: [Part; 100],
    count: usize,
    /// MSH-1 is the bar itself, so field k of MSH is part k - 1.
    shift: usize,
    missing: Part,
}

impl Fields {
    pub(crate) fn new() -> Self {
        let none = Part::default();
        Fields { parts: [none; 100], count: 0, shift: 0, missing: none }
    }

    pub fn cut(&mut self, message: Message, segment: Part) {
        self.count = 0;
        for part in message.parts(segment).take(self.parts.len()) {
            self.parts[self.count] = part;
            self.count += 1;
        }
        self.shift = usize::from(message.name(segment) == b"MSH");
        self.missing = segment.missing();
    }

    /// A field from 1 to 99, in MSH from 2; an absent one is empty.
    pub fn field(&self, field: usize) -> Part {
        let part = field - self.shift;
        if part < self.count {
            self.parts[part]
        } else {
            self.missing
        }
    }
}

pub(crate) fn first_foreign_byte(m: &[u8]) -> Option<usize> {
    let foreign = |&b: &u8| !matches!(b, 0x20..=0x7E | b'\r');
    // Whole blocks first: a block without an early way out is judged many bytes at a time.
    let clean = m.chunks(64).take_while(|block| !block.iter().fold(false, |any, b| any | foreign(b))).count() * 64;
    let rest = m.get(clean..)?;
    rest.iter().position(foreign).map(|position| clean + position)
}

pub(crate) fn well_formed(segment: &[u8], bar: u8) -> bool {
    segment.len() >= 3
        && segment[0].is_ascii_uppercase()
        && segment[1..3].iter().all(|b| b.is_ascii_uppercase() || b.is_ascii_digit())
        && (segment.len() == 3 || segment[3] == bar)
}

fn find(bytes: &[u8], wanted: u8) -> Option<usize> {
    // Blocks of 16 are compared at once; the rest and short texts byte by byte.
    let blocks = bytes.chunks_exact(16);
    let clear = blocks.take_while(|block| !block.iter().fold(false, |any, b| any | (*b == wanted))).count() * 16;
    bytes[clear..].iter().position(|b| *b == wanted).map(|position| clear + position)
}

#[cfg(test)]
mod tests {
    use super::*;
    use crate::cases::ALLOWED;

    /// Row 4's answer to a byte at a place of the five, where the others are sound.
    fn takes(at: usize, byte: u8) -> bool {
        let mut m = *b"MSH!#$%'!";
        m[at] = byte;
        m[8] = m[3];
        !row_4(&m).contains(&false)
    }

    #[test]
    fn bytes_that_may_delimit() {
        for at in 3..8 {
            for byte in 0..=255 {
                // A byte that another one of the five has is the pair's fault.
                let free = byte == b"!#$%'"[at - 3] || !b"!#$%'".contains(&byte);
                assert_eq!(takes(at, byte), ALLOWED.contains(&byte) && free, "{byte} at {at}");
            }
        }
    }

    #[test]
    fn each_point_of_row_4_can_fail_alone() {
        let rows: [(&[u8], usize); 8] = [
            (b"MSH|^~\\&", 0),
            (b"", 0),
            (b"MSG|^~\\&|", 1),
            (b"msh|^~\\&|", 1),
            (b"MSH|^~\\_|", 2),
            (b"MSHX^~\\&X", 2),
            (b"MSH|^~^&|", 3),
            (b"MSH|^~\\&!", 4),
        ];
        for (m, point) in rows {
            assert_eq!(row_4(m), std::array::from_fn(|k| k != point), "{}", m.escape_ascii());
        }
        assert_eq!(row_4(b"MSH|^~\\&|"), [true; 5]);
    }
}
