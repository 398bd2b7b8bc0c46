//! A place in a message: nth segment, field, repetition, component.

use crate::cutting::{Message, Part};

/// Start and length of a place: segment, field, repetition, component. A missing place is empty at
/// the end of what it would be in; every place is `(0, 0)` where refusals 1 to 5 apply.
pub fn locate(m: &[u8], place: [usize; 4]) -> (usize, usize) {
    match Message::read(m) {
        Ok(message) => {
            let part = find(message, place);
            (part.start, part.end - part.start)
        }
        Err(_) => (0, 0),
    }
}

fn find(message: Message, [segment, field, repetition, component]: [usize; 4]) -> Part {
    let whole = Part { start: 0, end: message.length() };
    let Some(found) = nth(message.segments(), segment) else {
        return whole.missing();
    };
    let header = message.name(found) == b"MSH";
    let Some(found) = find_field(message, found, header, field) else {
        return found.missing();
    };
    if header && field <= 2 {
        // MSH-1 and MSH-2 have one repetition of one component.
        return if repetition == 1 && component <= 1 { found } else { found.missing() };
    }
    let Some(found) = nth(message.repetitions(found), repetition) else {
        return found.missing();
    };
    message.component(found, component)
}

fn find_field(message: Message, segment: Part, header: bool, field: usize) -> Option<Part> {
    match (header, field) {
        (_, 0) => None,
        (false, k) => message.parts(segment).nth(k),
        (true, 1) => {
            let bar = Part { start: segment.start + 3, end: segment.start + 4 };
            (bar.end <= segment.end).then_some(bar)
        }
        (true, k) => message.parts(segment).nth(k - 1),
    }
}

fn nth(mut pieces: impl Iterator<Item = Part>, number: usize) -> Option<Part> {
    pieces.nth(number.checked_sub(1)?)
}

#[cfg(test)]
mod tests {
    use super::*;

    #[test]
    fn places_and_missing_places() {
        // Segments start at 0, 13, 29 and 33; their CRs stand at 12, 28, 32 and 44.
        let m = b"MSH|^~\\&|A|B\rPID|1||x^y~^z~|\rMSH\rMSH|x~y^z|q\r";
        let rows: [([usize; 4], (usize, usize)); 41] = [
            ([1, 1, 1, 0], (3, 1)),
            ([1, 1, 1, 1], (3, 1)),
            ([1, 1, 2, 1], (4, 0)),
            ([1, 1, 1, 2], (4, 0)),
            ([1, 2, 1, 0], (4, 4)),
            ([1, 2, 1, 1], (4, 4)),
            ([1, 2, 1, 2], (8, 0)),
            ([1, 2, 0, 0], (8, 0)),
            ([1, 2, 2, 0], (8, 0)),
            ([1, 3, 1, 0], (9, 1)),
            ([1, 4, 1, 0], (11, 1)),
            ([1, 5, 1, 0], (12, 0)),
            ([1, 0, 1, 0], (12, 0)),
            ([2, 1, 1, 0], (17, 1)),
            ([2, 1, 1, 1], (17, 1)),
            ([2, 1, 1, 2], (18, 0)),
            ([2, 2, 1, 1], (19, 0)),
            ([2, 2, 2, 0], (19, 0)),
            ([2, 3, 1, 0], (20, 3)),
            ([2, 3, 1, 1], (20, 1)),
            ([2, 3, 1, 2], (22, 1)),
            ([2, 3, 1, 3], (23, 0)),
            ([2, 3, 2, 0], (24, 2)),
            ([2, 3, 2, 1], (24, 0)),
            ([2, 3, 2, 2], (25, 1)),
            ([2, 3, 3, 0], (27, 0)),
            ([2, 3, 4, 0], (27, 0)),
            ([2, 3, 0, 1], (27, 0)),
            ([2, 4, 1, 0], (28, 0)),
            ([2, 5, 1, 0], (28, 0)),
            ([2, 0, 1, 0], (28, 0)),
            ([3, 1, 1, 0], (32, 0)),
            ([3, 2, 1, 0], (32, 0)),
            ([3, 7, 2, 3], (32, 0)),
            ([4, 1, 1, 0], (36, 1)),
            ([4, 2, 1, 0], (37, 5)),
            ([4, 2, 2, 0], (42, 0)),
            ([4, 3, 1, 0], (43, 1)),
            ([5, 1, 1, 0], (45, 0)),
            ([0, 1, 1, 0], (45, 0)),
            ([usize::MAX; 4], (45, 0)),
        ];
        for (place, expected) in rows {
            assert_eq!(locate(m, place), expected, "{place:?}");
        }
    }

    #[test]
    fn places_by_other_delimiters() {
        // Segments start at 0 and 13. Bars, carets, tildes and ampersands are plain characters here.
        let m = b"MSH!#$%'!A|B\rPID!x#y$^~#|&\r";
        let rows: [([usize; 4], (usize, usize)); 9] = [
            ([1, 1, 1, 1], (3, 1)),
            ([1, 2, 1, 0], (4, 4)),
            ([1, 3, 1, 0], (9, 3)),
            ([2, 1, 1, 0], (17, 3)),
            ([2, 1, 1, 2], (19, 1)),
            ([2, 1, 2, 0], (21, 5)),
            ([2, 1, 2, 1], (21, 2)),
            ([2, 1, 2, 2], (24, 2)),
            ([2, 1, 3, 1], (26, 0)),
        ];
        for (place, expected) in rows {
            assert_eq!(locate(m, place), expected, "{place:?}");
        }
    }

    #[test]
    fn refused_messages_have_no_places() {
        for m in [b"".as_slice(), b"MSH|^~\\&|A|B", b"MSH|^~\\&|A\r\r", b"MSH|^~\\&|A\n\r", b"MSH|^~^&|A\r"] {
            assert_eq!(locate(m, [1, 1, 1, 0]), (0, 0));
        }
        // Refusal 6 does not matter to the locator.
        assert_eq!(locate(b"MSH|^~\\&|\r", [1, 1, 1, 0]), (3, 1));
    }
}
