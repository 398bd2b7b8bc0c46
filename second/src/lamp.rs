//! The lamp (A8 of 02): whether a message would get AA, and no more.

use crate::book::Book;
use crate::findings;
use crate::refusals::Accepted;
use std::ops::ControlFlow::{Break, Continue};

/// Number 0 with detail 1 for yes and 0 for no, or one of refusals 1 to 10. The first finding of severity E or W
/// decides, and a header finding is one.
pub fn lamp(m: &[u8], book: &[u8], stamp: &[u8]) -> (u8, u64) {
    match Accepted::stamped(m, &Book::read(book), stamp) {
        Ok(accepted) => (0, is_yes(&accepted).into()),
        Err(refusal) => refusal,
    }
}

/// Whether what the lamp says goes with grading and writing, whose ACK stands in the first bytes of the output.
pub fn agrees(lamp: (u8, u64), answer: (u8, u64), out: &[u8]) -> bool {
    match answer {
        (0, length) => {
            let msa = out[..length as usize].split(|b| *b == b'\r').nth(1);
            lamp == (0, msa.is_some_and(|msa| msa[4..].starts_with(b"AA")).into())
        }
        // There is no output, so row 11 does not exist.
        (11, _) => lamp.0 == 0,
        refusal => lamp == refusal,
    }
}

fn is_yes(Accepted { message, header, section }: &Accepted) -> bool {
    let graded = findings::grade(*message, header, section, |finding| match finding.severity.is_grave() {
        true => Break(()),
        false => Continue(()),
    });
    graded.is_continue()
}

#[cfg(test)]
mod tests {
    use super::*;
    use crate::samples::STAMP;

    // Section AX: PID-3 NUMBER I, PID-5 REQUIRED W, OBX-1 NUMBER E.
    const BOOK: &[u8] = b"VXB\0\x01\x01\x02AX\0\x03\0PID\x03\0\x03I\0\0\0PID\x05\0\x01W\0\0\0OBX\x01\0\x03E\0\0\0";

    #[test]
    fn yes_or_no() {
        let of = |header: &str, segments: &str| {
            let message = format!("MSH|^~\\&|CAB|C1|REG|AX|||{header}\r{segments}");
            lamp(message.as_bytes(), BOOK, STAMP)
        };
        let sound = "VXU^V04|M1|P|2.5.1";
        for (segments, detail) in [
            ("PID|||1||ROE\r", 1),
            ("PID|||x||ROE\r", 1),
            ("PID|||x~y||ROE\rORC\rRXA\rOBX|1\r", 1),
            ("PID|||1\r", 0),
            ("PID|||x\r", 0),
            ("PID|||x||ROE\rORC\rRXA\rOBX|1\rOBX|x\r", 0),
            ("PID|||1||ROE\rRXA\r", 0),
            ("PID|||1||ROE\rORC\r", 0),
            ("", 0),
        ] {
            assert_eq!(of(sound, segments), (0, detail), "{segments:?}");
        }
        for header in ["ADT^V04|M1|P|2.5.1", "VXU^A01|M1|P|2.5.1", "VXU^V04|M1|X|2.5.1", "VXU^V04|M1|P|2.5"] {
            assert_eq!(of(header, "PID|||1||ROE\r"), (0, 0), "{header}");
        }
        assert_eq!(of("VXU^V04||P|2.5.1", "PID|||1||ROE\r"), (6, 0));
        assert_eq!(of(sound, "PID|||1||ROE\r\r"), (5, 57));
    }

    #[test]
    fn what_goes_with_an_answer() {
        let ack = |code: &str| format!("MSH!#$%'!AA\rMSA!{code}!AA\rERR!!AA\rMSA!AA\r").into_bytes();
        for (code, detail) in [("AA", 1), ("AE", 0), ("AR", 0)] {
            let out = ack(code);
            let answer = (0, out.len() as u64 - 7);
            assert!(agrees((0, detail), answer, &out), "{code}");
            for other in [(0, 1 - detail), (11, 0), (10, 0), (1, detail)] {
                assert!(!agrees(other, answer, &out), "{code} {other:?}");
            }
        }
        assert!(agrees((0, 0), (11, 300), b"") && agrees((0, 1), (11, 300), b""));
        assert!(!agrees((11, 300), (11, 300), b"") && !agrees((10, 0), (11, 300), b""));
        assert!(agrees((5, 71), (5, 71), b"") && agrees((10, 0), (10, 0), b""));
        assert!(!agrees((5, 72), (5, 71), b"") && !agrees((0, 0), (10, 0), b"") && !agrees((9, 0), (10, 0), b""));
    }

    #[test]
    fn refusals_come_first() {
        let m = b"MSH|^~\\&|CAB|C1|REG|AX|||VXU^V04|M1|P|2.5.1\rPID|||1||ROE\r";
        assert_eq!(lamp(m, BOOK, STAMP), (0, 1));
        assert_eq!(lamp(m, BOOK, b"20250113120000"), (10, 0));
        assert_eq!(lamp(m, b"VXB\0\x01\x01\x02BX\0\0\0", b""), (9, 0));
        assert_eq!(lamp(m, b"VXB\0\x02", b""), (8, 0));
        assert_eq!(lamp(m, b"", b""), (7, 0));
        assert_eq!(lamp(b"MSH|^~\\&|\r", b"", b""), (6, 0));
        assert_eq!(lamp(b"", b"", b""), (1, 0));
    }
}
