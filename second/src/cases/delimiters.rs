//! Other delimiters for messages that were made with the usual ones.

use super::places;
use super::random::Random;
use crate::limits::HEADER;

pub type Five = [u8; 5];

pub const USUAL: Five = *b"|^~\\&";
/// Bytes that stand in values as plain text too.
const COMMON: Five = *b"#!$%'";
/// Every byte that may delimit, by hand and in order.
pub const ALLOWED: [u8; 27] = *b"!#$%&'()*,/:;<=>?@[\\]^`{|}~";

/// The usual five, but others in a quarter of the messages.
pub fn five(random: &mut Random) -> Five {
    if random.one_in(4) {
        other(random)
    } else {
        USUAL
    }
}

/// One other byte, the usual ones with each other's meaning, or any.
fn other(random: &mut Random) -> Five {
    match random.below(4) {
        0 => {
            let mut five = USUAL;
            five[random.below(5)] = random.letter(&COMMON);
            five
        }
        1 => drawn(random, USUAL),
        2 => drawn(random, COMMON),
        _ => drawn(random, ALLOWED),
    }
}

/// Five different ones of the bytes.
fn drawn<const N: usize>(random: &mut Random, mut bytes: [u8; N]) -> Five {
    std::array::from_fn(|k| {
        bytes.swap(k, random.between(k, N - 1));
        bytes[k]
    })
}

/// What becomes of each byte. No two become one, so that the new delimiters cut as the usual ones did, and plain text
/// that looked like the new ones looks like the usual ones afterwards.
fn table(five: &Five) -> [u8; 256] {
    let mut table = std::array::from_fn(|byte| byte as u8);
    let free = USUAL.iter().filter(|byte| !five.contains(byte));
    let taken = five.iter().filter(|byte| !USUAL.contains(byte));
    for (old, new) in USUAL.iter().zip(five).chain(taken.zip(free)) {
        table[usize::from(*old)] = *new;
    }
    table
}

/// Puts five delimiters in the place of the usual ones.
pub fn exchange(message: &mut [u8], five: &Five) {
    let table = table(five);
    for byte in message {
        *byte = table[usize::from(*byte)];
    }
}

/// Exchanges all bars but leaves some of the other bytes as they are: plain text where a delimiter was, and delimiters
/// where plain text was.
fn exchange_some(random: &mut Random, message: &mut [u8], five: &Five) {
    let table = table(five);
    let rate = random.pick(&[2, 8, 32]);
    for (at, byte) in message.iter_mut().enumerate() {
        if at < 9 || *byte == b'|' || !random.one_in(rate) {
            *byte = table[usize::from(*byte)];
        }
    }
}

/// Other delimiters now and then, for a message that need not be answered; sometimes in a later MSH alone.
pub fn vary(random: &mut Random, message: &mut Vec<u8>) {
    let five = five(random);
    if random.one_in(4) {
        exchange_some(random, message, &five);
    } else {
        exchange(message, &five);
    }
    if random.one_in(16) {
        insert_header(random, message, &five);
    }
}

/// A further MSH with the message's own delimiters, its own bar alone, the usual ones or any.
fn insert_header(random: &mut Random, message: &mut Vec<u8>, own: &Five) {
    let five = match random.below(4) {
        0 => *own,
        1 => [own[0], b'^', b'~', b'\\', b'&'],
        2 => USUAL,
        _ => other(random),
    };
    let mut header = HEADER.to_vec();
    exchange(&mut header, &five);
    let at = places::segment_start(random, message);
    message.splice(at..at, header);
}

#[cfg(test)]
mod tests {
    use super::*;
    use crate::cases::structured;
    use crate::cutting;

    #[test]
    fn fives_are_allowed_and_often_the_usual_ones() {
        let random = &mut Random::new(1, 1);
        let mut others = 0;
        for _ in 0..4_000 {
            let five = five(random);
            others += u32::from(five != USUAL);
            let beginning = [b"MSH".as_slice(), &five, &five[..1]].concat();
            assert_eq!(cutting::check(&[&beginning, b"\r".as_slice()].concat()), (0, 0), "{five:?}");
        }
        assert!((800..1_100).contains(&others), "{others}");
    }

    #[test]
    fn bytes_are_exchanged_both_ways() {
        let exchanged = |five: &Five| {
            let mut message = b"MSH|^~\\&|#a^|b!".to_vec();
            exchange(&mut message, five);
            String::from_utf8_lossy(&message).into_owned()
        };
        assert_eq!(exchanged(b"|#~\\&"), "MSH|#~\\&|^a#|b!");
        assert_eq!(exchanged(b"!#$%'"), "MSH!#$%'!^a#!b|");
        assert_eq!(exchanged(b"^|~&\\"), "MSH^|~&\\^#a|^b!");
        assert_eq!(exchanged(&USUAL), "MSH|^~\\&|#a^|b!");
    }

    #[test]
    fn exchanging_does_not_move_what_is_cut() {
        for index in 0..200 {
            let random = &mut Random::new(4, index);
            let message = structured(random).message;
            let mut exchanged = message.clone();
            exchange(&mut exchanged, &other(random));
            for _ in 0..20 {
                let place = places::place(random, &message).map(|number| number as usize);
                assert_eq!(crate::locate(&exchanged, place), crate::locate(&message, place), "{place:?}");
            }
        }
    }
}
