//! Places in a message and near it.

use super::random::Random;

/// Segment, field, repetition and component, there or not.
pub fn place(random: &mut Random, message: &[u8]) -> [u32; 4] {
    let segments = message.iter().filter(|b| **b == b'\r').count();
    let segment = random.below(segments + 2) as u32;
    let [field, repetition, component] = [(); 3].map(|()| number(random, message.len()));
    let mut place = [segment, field, repetition, component];
    if random.one_in(16) {
        // Numbers that a narrower type would take for small ones.
        place[random.below(4)] = random.pick(&[255, 256, 257, 65_535, 65_536, 65_537, u32::MAX - 1, u32::MAX]);
    }
    place
}

/// Small as a rule, any that a long message may have now and then.
fn number(random: &mut Random, length: usize) -> u32 {
    let number = match random.below(16) {
        0 => random.below(40),
        1 => random.below(110),
        2 if length > 4_096 => random.below(length),
        3..6 => random.below(8),
        6..9 => random.below(4),
        _ => 1,
    };
    number as u32
}

/// The start of a segment after the first, or the message's end.
pub fn segment_start(random: &mut Random, message: &[u8]) -> usize {
    let starts: Vec<usize> = (1..=message.len()).filter(|at| message[at - 1] == b'\r').collect();
    starts.get(random.below(starts.len().max(1))).copied().unwrap_or(message.len())
}
