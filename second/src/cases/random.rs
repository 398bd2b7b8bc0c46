//! Random numbers that depend on a seed and a case's index alone (splitmix64).

pub struct Random {
    state: u64,
}

impl Random {
    pub fn new(seed: u64, index: u64) -> Self {
        let mut random = Random { state: seed };
        random.state = random.number() ^ index;
        random.number();
        random
    }

    pub fn number(&mut self) -> u64 {
        self.state = self.state.wrapping_add(0x9E37_79B9_7F4A_7C15);
        let mut z = self.state;
        z = (z ^ (z >> 30)).wrapping_mul(0xBF58_476D_1CE4_E5B9);
        z = (z ^ (z >> 27)).wrapping_mul(0x94D0_49BB_1331_11EB);
        z ^ (z >> 31)
    }

    pub fn below(&mut self, limit: usize) -> usize {
        (self.number() % limit as u64) as usize
    }

    pub fn between(&mut self, low: usize, high: usize) -> usize {
        low + self.below(high - low + 1)
    }

    pub fn one_in(&mut self, count: usize) -> bool {
        self.below(count) == 0
    }

    pub fn pick<T: Copy>(&mut self, items: &[T]) -> T {
        items[self.below(items.len())]
    }

    /// A byte of the text.
    pub fn letter(&mut self, text: &[u8]) -> u8 {
        self.pick(text)
    }

    pub fn text(&mut self, text: &[u8], length: usize) -> Vec<u8> {
        (0..length).map(|_| self.letter(text)).collect()
    }
}
