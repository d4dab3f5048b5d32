//! Numbers that look random and are the same on every run (splitmix64).

pub struct Random(u64);

impl Random {
    pub fn new(seed: u64) -> Self {
        Self(seed)
    }

    pub fn next(&mut self) -> u64 {
        self.0 = self.0.wrapping_add(0x9e37_79b9_7f4a_7c15);
        let mut z = self.0;
        z = (z ^ (z >> 30)).wrapping_mul(0xbf58_476d_1ce4_e5b9);
        z = (z ^ (z >> 27)).wrapping_mul(0x94d0_49bb_1331_11eb);
        z ^ (z >> 31)
    }

    pub fn byte(&mut self) -> u8 {
        self.next() as u8
    }

    /// A number below `bound`, which isn't 0.
    pub fn below(&mut self, bound: usize) -> usize {
        ((u128::from(self.next()) * bound as u128) >> 64) as usize
    }

    /// True once in `times`.
    pub fn once_in(&mut self, times: usize) -> bool {
        self.below(times) == 0
    }

    pub fn one_of<T: Copy>(&mut self, choice: &[T]) -> T {
        choice[self.below(choice.len())]
    }

    pub fn bytes(&mut self, len: usize) -> Vec<u8> {
        (0..len).map(|_| self.byte()).collect()
    }

    pub fn uuid(&mut self) -> [u8; 16] {
        let mut uuid = [0; 16];
        // Small, great and mixed items: below 128 an item of the tagged form has one byte, otherwise two.
        let mask = self.one_of(&[0x00, 0x7f, 0xff, 0xff]);
        uuid.iter_mut().for_each(|b| *b = self.byte() & mask);
        uuid
    }

    /// A number of any width, often at the edge of one.
    pub fn number(&mut self) -> u64 {
        match self.below(8) {
            0 => self.below(4) as u64,
            1 | 2 => {
                let power = 1u64 << self.below(64);
                self.one_of(&[power.wrapping_sub(1), power, power + 1])
            }
            3 => self.one_of(&[
                250,
                251,
                65_535,
                65_536,
                16_777_215,
                16_777_216,
                (1 << 63) - 1,
                1 << 63,
                u64::MAX,
            ]),
            _ => self.next() >> self.below(64),
        }
    }
}
