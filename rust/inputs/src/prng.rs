//! Random numbers that a seed fixes: xoshiro256**, started by splitmix64.

use std::ops::RangeInclusive;

pub struct Prng {
    state: [u64; 4],
}

impl Prng {
    /// The numbers of one part of a run: every part has its own, so that it can be run alone.
    pub fn new(seed: u64, part: u64) -> Prng {
        let mut mixed = seed ^ part.wrapping_mul(0xd134_2543_de82_ef95);
        let state = std::array::from_fn(|_| splitmix(&mut mixed));
        Prng { state }
    }

    pub fn draw(&mut self) -> u64 {
        let s = &mut self.state;
        let drawn = s[1].wrapping_mul(5).rotate_left(7).wrapping_mul(9);
        let shifted = s[1] << 17;
        s[2] ^= s[0];
        s[3] ^= s[1];
        s[1] ^= s[2];
        s[0] ^= s[3];
        s[2] ^= shifted;
        s[3] = s[3].rotate_left(45);
        drawn
    }

    /// A number below `limit`, which is not 0.
    pub fn below(&mut self, limit: usize) -> usize {
        (self.draw() % limit as u64) as usize
    }

    pub fn within(&mut self, range: RangeInclusive<usize>) -> usize {
        range.start() + self.below(range.end() - range.start() + 1)
    }

    pub fn one_in(&mut self, times: usize) -> bool {
        self.below(times) == 0
    }

    pub fn byte(&mut self) -> u8 {
        self.draw() as u8
    }

    pub fn word(&mut self) -> u16 {
        self.draw() as u16
    }

    pub fn pick<T: Copy>(&mut self, from: &[T]) -> T {
        from[self.below(from.len())]
    }

    /// One of these, or any.
    pub fn pick_or_byte(&mut self, from: &[u8]) -> u8 {
        match self.below(from.len() + 1) {
            0 => self.byte(),
            at => from[at - 1],
        }
    }

    /// One of these, or any.
    pub fn pick_or_word(&mut self, from: &[u16]) -> u16 {
        match self.below(from.len() + 1) {
            0 => self.word(),
            at => from[at - 1],
        }
    }

    pub fn fill(&mut self, bytes: &mut [u8]) {
        for part in bytes.chunks_mut(8) {
            let drawn = self.draw().to_le_bytes();
            part.copy_from_slice(&drawn[..part.len()]);
        }
    }

    pub fn array<const N: usize>(&mut self) -> [u8; N] {
        let mut bytes = [0; N];
        self.fill(&mut bytes);
        bytes
    }

    pub fn shuffle<T>(&mut self, items: &mut [T]) {
        for last in (1..items.len()).rev() {
            items.swap(last, self.below(last + 1));
        }
    }

    /// Half of the flips are at the ends, where a length that is one off shows.
    pub fn flip_bit(&mut self, bytes: &mut [u8]) {
        let at = match self.below(4) {
            0 => 0,
            1 => bytes.len() - 1,
            _ => self.below(bytes.len()),
        };
        bytes[at] ^= 1 << self.below(8);
    }
}

fn splitmix(state: &mut u64) -> u64 {
    *state = state.wrapping_add(0x9e37_79b9_7f4a_7c15);
    let mut mixed = *state;
    mixed = (mixed ^ (mixed >> 30)).wrapping_mul(0xbf58_476d_1ce4_e5b9);
    mixed = (mixed ^ (mixed >> 27)).wrapping_mul(0x94d0_49bb_1331_11eb);
    mixed ^ (mixed >> 31)
}
