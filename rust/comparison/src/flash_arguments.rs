//! The numbers, pages and lengths that calls on a partition bring.

use inputs::flash::PAGE;
use inputs::Prng;

/// Any 60 bytes, now and then all alike, zeros and FF among them.
pub fn page(prng: &mut Prng) -> [u8; PAGE] {
    match prng.below(8) {
        0 => [prng.pick(&[0, 0xff]); PAGE],
        1 => [prng.byte(); PAGE],
        _ => prng.array(),
    }
}

/// The pages that a writer saves: in half of the runs a few, over and over, so that many are there already.
#[derive(Clone)]
pub struct Pages(Vec<[u8; PAGE]>);

impl Pages {
    pub fn any(prng: &mut Prng) -> Pages {
        let count = prng.pick(&[0, 0, 0, 1, 2, 3]);
        Pages((0..count).map(|_| page(prng)).collect())
    }

    pub fn draw(&self, prng: &mut Prng) -> [u8; PAGE] {
        match self.0.as_slice() {
            [] => page(prng),
            few => prng.pick(few),
        }
    }
}

/// Bytes for a page buffer: 60, or now and then another length.
pub fn any_page(prng: &mut Prng) -> Vec<u8> {
    let length = match prng.below(12) {
        0 => prng.pick(&[0, 1, 59, 61, 62, 64, 120, 316]),
        1 => prng.below(130),
        _ => PAGE,
    };
    let mut bytes = vec![0; length];
    prng.fill(&mut bytes);
    bytes
}

/// A logical number: mostly legal, else at and past the top, or legal again once cut to fewer bits.
pub fn number(prng: &mut Prng, top: u64) -> u64 {
    let legal = prng.draw() % (top + 1);
    match prng.below(16) {
        0 => prng.pick(&[0, 1, top - 1, top]),
        1 => top + 1,
        2 => prng.pick(&[top + 2, 0xffff, 0x1_0000, u64::MAX, u64::MAX - 1]),
        3 => legal + prng.pick(&[1 << 10, 1 << 16, 1 << 32, 1 << 63]),
        4 => prng.draw() >> prng.below(64),
        _ => legal,
    }
}

/// The partition's own number, or now and then another.
pub fn partition_number(prng: &mut Prng, own: u8) -> u8 {
    if prng.one_in(12) {
        prng.byte()
    } else {
        own
    }
}
