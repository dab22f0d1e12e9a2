//! The row of the checksum. The proved one is in a library of its own, since no other call shows it.

use inputs::Prng;

use crate::row::{Job, Restored, Row};

const DATA: usize = 62;

extern "C" {
    fn galtuyeg_checksum(bytes: *const u8, length: usize) -> u16;
}

fn proved(bytes: &[u8]) -> u16 {
    // SAFETY: pointer and length are of one slice, borrowed for the call, which only reads it.
    unsafe { galtuyeg_checksum(bytes.as_ptr(), bytes.len()) }
}

pub fn rows() -> Vec<Row<'static>> {
    let mut prng = Prng::new(6, 0);
    let job = Job {
        call: "checksum",
        kib: None,
        on: format!("{DATA} bytes"),
        inputs: (0..64).map(|_| prng.array()).collect(),
        answer: 0,
        fresh: (),
        restored: Restored::EachTiming,
        restore: Clone::clone_from,
    };
    let theirs: [fn(&[u8]) -> u16; 2] = [by_table, fastest::checksum];
    vec![job.row(
        |_, data: &[u8; DATA]| proved(data),
        theirs.map(|sum| move |_: &mut (), data: &[u8; DATA]| sum(data)),
    )]
}

/// As it is written as a rule: a table of 256 numbers, byte by byte.
fn by_table(bytes: &[u8]) -> u16 {
    !bytes.iter().fold(0xffff, |sum, byte| (sum << 8) ^ TABLE[usize::from((sum >> 8) as u8 ^ byte)])
}

static TABLE: [u16; 256] = {
    let mut table = [0; 256];
    let mut at = 0;
    while at < 256 {
        table[at] = shifted(at as u16);
        at += 1;
    }
    table
};

/// A byte, shifted left sixteen times.
const fn shifted(byte: u16) -> u16 {
    let mut sum = byte << 8;
    let mut times = 0;
    while times < 8 {
        sum = (sum << 1) ^ if sum & 0x8000 != 0 { 4_129 } else { 0 };
        times += 1;
    }
    sum
}

#[cfg(test)]
mod tests {
    use super::*;

    #[test]
    fn checksums_of_every_length_agree() {
        let bytes: [u8; 300] = Prng::new(7, 0).array();
        for length in 0..bytes.len() {
            let part = &bytes[..length];
            assert_eq!(proved(part), by_table(part));
            assert_eq!(proved(part), fastest::checksum(part));
        }
    }
}
