//! The checksum, by folding.
//!
//! The bytes are a polynomial over two elements, the first byte's top bit foremost, and the checksum is
//! its remainder by P = x^16 + x^12 + x^5 + 1. Squaring doubles the exponents, so P^2, P^4, P^8 and P^16
//! have four terms too: a word at the front is taken away with a few shifts and exclusive ors. P^8 and
//! P^16 shift by whole bytes, which words loaded little endian do as well, the other way round.

const BLOCK: usize = 64;
const DATA: usize = BLOCK - 2;

/// FFFF to begin with: these bits of the first word, loaded little endian, are turned.
const START: u64 = 0xffff;

/// The same before the first word, if there is any: it leaves FFFF when shifted left by 16.
const BEFORE: u64 = 0x84cf;

/// The checksum of any bytes.
pub fn checksum(bytes: &[u8]) -> u16 {
    if let Ok(data) = bytes.try_into() {
        return of_data(data);
    }
    let (words, rest) = bytes.as_chunks();
    let folded = words.iter().fold(BEFORE, |sum, &word| fold64(sum) ^ u64::from_be_bytes(word));
    !rest.iter().fold(fold16(remainder(folded)), |sum, &byte| take(sum, byte))
}

/// The checksum of what stands before it in a block.
#[inline(always)]
pub(crate) fn of_data(data: &[u8; DATA]) -> u16 {
    let word = |at| u64::from_le_bytes(*data[at..].first_chunk().unwrap());
    let (mut a, mut b, mut c, mut d) = (word(0) ^ START, word(8), word(16), word(24));
    // By P^16 = x^256 + x^192 + x^80 + 1. The last word is of six bytes and two zeros.
    for next in [word(32), word(40), word(48), word(54) >> 16] {
        (a, b, c, d) = (b ^ a, c ^ (a << 48), d ^ (a >> 16), next ^ a);
    }
    (b, c) = fold128(a, b, c);
    (c, d) = fold128(b, c, d);
    !remainder(fold64(c.swap_bytes()) ^ d.swap_bytes())
}

/// The first of three words into the others, all of them little endian, by P^8 = x^128 + x^96 + x^40 + 1.
#[inline(always)]
fn fold128(a: u64, b: u64, c: u64) -> (u64, u64) {
    let q = a ^ (a << 32);
    (b ^ (q >> 32) ^ (q << 24), c ^ (q >> 40) ^ q)
}

/// A word times x^64, by P^4 = x^64 + x^48 + x^20 + 1.
#[inline(always)]
fn fold64(a: u64) -> u64 {
    let t = a ^ (a >> 16);
    let q = t ^ (t >> 32) ^ (a >> 44);
    q ^ (q << 20) ^ (q << 48)
}

/// Half a word times x^32, by P^2 = x^32 + x^24 + x^10 + 1.
#[inline(always)]
fn fold32(a: u32) -> u32 {
    let t = a ^ (a >> 8);
    let q = t ^ (t >> 16) ^ (a >> 22);
    q ^ (q << 10) ^ (q << 24)
}

/// 16 digits times x^16, by P.
#[inline(always)]
fn fold16(a: u16) -> u16 {
    let t = a ^ (a >> 4);
    let q = t ^ (t >> 8) ^ (a >> 11);
    q ^ (q << 5) ^ (q << 12)
}

#[inline(always)]
fn remainder(a: u64) -> u16 {
    let half = fold32((a >> 32) as u32) ^ a as u32;
    fold16((half >> 16) as u16) ^ half as u16
}

/// One more byte.
fn take(sum: u16, byte: u8) -> u16 {
    let front = (sum >> 8) ^ u16::from(byte);
    let q = front ^ (front >> 4);
    (sum << 8) ^ q ^ (q << 5) ^ (q << 12)
}

#[cfg(test)]
mod tests {
    use super::*;

    /// As the description has it.
    fn bit_by_bit(bytes: &[u8]) -> u16 {
        let mut sum = 0xffff_u16;
        for &byte in bytes {
            sum ^= u16::from(byte) << 8;
            for _ in 0..8 {
                let top = sum & 0x8000 != 0;
                sum = (sum << 1) ^ if top { 4_129 } else { 0 };
            }
        }
        !sum
    }

    #[test]
    fn every_length_is_as_bit_by_bit() {
        let bytes: Vec<u8> =
            (0..400_u32).map(|at| (at.pow(2).wrapping_mul(0x9e37_79b1) >> 24) as u8).collect();
        for length in 0..bytes.len() {
            let part = &bytes[bytes.len() - length..];
            assert_eq!(checksum(part), bit_by_bit(part), "{length} bytes");
        }
    }

    /// The checksum is affine, so bits one by one and none say all of it.
    #[test]
    fn every_bit_of_a_block_counts() {
        for bit in 0..8 * DATA {
            let mut data = [0; DATA];
            assert_eq!(checksum(&data), bit_by_bit(&data));
            data[bit / 8] = 0x80 >> (bit % 8);
            assert_eq!(checksum(&data), bit_by_bit(&data), "bit {bit}");
        }
    }
}
