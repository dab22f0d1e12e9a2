//! The 16-bit CRC of a flash block: polynomial 0x1021, most significant bit
//! first, start value 0xFFFF, result inverted.
//!
//! Worked sixteen bytes at a time ("slicing"): the contribution of each byte
//! of a chunk is looked up on its own, so only the first two lookups of a
//! chunk wait for the chunk before.

const POLYNOMIAL: u16 = 0x1021;
const START: u16 = 0xFFFF;
const SLICES: usize = 16;

/// `TABLES[n][byte]` is the CRC register, started at 0, after `byte` and then
/// `n` zero bytes.
static TABLES: [[u16; 256]; SLICES] = build_tables();

const fn build_tables() -> [[u16; 256]; SLICES] {
    let mut tables = [[0; 256]; SLICES];
    let mut byte = 0;
    while byte < 256 {
        tables[0][byte] = shift_byte((byte as u16) << 8);
        let mut n = 1;
        while n < SLICES {
            tables[n][byte] = shift_byte(tables[n - 1][byte]);
            n += 1;
        }
        byte += 1;
    }
    tables
}

/// Shifts the register by eight bits.
const fn shift_byte(mut register: u16) -> u16 {
    let mut bit = 0;
    while bit < 8 {
        let carry = register & 0x8000 != 0;
        register <<= 1;
        if carry {
            register ^= POLYNOMIAL;
        }
        bit += 1;
    }
    register
}

/// The checksum of `data`. Inlined so that a length known to the caller
/// unrolls it.
#[inline(always)]
pub(crate) fn checksum(data: &[u8]) -> u16 {
    let (head, chunks) = data.as_rchunks::<SLICES>();
    let register = advance(START, head);
    !chunks
        .iter()
        .fold(register, |register, chunk| advance(register, chunk))
}

/// Takes a chunk of at most `SLICES` bytes into the register.
#[inline(always)]
fn advance(register: u16, chunk: &[u8]) -> u16 {
    let length = chunk.len();
    // What is left of the register itself: something only below two bytes.
    let mut next = register.checked_shl(8 * length as u32).unwrap_or(0);
    // The register is added to the first two bytes, high half first.
    let carried = register.to_be_bytes();
    for (i, &byte) in chunk.iter().enumerate() {
        let index = carried.get(i).map_or(byte, |half| byte ^ half);
        next ^= TABLES[length - 1 - i][usize::from(index)];
    }
    next
}

#[cfg(test)]
mod tests {
    use super::checksum;

    /// The published routine, bit by bit.
    fn published(data: &[u8]) -> u16 {
        let mut n: u32 = 0xFFFF;
        for &byte in data {
            n ^= u32::from(byte) << 8;
            for _ in 0..8 {
                n = if n & 0x8000 != 0 {
                    (n << 1) ^ 4129
                } else {
                    n << 1
                };
            }
        }
        !n as u16
    }

    #[test]
    fn samples_a_b_c() {
        assert_eq!(checksum(&[]), 0x0000);
        assert_eq!(checksum(&[0xFF]), 0x00FF);
        assert_eq!(checksum(&[0xFF, 0xFF]), 0xFFFF);
    }

    #[test]
    fn agrees_with_the_published_routine_at_every_length() {
        let data: Vec<u8> = (0..200u32)
            .map(|i| (i * i * 31 + 7 * i + 3) as u8)
            .collect();
        for end in 0..=data.len() {
            assert_eq!(checksum(&data[..end]), published(&data[..end]), "{end}");
        }
        for byte in 0..=255 {
            assert_eq!(checksum(&[byte]), published(&[byte]));
            assert_eq!(checksum(&[byte, 1, 0]), published(&[byte, 1, 0]));
        }
    }

    fn counting<const N: usize>() -> [u8; N] {
        std::array::from_fn(|i| i as u8)
    }

    /// Computed with Python: `binascii.crc_hqx(data, 0xFFFF) ^ 0xFFFF`.
    #[test]
    fn vectors_of_a_second_program() {
        let vectors: [(&[u8], u16); 12] = [
            (b"123456789", 0xD64E),
            (b"KATANA_FLASH____", 0xC6F2),
            (&[0; 1], 0x1E0F),
            (&[0; 2], 0xE2F0),
            (&[0; 15], 0xB13C),
            (&[0; 16], 0x95F5),
            (&[0; 17], 0x3813),
            (&[0; 62], 0x3624),
            (&[0xFF; 62], 0xC770),
            (&counting::<62>(), 0x5C51),
            (&counting::<64>(), 0x02D0),
            (&counting::<256>(), 0xC042),
        ];
        for (data, expected) in vectors {
            assert_eq!(checksum(data), expected, "{data:02X?}");
        }
    }
}
