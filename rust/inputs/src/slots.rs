//! Headers of game slots, byte by byte.

use crate::flash::{checksum, Size, PAGE, SIZES};

pub const SLOTS: u16 = 100;
/// The length of a partition that has slots, and its number.
pub const SIZE: Size = SIZES[1];
pub const PARTITION: u8 = 3;
pub const PRODUCT: usize = 10;
pub const HEADER: usize = 2 * PAGE;
/// The bytes that the checksum is worked over; it stands behind them.
const SUMMED: std::ops::Range<usize> = 0x02..0x70;

pub type Product = [u8; PRODUCT];
pub type Header = [u8; HEADER];

/// The logical number of one of a slot's four blocks.
pub fn number(slot: u16, block: u16) -> u16 {
    24 + 4 * slot + block
}

/// A right header with this product number; all that is free to choose is as in `rest`.
pub fn right_header(product: &Product, rest: &Header) -> Header {
    let mut header = *rest;
    header[..2].copy_from_slice(&[0x01, 0xff]);
    header[2..12].copy_from_slice(product);
    seal(&mut header);
    header
}

/// Makes the checksum right, whatever else is in the header.
pub fn seal(header: &mut Header) {
    let sum = checksum(&header[SUMMED]);
    header[SUMMED.end..SUMMED.end + 2].copy_from_slice(&sum.to_le_bytes());
}

pub fn blocks(header: &Header) -> [&[u8; PAGE]; 2] {
    let (pages, _) = header.as_chunks();
    [&pages[0], &pages[1]]
}

#[cfg(test)]
mod tests {
    use super::*;
    use crate::flash::Partition;

    #[test]
    fn a_right_header_makes_a_slot_valid() {
        let header = right_header(b"T-40502D01", &[0x20; HEADER]);
        let mut made = Partition::formatted(SIZE, PARTITION, 1);
        for (part, page) in (0..).zip(blocks(&header)) {
            made.append(number(99, part), page);
        }
        assert_eq!(independent::slots::list(&made.bytes, PARTITION, 0), Ok(99));
        assert_eq!(independent::slots::find(&made.bytes, PARTITION, b"T-40502D01"), Ok(99));
    }
}
