//! Partition images, byte by byte.

pub const BLOCK: usize = 64;
pub const PAGE: usize = 60;
pub const MAGIC: &[u8; 16] = b"KATANA_FLASH____";

#[derive(Clone, Copy)]
pub struct Size {
    pub length: usize,
    /// The first bitmap block; user blocks are 1 to one below it.
    pub bitmap: usize,
}

pub const SIZES: [Size; 3] = [
    Size { length: 16_384, bitmap: 255 },
    Size { length: 32_768, bitmap: 511 },
    Size { length: 65_536, bitmap: 1_022 },
];

impl Size {
    /// User blocks.
    pub fn capacity(self) -> usize {
        self.bitmap - 1
    }

    /// The highest legal number.
    pub fn top(self) -> u64 {
        self.capacity() as u64 - 1
    }
}

/// An image with what is known of its making.
pub struct Partition {
    pub bytes: Vec<u8>,
    pub size: Size,
    pub number: u8,
    /// Allocated user blocks: 1 to this one.
    pub used: usize,
}

impl Partition {
    /// The header, and FF for free blocks and their bitmap.
    pub fn formatted(size: Size, number: u8, version: u8) -> Partition {
        let mut bytes = vec![0xff; size.length];
        bytes[..16].copy_from_slice(MAGIC);
        bytes[16] = number;
        bytes[17] = version;
        Partition { bytes, size, number, used: 0 }
    }

    /// Allocates the lowest free block for this number and page, with a right checksum.
    pub fn append(&mut self, number: u16, page: &[u8; PAGE]) {
        self.used += 1;
        let block = block_mut(&mut self.bytes, self.used);
        block[..2].copy_from_slice(&number.to_le_bytes());
        block[2..62].copy_from_slice(page);
        seal(block);
        flip_bitmap_bit(&mut self.bytes, self.size, self.used);
    }
}

pub fn block_mut(bytes: &mut [u8], place: usize) -> &mut [u8] {
    &mut bytes[place * BLOCK..][..BLOCK]
}

/// Puts the right checksum behind a block's first 62 bytes.
pub fn seal(block: &mut [u8]) {
    let sum = checksum(&block[..62]);
    block[62..].copy_from_slice(&sum.to_le_bytes());
}

/// The checksum of the description, bit by bit.
pub fn checksum(bytes: &[u8]) -> u16 {
    let mut sum = 0xffff_u16;
    for &byte in bytes {
        sum ^= u16::from(byte) << 8;
        for _ in 0..8 {
            let top = sum & 0x8000 != 0;
            sum = (sum << 1) ^ if top { 4_129 } else { 0 };
        }
    }
    !sum
}

/// The bit of a user block, or of a place behind the last, which nobody tests.
pub fn flip_bitmap_bit(bytes: &mut [u8], size: Size, place: usize) {
    let bit = place - 1;
    bytes[size.bitmap * BLOCK + bit / 8] ^= 0x80 >> (bit % 8);
}

#[cfg(test)]
mod tests {
    use super::*;

    #[test]
    fn what_is_appended_is_found() {
        for size in SIZES {
            let mut made = Partition::formatted(size, 3, 1);
            for number in 0..size.capacity() as u16 {
                made.append(number, &[number as u8; PAGE]);
            }
            let counts = independent::flash::report(&made.bytes, 3).unwrap();
            let all = size.capacity() as u64;
            assert_eq!((counts.capacity, counts.used, counts.live), (all, all, all));
            let mut page = [0; PAGE];
            assert_eq!(independent::flash::read(&made.bytes, 3, 7, &mut page), 0);
            assert_eq!(page, [7; PAGE]);
        }
    }
}
