//! Damage to the image of a partition: header, bitmap, blocks.

use inputs::flash::{block_mut, flip_bitmap_bit, seal, Partition, Size, BLOCK};
use inputs::Prng;

/// The places where an image of a partition's making is damaged.
pub struct Damage {
    number: u8,
    size: Size,
}

impl Damage {
    pub fn of(partition: &Partition) -> Damage {
        Damage { number: partition.number, size: partition.size }
    }

    /// Anything at all, header and bitmap included.
    pub fn any(&self, prng: &mut Prng, bytes: &mut [u8]) {
        match prng.below(9) {
            0 => prng.flip_bit(&mut bytes[..16]),
            1 => bytes[16] = prng.pick_or_byte(&[self.number ^ 1]),
            2 | 3 => bytes[17] = prng.pick(&[0, 1, 2, 3, 0x80, 0xff]),
            4 | 5 => self.hole(prng, bytes),
            6 => prng.flip_bit(bytes),
            _ => self.blocks(prng, bytes),
        }
    }

    /// To header or bitmap: a sound partition hardly stays so.
    pub fn header(&self, prng: &mut Prng, bytes: &mut [u8]) {
        match prng.below(4) {
            0 => prng.flip_bit(&mut bytes[..16]),
            1 => bytes[16] = prng.pick_or_byte(&[self.number ^ 1]),
            2 => bytes[17] = prng.pick(&[2, 3, 0x80, 0xff]),
            _ => self.hole(prng, bytes),
        }
    }

    /// To user blocks alone: a sound partition stays sound.
    pub fn blocks(&self, prng: &mut Prng, bytes: &mut [u8]) {
        let place = self.place(prng);
        match prng.below(6) {
            0 => self.copy_block(prng, bytes, place),
            1 => self.renumber(prng, bytes, place),
            2 => self.other_page(prng, bytes, place),
            3 => block_mut(bytes, place).fill(0xff),
            4 => prng.fill(block_mut(bytes, place)),
            _ => prng.flip_bit(block_mut(bytes, place)),
        }
    }

    fn place(&self, prng: &mut Prng) -> usize {
        prng.within(1..=self.size.capacity())
    }

    /// A bitmap bit flipped, often next to the border between allocated and free.
    fn hole(&self, prng: &mut Prng, bytes: &mut [u8]) {
        let map = &bytes[self.size.bitmap * BLOCK..];
        let border = 8 * map.iter().position(|&byte| byte != 0).unwrap_or(0);
        let near = (border + prng.below(24)).clamp(1, self.size.capacity());
        let place = if prng.one_in(2) { near } else { self.place(prng) };
        flip_bitmap_bit(bytes, self.size, place);
    }

    fn copy_block(&self, prng: &mut Prng, bytes: &mut [u8], place: usize) {
        let to = self.place(prng);
        bytes.copy_within(place * BLOCK..(place + 1) * BLOCK, to * BLOCK);
    }

    /// A legal or a high number, with a right checksum.
    fn renumber(&self, prng: &mut Prng, bytes: &mut [u8], place: usize) {
        let near = self.size.capacity() as u16 - 2 + prng.below(5) as u16;
        let number = prng.pick_or_word(&[near, 0xffff, 0]);
        let block = block_mut(bytes, place);
        block[..2].copy_from_slice(&number.to_le_bytes());
        seal(block);
    }

    /// The same number with another page and a right checksum, at any place: the newer copy if that is
    /// above.
    fn other_page(&self, prng: &mut Prng, bytes: &mut [u8], place: usize) {
        let to = self.place(prng);
        bytes.copy_within(place * BLOCK..(place + 1) * BLOCK, to * BLOCK);
        let block = block_mut(bytes, to);
        prng.fill(&mut block[2..62]);
        seal(block);
    }
}
