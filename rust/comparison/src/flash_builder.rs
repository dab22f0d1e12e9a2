//! Sound partitions built at random: blocks of every sort, in any order.

use inputs::flash::{block_mut, flip_bitmap_bit, Partition, BLOCK, SIZES};
use inputs::Prng;

use crate::flash_arguments::page;

/// Header and FF. The reserved bytes, which nobody tests, may be anything.
pub fn formatted(prng: &mut Prng) -> Partition {
    let size = prng.pick(&SIZES);
    let number = if prng.one_in(4) { prng.byte() } else { prng.pick(&[2, 3, 4]) };
    let mut made = Partition::formatted(size, number, prng.pick(&[0, 1]));
    if prng.one_in(3) {
        prng.fill(&mut made.bytes[18..BLOCK]);
    }
    made
}

/// Allocated blocks of every sort in random order: legal and high numbers, many copies or few, right
/// and wrong checksums; free blocks that may not be FF.
pub fn mixed(prng: &mut Prng) -> Partition {
    let mut made = formatted(prng);
    let capacity = made.size.capacity();
    let edges = [0, 1, 7, 8, 9, capacity - 1, capacity];
    let used = if prng.one_in(3) { prng.pick(&edges) } else { prng.below(capacity + 1) };
    let numbers = prng.pick(&[3, 20, capacity, capacity + 40]);
    let wrong = prng.pick(&[2, 8, 1_000]);
    for place in 1..=used {
        made.append(prng.below(numbers) as u16, &page(prng));
        if prng.one_in(wrong) {
            prng.flip_bit(block_mut(&mut made.bytes, place));
        }
    }
    if prng.one_in(2) {
        let spoilt = prng.within(1..=4);
        for _ in 0..spoilt {
            spoil_free(prng, &mut made);
        }
    }
    stir_ignored_bits(prng, &mut made);
    made
}

/// Every number live, so that every user block is in use.
pub fn full(prng: &mut Prng) -> Partition {
    let mut made = formatted(prng);
    let mut numbers: Vec<u16> = (0..made.size.capacity() as u16).collect();
    prng.shuffle(&mut numbers);
    for number in numbers {
        made.append(number, &page(prng));
    }
    stir_ignored_bits(prng, &mut made);
    made
}

/// A free block that is not FF: often the lowest, which a save looks at.
pub fn spoil_free(prng: &mut Prng, made: &mut Partition) {
    let (lowest, highest) = (made.used + 1, made.size.capacity());
    if lowest > highest {
        return;
    }
    let place = if prng.one_in(2) { lowest } else { prng.within(lowest..=highest) };
    prng.flip_bit(block_mut(&mut made.bytes, place));
}

pub fn stir_ignored_bits(prng: &mut Prng, made: &mut Partition) {
    let bits = 8 * (made.size.length - made.size.bitmap * BLOCK);
    for place in made.size.bitmap..=bits {
        if prng.one_in(2) {
            flip_bitmap_bit(&mut made.bytes, made.size, place);
        }
    }
}
