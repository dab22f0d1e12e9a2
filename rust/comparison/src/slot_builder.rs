//! Sound partitions 3 whose slots are of every sort.

use inputs::flash::{block_mut, Partition, BLOCK, PAGE};
use inputs::slots::{blocks, number, Header, PARTITION, SIZE, SLOTS};
use inputs::Prng;

use crate::flash_arguments::page;
use crate::flash_builder::{spoil_free, stir_ignored_bits};
use crate::slot_arguments::{any_product, damaged, header, product};

/// Header and FF. The reserved bytes, which nobody tests, may be anything.
pub fn formatted(prng: &mut Prng) -> Partition {
    let mut made = Partition::formatted(SIZE, PARTITION, prng.pick(&[0, 1]));
    if prng.one_in(3) {
        prng.fill(&mut made.bytes[18..BLOCK]);
    }
    made
}

/// Some slots, in any order: right headers, damaged and half ones, old copies, data blocks or none; then
/// free blocks as a save may meet them.
pub fn mixed(prng: &mut Prng) -> Partition {
    let mut made = formatted(prng);
    let mut slots: Vec<u16> = (0..SLOTS).collect();
    prng.shuffle(&mut slots);
    let count = match prng.below(4) {
        0 => prng.pick(&[0, 1, 2, 99, 100]),
        1 => prng.below(10),
        _ => prng.within(0..=100),
    };
    let wrong = prng.pick(&[2, 5, 30]);
    if prng.one_in(2) {
        slots.sort_unstable();
    }
    for &slot in &slots[..count] {
        add_slot(prng, &mut made, slot, wrong);
    }
    finish(prng, &mut made);
    made
}

/// All hundred slots valid but for `wrong` of them, each with a product number of its own.
pub fn taken(prng: &mut Prng, wrong: usize) -> Partition {
    let mut made = formatted(prng);
    let mut slots: Vec<u16> = (0..SLOTS).collect();
    prng.shuffle(&mut slots);
    for (at, &slot) in slots.iter().enumerate() {
        let right = header(prng, &product(slot.into()));
        let header = if at < wrong { damaged(prng, right) } else { right };
        add_header(&mut made, slot, &header);
        if prng.one_in(4) {
            add_data(prng, &mut made, slot);
        }
    }
    finish(prng, &mut made);
    made
}

/// Every number live, so that every save compacts, some slots valid and some not.
pub fn full(prng: &mut Prng) -> Partition {
    let mut made = formatted(prng);
    let mut numbers: Vec<u16> = (0..SIZE.capacity() as u16).collect();
    prng.shuffle(&mut numbers);
    let mut pages: Vec<[u8; PAGE]> = numbers.iter().map(|_| page(prng)).collect();
    let valid = prng.pick(&[0, 50, 99, 100]);
    for slot in 0..valid {
        let product = any_product(prng);
        let header = header(prng, &product);
        for (part, page) in (0..).zip(blocks(&header)) {
            pages[usize::from(number(slot, part))] = *page;
        }
    }
    for number in numbers {
        made.append(number, &pages[usize::from(number)]);
    }
    stir_ignored_bits(prng, &mut made);
    made
}

/// One in `wrong` of the slots is not as a claim leaves it.
fn add_slot(prng: &mut Prng, made: &mut Partition, slot: u16, wrong: usize) {
    let product = any_product(prng);
    let right = header(prng, &product);
    if prng.one_in(wrong) {
        add_odd_header(prng, made, slot, right);
    } else {
        add_header(made, slot, &right);
    }
    if prng.one_in(2) {
        add_data(prng, made, slot);
    }
}

fn add_header(made: &mut Partition, slot: u16, header: &Header) {
    add_header_at(made, number(slot, 0), header);
}

fn add_header_at(made: &mut Partition, first: u16, header: &Header) {
    for (number, page) in (first..).zip(blocks(header)) {
        append(made, number, page);
    }
}

/// Right headers, and data behind some, in numbers that are in no slot.
fn add_beside(prng: &mut Prng, made: &mut Partition) {
    for first in (0..24).chain(number(SLOTS, 0)..509).step_by(4) {
        let product = any_product(prng);
        add_header_at(made, first, &header(prng, &product));
        if prng.one_in(2) {
            append(made, first + 2, &page(prng));
        }
    }
}

/// A header in which something is wrong, missing, or mended by another copy.
fn add_odd_header(prng: &mut Prng, made: &mut Partition, slot: u16, right: Header) {
    let half = prng.below(2) as u16;
    let page = blocks(&right)[usize::from(half)];
    match prng.below(7) {
        0 | 1 => add_header(made, slot, &damaged(prng, right)),
        2 => append(made, number(slot, half), page),
        3 => {
            add_header(made, slot, &damaged(prng, right));
            add_header(made, slot, &right);
        }
        4 => {
            add_header(made, slot, &right);
            add_header(made, slot, &damaged(prng, right));
        }
        5 => {
            add_header(made, slot, &right);
            append(made, number(slot, half), &prng.array());
            spoil_last(prng, made);
        }
        _ => {
            add_header(made, slot, &right);
            spoil_last(prng, made);
        }
    }
}

/// Turns a bit of the last block, which counts for nothing then: an older copy counts, or nothing.
fn spoil_last(prng: &mut Prng, made: &mut Partition) {
    if made.used > 0 {
        prng.flip_bit(block_mut(&mut made.bytes, made.used));
    }
}

fn add_data(prng: &mut Prng, made: &mut Partition, slot: u16) {
    let copies = prng.pick(&[1, 1, 2, 3]);
    for _ in 0..copies {
        append(made, number(slot, 2 + prng.below(2) as u16), &page(prng));
    }
}

/// Blocks of no slot up to some fill, often to the last or nearly so, now and then with right headers in
/// them; and free blocks that may not be FF: the lowest, which a claim's first save looks at, or the next,
/// which its second does.
fn finish(prng: &mut Prng, made: &mut Partition) {
    let capacity = SIZE.capacity();
    if prng.one_in(2) {
        add_beside(prng, made);
    }
    let fill = match prng.below(4) {
        0 => capacity - prng.below(4),
        1 => prng.below(capacity + 1),
        _ => made.used,
    };
    while made.used < fill {
        let number = prng.pick(&[0, 23, 424, 509, 510, 0xffff]);
        append(made, number, &page(prng));
    }
    if prng.one_in(3) {
        spoil_free(prng, made);
    }
    if prng.one_in(4) && made.used + 2 <= capacity {
        prng.flip_bit(block_mut(&mut made.bytes, made.used + 2));
    }
    stir_ignored_bits(prng, made);
}

/// As long as a block is free.
fn append(made: &mut Partition, number: u16, page: &[u8; PAGE]) {
    if made.used < SIZE.capacity() {
        made.append(number, page);
    }
}
