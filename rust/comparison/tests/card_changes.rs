//! Writes and deletes on cards that the rounds' random ones seldom are: every number of free blocks, every
//! entry the lowest unused one, chains of every length.

use ::independent::card::{self as independent, NewFile};
use galtuyeg::raw;
use inputs::answers::Answer;
use inputs::card::{put, Card, File, Name, BLOCK, CARD, DAMAGED, DATA, ENTRIES, LAST, USER};
use inputs::Prng;

const NAME: &Name = b"NEW_SAVE.DAT";

/// An empty card. What nobody tests is random.
fn formatted() -> Card {
    let mut bytes = vec![0; CARD];
    Prng::new(1, 0).fill(&mut bytes);
    Card::formatted(bytes)
}

fn add(card: &mut Card, entry: usize, name: Name, blocks: &[u16]) {
    card.add(File { entry, kind: DATA, name, blocks: blocks.to_vec() });
    card.entry_mut(entry)[0x01] = 0xff;
    put(card.entry_mut(entry), 0x1a, 0);
}

fn data(size: usize) -> Vec<u8> {
    let mut data = vec![0; BLOCK * size];
    Prng::new(2, 0).fill(&mut data);
    data
}

fn new_file(data: &[u8]) -> NewFile<'_> {
    NewFile { name: NAME, flag: 0, time: b"19991115", offset: 0, data }
}

/// Whether it was done.
fn same_write(card: &[u8], file: &NewFile) -> bool {
    let (mut proved, mut other) = (card.to_vec(), card.to_vec());
    let NewFile { name, flag, time, offset, data } = *file;
    let verdict = raw::card_write(&mut proved, name, flag, time, offset, data);
    assert_eq!(verdict, independent::write(&mut other, file).raw());
    assert!(proved == other);
    verdict.code == 0
}

/// Whether it was done.
fn same_delete(card: &[u8], name: &[u8]) -> bool {
    let (mut proved, mut other) = (card.to_vec(), card.to_vec());
    let verdict = raw::card_delete(&mut proved, name);
    assert_eq!(verdict, independent::delete(&mut other, name).raw());
    assert!(proved == other);
    verdict.code == 0
}

#[test]
fn every_room_is_filled_alike() {
    let data = data(USER.into());
    let mut blocks: Vec<u16> = (0..USER).collect();
    for free in 0..=usize::from(USER) {
        Prng::new(3, free as u64).shuffle(&mut blocks);
        let mut card = formatted();
        for (at, &block) in blocks[free..].iter().enumerate() {
            card.set_link(block, [DAMAGED, LAST, block][at % 3]);
        }
        for size in free.max(2) - 1..=(free + 1).min(USER.into()) {
            let file = new_file(&data[..BLOCK * size]);
            assert_eq!(same_write(&card.bytes, &file), size <= free);
        }
    }
}

#[test]
fn every_entry_may_be_the_lowest_unused() {
    let data = data(1);
    let mut card = formatted();
    for block in 0..USER {
        assert!(same_write(&card.bytes, &new_file(&data)));
        add(&mut card, block.into(), [block as u8; 12], &[block]);
    }
    // The first nine alone are unused.
    let mut card = formatted();
    for block in 1..USER {
        add(&mut card, ENTRIES - usize::from(block), [block as u8; 12], &[block]);
    }
    assert!(same_write(&card.bytes, &new_file(&data)));
}

#[test]
fn chains_of_every_length_are_deleted_alike() {
    let mut blocks: Vec<u16> = (0..USER).collect();
    for size in 1..=usize::from(USER) {
        Prng::new(4, size as u64).shuffle(&mut blocks);
        let mut card = formatted();
        // What is behind the file's end are orphans.
        card.chain(&blocks);
        add(&mut card, size, *NAME, &blocks[..size]);
        assert!(same_delete(&card.bytes, NAME));
        assert!(!same_delete(&card.bytes, b"NEW_SAVE.DA_"));
    }
}

#[test]
fn flags_offsets_and_sizes_are_not_cut() {
    let card = formatted().bytes;
    let data = data(3);
    let file = new_file(&data);
    for flag in 0..=255 {
        assert!(same_write(&card, &NewFile { flag, ..file }));
    }
    for bit in 0..u64::BITS {
        let offset = 1 << bit;
        assert_eq!(same_write(&card, &NewFile { offset, ..file }), offset < 3);
        assert!(!same_write(&card, &NewFile { offset: offset | 1, ..file }) || bit == 0);
    }
    for blocks in [256 + 1, 65_536 + 1] {
        let long = vec![0; BLOCK * blocks];
        assert!(!same_write(&card, &new_file(&long)));
    }
}
