//! Rounds on flash partitions.

use inputs::flash::{Partition, MAGIC};
use inputs::Prng;

use crate::flash_arguments::{any_page, number, page, partition_number};
use crate::flash_builder as builder;
use crate::flash_compare::{self as compare, Save};
use crate::flash_damage::Damage;
use crate::flash_writers;
use crate::lent::Lent;
use crate::round::Round;

/// Images of every length, with a header or without.
pub fn lengths(round: &mut Round) {
    let bytes = odd_image(&mut round.prng);
    let own = bytes.get(16).copied().unwrap_or(3);
    let mut image = round.lend(&bytes);
    ask_everything(round, &mut image, own, 1_020);
}

/// Built partitions, damaged or not.
pub fn built(round: &mut Round) {
    let mut partition = builder::mixed(&mut round.prng);
    let damage = Damage::of(&partition);
    let times = round.prng.pick(&[0, 1, 1, 2, 5]);
    for _ in 0..times {
        damage.any(&mut round.prng, &mut partition.bytes);
    }
    let mut image = round.lend(&partition.bytes);
    if round.prng.one_in(4) {
        walk_live(round, &mut image, partition.number);
    }
    ask_everything(round, &mut image, partition.number, partition.size.top());
}

/// Saves, erases and damage to blocks, in any order.
pub fn grown(round: &mut Round) {
    let partition = start(&mut round.prng);
    let damage = Damage::of(&partition);
    let (own, top) = (partition.number, partition.size.top());
    let mut image = round.lend(&partition.bytes);
    let steps = round.prng.within(1..=60);
    for _ in 0..steps {
        match round.prng.below(9) {
            0 => image.change(|bytes| damage.blocks(&mut round.prng, bytes)),
            1 => ask_erase(round, &mut image, own),
            2 => ask_whole(round, &mut image, own),
            3 => ask_read(round, &mut image, own, top),
            _ => save_over_contents(round, &mut image, own, top),
        }
    }
    ask_everything(round, &mut image, own, top);
}

/// Every number live: a page that isn't there takes the long way.
pub fn full(round: &mut Round) {
    let partition = builder::full(&mut round.prng);
    let (own, top) = (partition.number, partition.size.top());
    let mut image = round.lend(&partition.bytes);
    let saves = round.prng.within(1..=4);
    for _ in 0..saves {
        save_over_contents(round, &mut image, own, top);
    }
    ask_everything(round, &mut image, own, top);
}

/// A long run of calls by two writers.
pub fn writers(round: &mut Round) {
    let partition = start(&mut round.prng);
    let mut image = round.lend(&partition.bytes);
    flash_writers::run(round, &mut image, partition.number, partition.size.top());
    ask_whole(round, &mut image, partition.number);
}

/// A sound partition: empty, mixed or full.
fn start(prng: &mut Prng) -> Partition {
    match prng.below(6) {
        0 | 1 => builder::formatted(prng),
        2 => builder::full(prng),
        _ => builder::mixed(prng),
    }
}

pub fn odd_image(prng: &mut Prng) -> Vec<u8> {
    const EDGES: [usize; 18] = [
        0, 1, 15, 16, 17, 18, 63, 64, 65, 16_383, 16_384, 16_385, 32_767, 32_768, 32_769, 65_535,
        65_536, 65_537,
    ];
    let length = match prng.below(4) {
        0 => prng.below(200),
        1 => prng.below(140_000),
        _ => prng.pick(&EDGES),
    };
    let mut bytes = vec![prng.pick(&[0, 0xff]); length];
    if prng.one_in(2) {
        prng.fill(&mut bytes);
    }
    if prng.one_in(2) {
        let letters = length.min(MAGIC.len());
        bytes[..letters].copy_from_slice(&MAGIC[..letters]);
    }
    if length > 17 {
        bytes[17] = prng.pick(&[0, 1, 1, 2]);
    }
    bytes
}

/// Every call once; the two that write come last.
fn ask_everything(round: &mut Round, image: &mut Lent, own: u8, top: u64) {
    ask_whole(round, image, own);
    ask_read(round, image, own, top);
    let from = number(&mut round.prng, top);
    let partition = partition_number(&mut round.prng, own);
    compare::next_live(round, image, partition, from);
    save_over_contents(round, image, own, top);
    ask_read(round, image, own, top);
    ask_erase(round, image, own);
    compare::report(round, image, own);
}

/// The calls that look at the whole partition and write nothing.
pub fn ask_whole(round: &mut Round, image: &mut Lent, own: u8) {
    let partition = partition_number(&mut round.prng, own);
    compare::check(round, image, partition);
    let partition = partition_number(&mut round.prng, own);
    compare::report(round, image, partition);
}

/// A read of any number into a buffer of any length.
pub fn ask_read(round: &mut Round, image: &mut Lent, own: u8, top: u64) {
    let partition = partition_number(&mut round.prng, own);
    let asked = number(&mut round.prng, top);
    let buffer = any_page(&mut round.prng);
    compare::read(round, image, partition, asked, &buffer);
}

pub fn ask_erase(round: &mut Round, image: &mut Lent, own: u8) {
    let partition = partition_number(&mut round.prng, own);
    compare::erase(round, image, partition);
}

/// All live numbers by next-live from 0 up.
fn walk_live(round: &mut Round, image: &mut Lent, own: u8) {
    let mut from = 0;
    while let Some(found) = compare::next_live(round, image, own, from) {
        from = found + 1;
    }
}

/// A save that expects what is there, or nearly.
fn save_over_contents(round: &mut Round, image: &mut Lent, own: u8, top: u64) {
    let asked = number(&mut round.prng, top);
    let (answer, contents) = compare::read(round, image, own, asked, &[0; 60]);
    let there = if answer == 0 { contents } else { Vec::new() };
    let expected = nearly(&mut round.prng, there.clone());
    let page = new_page(&mut round.prng, &there, &expected);
    let asked = Save {
        partition: partition_number(&mut round.prng, own),
        number: asked,
        expected: &expected,
        page: &page,
    };
    compare::save(round, image, &asked);
}

/// A page to be saved: now and then what is there, what is expected, or one of these but for a bit. Where that is
/// nothing, it is any page.
pub fn new_page(prng: &mut Prng, there: &[u8], expected: &[u8]) -> Vec<u8> {
    let mut known = if prng.one_in(2) { there.to_vec() } else { expected.to_vec() };
    match prng.below(8) {
        0 | 1 if !known.is_empty() => known,
        2 if !known.is_empty() => {
            prng.flip_bit(&mut known);
            known
        }
        _ => any_page(prng),
    }
}

/// Mostly the bytes themselves; else a bit off, none, some, or of another length.
pub fn nearly(prng: &mut Prng, mut bytes: Vec<u8>) -> Vec<u8> {
    match prng.below(12) {
        0 if !bytes.is_empty() => prng.flip_bit(&mut bytes),
        1 => bytes.clear(),
        2 => bytes = page(prng).to_vec(),
        3 => bytes.resize(prng.pick(&[1, 59, 61, 120]), 0),
        _ => {}
    }
    bytes
}
