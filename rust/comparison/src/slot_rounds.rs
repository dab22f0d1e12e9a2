//! Rounds on the game slots of partition 3.

use ::independent::flash;
use ::independent::slots as independent;
use inputs::slots::{blocks, number, Product, PARTITION, SLOTS};
use inputs::Prng;

use crate::flash_arguments::any_page;
use crate::flash_damage::Damage;
use crate::flash_rounds::{nearly, new_page, odd_image};
use crate::round::Round;
use crate::slot_arguments::{
    any_data_block, any_header, any_product, any_slot, header, nearly_block, nearly_product,
    partition_named, product,
};
use crate::slot_builder as builder;
use crate::slot_compare::{self as compare, Data, Lent};
use crate::slot_writers;

/// Images of every length, with a header or without.
pub fn lengths(round: &mut Round) {
    let mut bytes = odd_image(&mut round.prng);
    if round.prng.one_in(2) {
        bytes = builder::mixed(&mut round.prng).bytes;
        bytes.resize(round.prng.pick(&[0, 16_384, 32_767, 32_769, 65_536, 131_072]), 0xff);
    }
    let mut image = round.lend(&bytes);
    ask_everything(round, &mut image);
}

/// Partitions that are refused: one fault, now and then two, where the order of refusals decides.
pub fn refused(round: &mut Round) {
    let mut partition = builder::mixed(&mut round.prng);
    let damage = Damage::of(&partition);
    let faults = round.prng.pick(&[1, 1, 1, 2, 3]);
    for _ in 0..faults {
        damage.header(&mut round.prng, &mut partition.bytes);
    }
    let mut image = round.lend(&partition.bytes);
    ask_everything(round, &mut image);
    ask_everything(round, &mut image);
}

/// Slots of every sort, and all that can be asked of them.
pub fn built(round: &mut Round) {
    let partition = match round.prng.below(5) {
        0 => builder::full(&mut round.prng),
        _ => builder::mixed(&mut round.prng),
    };
    let damage = Damage::of(&partition);
    let mut image = round.lend(&partition.bytes);
    if round.prng.one_in(4) {
        walk_valid(round, &mut image);
    }
    for _ in 0..4 {
        ask_everything(round, &mut image);
        if round.prng.one_in(2) {
            image.change(|bytes| damage.blocks(&mut round.prng, bytes));
        }
    }
}

/// All slots valid, or all but one or two: the last are claimed, then no more can be.
pub fn taken(round: &mut Round) {
    let wrong = round.prng.pick(&[0, 0, 1, 2]);
    let partition = builder::taken(&mut round.prng, wrong);
    let mut image = round.lend(&partition.bytes);
    for _ in 0..6 {
        ask_claim(round, &mut image);
    }
    ask_everything(round, &mut image);
}

/// All slots valid. A bit is turned in a header block of one of them, which is claimed again: where the slot is no
/// longer valid, the claim finds the other block there.
pub fn mended(round: &mut Round) {
    let partition = builder::taken(&mut round.prng, 0);
    let mut image = round.lend(&partition.bytes);
    for _ in 0..6 {
        let slot = round.prng.below(SLOTS.into()) as u64;
        let header = [0, 1].map(|block| compare::header_block(image.before(), slot, block));
        let turned = round.prng.below(2);
        let mut other = header[turned].clone();
        round.prng.flip_bit(&mut other);
        let number = number(slot as u16, turned as u16).into();
        image.change(|bytes| {
            assert_eq!(flash::save(bytes, PARTITION, number, &header[turned], &other), 0);
        });
        compare::claim(round, &mut image, PARTITION, [&header[0], &header[1]]);
    }
    ask_everything(round, &mut image);
}

/// From an empty partition on, until none is left.
pub fn filled(round: &mut Round) {
    let mut partition = builder::formatted(&mut round.prng);
    if round.prng.one_in(2) {
        partition = builder::mixed(&mut round.prng);
    }
    let mut image = round.lend(&partition.bytes);
    ask_everything(round, &mut image);
    for number in 0..102 {
        let header = header(&mut round.prng, &product(number));
        let [first, second] = blocks(&header);
        compare::claim(round, &mut image, PARTITION, [first, second]);
    }
    ask_everything(round, &mut image);
}

/// Two benches that claim, read and save in turn.
pub fn writers(round: &mut Round) {
    let prng = &mut round.prng;
    let partition = if prng.one_in(3) { builder::taken(prng, 2) } else { builder::mixed(prng) };
    let damage = Damage::of(&partition);
    let mut image = round.lend(&partition.bytes);
    slot_writers::run(round, &mut image, &damage);
    walk_valid(round, &mut image);
}

/// Every call once or twice; what writes comes last.
pub fn ask_everything(round: &mut Round, image: &mut Lent) {
    ask_find(round, image);
    ask_list(round, image);
    ask_read(round, image);
    save_over_contents(round, image);
    ask_claim(round, image);
}

pub fn ask_find(round: &mut Round, image: &mut Lent) {
    let product = known_product(&mut round.prng, image.before());
    let product = nearly_product(&mut round.prng, product);
    let partition = partition_named(&mut round.prng, image.before());
    compare::find(round, image, partition, &product);
}

pub fn ask_list(round: &mut Round, image: &mut Lent) {
    let from = any_slot(&mut round.prng);
    let partition = partition_named(&mut round.prng, image.before());
    compare::list(round, image, partition, from);
}

/// A header that is mostly right, of a product number that has a slot or has none.
pub fn ask_claim(round: &mut Round, image: &mut Lent) {
    let prng = &mut round.prng;
    let product = any_product(prng);
    let header = any_header(prng, &product);
    let [first, second] = blocks(&header).map(|page| nearly_block(prng, page));
    let partition = partition_named(prng, image.before());
    compare::claim(round, image, partition, [&first, &second]);
}

/// A read of any data block into a buffer of any length.
pub fn ask_read(round: &mut Round, image: &mut Lent) {
    let asked = data_block(&mut round.prng, image.before());
    let buffer = any_page(&mut round.prng);
    compare::read(round, image, asked, &buffer);
}

/// A save that expects what is there, or nearly.
pub fn save_over_contents(round: &mut Round, image: &mut Lent) {
    let asked = data_block(&mut round.prng, image.before());
    let own = Data { partition: PARTITION, ..asked };
    let (answer, contents) = compare::read(round, image, own, &[0; 60]);
    let there = if answer == 0 { contents } else { Vec::new() };
    let expected = nearly(&mut round.prng, there.clone());
    let page = new_page(&mut round.prng, &there, &expected);
    compare::save(round, image, asked, [&expected, &page]);
}

/// All valid slots by listings from 0 up.
fn walk_valid(round: &mut Round, image: &mut Lent) {
    let mut from = 0;
    while let Some(found) = compare::list(round, image, PARTITION, from) {
        from = found + 1;
    }
}

/// Mostly of a valid slot, if there is one.
fn data_block(prng: &mut Prng, image: &[u8]) -> Data {
    let mut slot = any_slot(prng);
    if prng.one_in(2) {
        slot = independent::list(image, PARTITION, slot).unwrap_or(slot);
    }
    Data { partition: partition_named(prng, image), slot, block: any_data_block(prng) }
}

/// Often one that a slot has.
fn known_product(prng: &mut Prng, image: &[u8]) -> Product {
    let product = any_product(prng);
    let other = any_product(prng);
    match independent::find(image, PARTITION, &product) {
        Err(_) if prng.one_in(2) => other,
        _ => product,
    }
}
