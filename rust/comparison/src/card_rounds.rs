//! Rounds on memory cards.

use inputs::card::{Listed, BLOCK, CARD};

use crate::card_arguments::{any_file, any_from, any_name, nearly, Draft};
use crate::card_builder::{build, Shape};
use crate::card_compare::{self as compare, Lent, Read};
use crate::card_damage::{aim, stray_bit, TARGETS};
use crate::card_writers;
use crate::round::Round;

/// Sound cards: all entries listed, blocks read, and reads that are refused.
pub fn sound(round: &mut Round) {
    let shape = Shape::any(&mut round.prng);
    let card = build(&mut round.prng, &shape);
    let mut image = round.lend(&card.bytes);
    compare::check(round, &mut image);
    walk_entries(round, &mut image);
    ask_list(round, &mut image);
    let files = card.listed();
    for _ in 0..12 {
        ask_read(round, &mut image, &files);
    }
    if round.prng.one_in(4) {
        read_whole_file(round, &mut image, &files);
    }
}

/// Sound cards with a long run of writes and deletes.
pub fn changed(round: &mut Round) {
    let prng = &mut round.prng;
    let shape = if prng.one_in(3) { Shape::any(prng) } else { Shape::roomy(prng) };
    let card = build(prng, &shape);
    let mut image = round.lend(&card.bytes);
    card_writers::run(round, &mut image);
}

/// One damage, aimed at a refusal.
pub fn aimed(round: &mut Round) {
    let target = round.prng.pick(&TARGETS);
    let mut shape = Shape::rich(&mut round.prng);
    let long_game = target == 30 && round.prng.one_in(4);
    if long_game {
        let any = round.prng.within(129..=200);
        shape.game = Some(round.prng.pick(&[129, 200, any]));
    }
    let mut card = build(&mut round.prng, &shape);
    if !long_game {
        aim(&mut round.prng, &mut card, target);
    }
    let mut image = round.lend(&card.bytes);
    ask_everything(round, &mut image, &card.listed());
}

/// Several damages aimed near each other, where the order of refusals and of places decides.
pub fn battered(round: &mut Round) {
    let shape = Shape::rich(&mut round.prng);
    let mut card = build(&mut round.prng, &shape);
    let near = round.prng.below(TARGETS.len() - 2);
    let times = round.prng.within(2..=4);
    for _ in 0..times {
        let target = round.prng.pick(&TARGETS[near..near + 3]);
        aim(&mut round.prng, &mut card, target);
    }
    let bits = round.prng.pick(&[0, 0, 1, 3]);
    for _ in 0..bits {
        stray_bit(&mut round.prng, &mut card);
    }
    let mut image = round.lend(&card.bytes);
    ask_everything(round, &mut image, &card.listed());
}

/// Cards of every length, cut or drawn out, and blank ones.
pub fn lengths(round: &mut Round) {
    let shape = Shape::rich(&mut round.prng);
    let mut card = build(&mut round.prng, &shape);
    let edges = [0, 1, 511, 512, 65_536, CARD - 1, CARD + 1, CARD + 512, 2 * CARD];
    let length = match round.prng.below(3) {
        0 => round.prng.below(CARD + 1_000),
        _ => round.prng.pick(&edges),
    };
    card.bytes.resize(length, 0x55);
    if round.prng.one_in(8) {
        card.bytes = vec![round.prng.pick(&[0, 0x55, 0xff]); CARD];
    }
    let mut image = round.lend(&card.bytes);
    ask_everything(round, &mut image, &card.listed());
}

/// Every call once; the two that write come last.
fn ask_everything(round: &mut Round, image: &mut Lent, files: &[Listed]) {
    compare::check(round, image);
    ask_list(round, image);
    ask_read(round, image, files);
    ask_write(round, image, files);
    ask_delete(round, image, files);
}

fn walk_entries(round: &mut Round, image: &mut Lent) {
    let mut from = 0;
    while let Some(entry) = compare::list(round, image, from) {
        from = entry + 1;
    }
}

/// All blocks of one file, as a program would.
fn read_whole_file(round: &mut Round, image: &mut Lent, files: &[Listed]) {
    let Listed { name, size } = any_file(&mut round.prng, files);
    for index in 0..size as u64 {
        let asked = Read { name: &name, index, block: &[0; BLOCK] };
        compare::read(round, image, &asked);
    }
}

pub fn ask_list(round: &mut Round, image: &mut Lent) {
    let from = any_from(&mut round.prng);
    compare::list(round, image, from);
}

/// A read whose name, index and buffer are mostly right.
pub fn ask_read(round: &mut Round, image: &mut Lent, files: &[Listed]) {
    let prng = &mut round.prng;
    let file = any_file(prng, files);
    let (name, size) = (nearly(prng, file.name), file.size as u64);
    let index = match prng.below(6) {
        0 => prng.pick(&[size - 1, size, size + 1, 199, 200, 256, u64::MAX]),
        1 => prng.draw() % size + prng.pick(&[1 << 8, 1 << 16, 1 << 32]),
        _ => prng.draw() % size,
    };
    let length = match prng.below(8) {
        0 => prng.pick(&[0, 1, 511, 513, 1_024]),
        1 => prng.below(600),
        _ => BLOCK,
    };
    let mut block = vec![0; length];
    prng.fill(&mut block);
    let asked = Read { name: &name, index, block: &block };
    compare::read(round, image, &asked);
}

/// A short file, under a name that is new or in use.
fn ask_write(round: &mut Round, image: &mut Lent, files: &[Listed]) {
    let prng = &mut round.prng;
    let name = if prng.one_in(2) { any_name(prng) } else { any_file(prng, files).name };
    let size = prng.within(1..=8);
    let draft = Draft::any(prng, name, size);
    compare::write(round, image, &draft.file());
}

/// One of the files, or now and then none of them.
pub fn ask_delete(round: &mut Round, image: &mut Lent, files: &[Listed]) {
    let file = any_file(&mut round.prng, files);
    let name = nearly(&mut round.prng, file.name);
    compare::delete(round, image, &name);
}
