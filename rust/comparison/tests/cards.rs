//! Cards that the rounds' random ones seldom are: neighbours linked up or down, and chains that meet or
//! break anywhere in them.

use galtuyeg::raw;
use independent::card as independent;
use inputs::answers::Answer;
use inputs::card::{put, Card, File, BLOCK, CARD, DATA, LAST, USER};

/// Blocks of a run, and how far from block 0 it lies.
const RUN: u16 = 12;
const BASE: u16 = 30;

fn card_of(files: &[&[u16]]) -> Card {
    let mut card = Card::formatted(vec![0; CARD]);
    for (entry, blocks) in files.iter().enumerate() {
        let name = [entry as u8; 12];
        card.add(File { entry, kind: DATA, name, blocks: blocks.to_vec() });
    }
    card
}

fn same(card: &Card) {
    assert_eq!(raw::card_check(&card.bytes), independent::check(&card.bytes).raw());
}

/// Two files of every start and size over the same run: they meet, end too early or run on.
fn meet_everywhere(card: &mut Card) {
    for (first, size) in starts_and_sizes() {
        for (second, other) in starts_and_sizes() {
            for (entry, first, size) in [(0, first, size), (1, second, other)] {
                put(card.entry_mut(entry), 0x02, first);
                put(card.entry_mut(entry), 0x18, size);
            }
            same(card);
        }
    }
}

fn starts_and_sizes() -> impl Iterator<Item = (u16, u16)> {
    (BASE..BASE + RUN).flat_map(|first| (1..=RUN).map(move |size| (first, size)))
}

/// One link of the run is wrong, or leads elsewhere; the second file begins there.
fn break_everywhere(card: &mut Card, run: &[u16]) {
    for (at, &block) in run.iter().enumerate() {
        put(card.entry_mut(0), 0x02, run[0]);
        put(card.entry_mut(1), 0x02, block);
        put(card.entry_mut(1), 0x18, RUN - at as u16);
        for other in (BASE - 2..BASE + RUN + 2).chain([LAST]) {
            card.set_link(block, other);
            for size in 1..=RUN {
                put(card.entry_mut(0), 0x18, size);
                same(card);
            }
        }
        card.chain(run);
    }
}

#[test]
fn runs_that_meet_or_break_are_judged_alike() {
    let rising: Vec<u16> = (BASE..BASE + RUN).collect();
    let falling: Vec<u16> = rising.iter().rev().copied().collect();
    for run in [&rising, &falling] {
        let mut card = card_of(&[run, run]);
        meet_everywhere(&mut card);
        break_everywhere(&mut card, run);
    }
}

#[test]
fn runs_are_followed_to_every_block() {
    let (mut proved, mut other) = ([0; BLOCK], [0; BLOCK]);
    let rising: Vec<u16> = (0..USER).collect();
    let falling: Vec<u16> = (0..USER).rev().collect();
    let mixed = [&falling[..7], &rising[..90], &falling[8..50]].concat();
    for run in [rising, falling, mixed] {
        let mut card = card_of(&[&run]);
        for block in 0..USER {
            card.bytes[usize::from(block) * BLOCK] = block as u8;
        }
        for index in 0..=USER.into() {
            let (bytes, name) = (&card.bytes, &[0; 12]);
            let verdict = raw::card_read(bytes, name, index, &mut proved);
            assert_eq!(verdict, independent::read(bytes, name, index, &mut other).raw());
            assert_eq!(proved, other);
        }
    }
}
