//! Sound cards built at random: games and data, chains upwards, downwards and shuffled, orphans, damaged blocks.

use std::collections::BTreeSet;

use inputs::card::{put, Card, File, Name, CARD, DAMAGED, DATA, ENTRIES, FREE, GAME, LAST, USER};
use inputs::Prng;

use crate::card_arguments::{any_file, any_flag, any_name};

/// Of so many blocks one is as good as never met.
const NEVER: usize = usize::MAX;
const ORPHANS: [usize; 3] = [2, 10, 1_000];
const DAMAGE: usize = 3;

/// What a card is to have.
pub struct Shape {
    /// The game's size. One above 128 breaks a rule.
    pub game: Option<usize>,
    /// At most so many data files; the blocks may not reach.
    pub files: usize,
    /// The longest data file.
    pub longest: usize,
    /// Of the blocks in no file, one in so many is an orphan.
    pub orphans: usize,
    /// Of the other ones, one in so many is damaged.
    pub damaged: usize,
}

impl Shape {
    pub fn any(prng: &mut Prng) -> Shape {
        let game = match prng.below(4) {
            0 => Some(prng.pick(&[1, 2, 127, 128])),
            1 => Some(prng.within(1..=128)),
            _ => None,
        };
        let (files, longest) = match prng.below(5) {
            0 => (0, 1),
            1 => (200, 1),
            2 => (1, 200),
            3 => (prng.within(1..=10), 60),
            _ => (prng.within(1..=200), 4),
        };
        Shape { game, files, longest, orphans: prng.pick(&ORPHANS), damaged: DAMAGE }
    }

    /// Few files or none, for others to be written beside them.
    pub fn roomy(prng: &mut Prng) -> Shape {
        let game = prng.one_in(4).then(|| prng.within(1..=128));
        let (files, longest) = prng.pick(&[(0, 1), (0, 1), (3, 8), (20, 3)]);
        let (orphans, damaged) = prng.pick(&[(NEVER, NEVER), (30, 30), (10, DAMAGE)]);
        Shape { game, files, longest, orphans, damaged }
    }

    /// Some files of some blocks each, for damage to find.
    pub fn rich(prng: &mut Prng) -> Shape {
        let game = prng.one_in(2).then(|| prng.within(1..=40));
        let (files, longest) = (prng.within(3..=12), prng.within(2..=12));
        Shape { game, files, longest, orphans: prng.pick(&ORPHANS), damaged: DAMAGE }
    }
}

/// A sound card, unless the shape breaks a rule. What nobody tests is random.
pub fn build(prng: &mut Prng, shape: &Shape) -> Card {
    let mut bytes = vec![0; CARD];
    prng.fill(&mut bytes);
    let mut card = Card::formatted(bytes);
    for block in USER..=240 {
        card.set_link(block, prng.pick(&[FREE, DAMAGED]));
    }
    let chains = share_out(prng, &mut card, shape);
    lay_files(prng, &mut card, chains, shape.game.is_some());
    card
}

/// The blocks of each file, the game's first if there is one; the rest are free, damaged or orphans.
fn share_out(prng: &mut Prng, card: &mut Card, shape: &Shape) -> Vec<Vec<u16>> {
    let game = shape.game.unwrap_or(0) as u16;
    let mut chains = Vec::new();
    if game > 0 {
        chains.push((0..game).collect());
    }
    let mut rest: Vec<u16> = (game..USER).collect();
    match prng.below(4) {
        0 => {}
        1 => rest.reverse(),
        _ => prng.shuffle(&mut rest),
    }
    for _ in 0..shape.files {
        let size = prng.within(1..=shape.longest).min(rest.len());
        if size > 0 {
            chains.push(rest.split_off(rest.len() - size));
        }
    }
    for block in rest {
        let next = prng.word() % USER;
        let link = prng.pick(&[LAST, next, block]);
        let unused = if prng.one_in(shape.damaged) { DAMAGED } else { FREE };
        card.set_link(block, if prng.one_in(shape.orphans) { link } else { unused });
    }
    chains
}

/// Puts the files at random entries under names of their own. Unused entries keep what is there, or get
/// names.
fn lay_files(prng: &mut Prng, card: &mut Card, chains: Vec<Vec<u16>>, game: bool) {
    let mut entries: Vec<usize> = (0..ENTRIES).collect();
    if !prng.one_in(4) {
        prng.shuffle(&mut entries);
    }
    let mut names = BTreeSet::new();
    for (at, blocks) in chains.into_iter().enumerate() {
        let (entry, size) = (entries[at], blocks.len());
        let is_game = game && at == 0;
        let kind = if is_game { GAME } else { DATA };
        card.add(File { entry, kind, name: new_name(prng, &mut names), blocks });
        let bytes = card.entry_mut(entry);
        bytes[0x01] = any_flag(prng);
        put(bytes, 0x1a, if is_game { prng.word() } else { prng.below(size) as u16 });
    }
    if prng.one_in(2) {
        leave_names(prng, card, &entries[card.files.len()..]);
    }
}

/// Names in unused entries, which do not count: half of them are those of files.
fn leave_names(prng: &mut Prng, card: &mut Card, unused: &[usize]) {
    let files = card.listed();
    for &entry in unused {
        let name = if prng.one_in(2) { any_name(prng) } else { any_file(prng, &files).name };
        card.entry_mut(entry)[0x04..0x10].copy_from_slice(&name);
    }
}

fn new_name(prng: &mut Prng, taken: &mut BTreeSet<Name>) -> Name {
    loop {
        let name = any_name(prng);
        if taken.insert(name) {
            return name;
        }
    }
}
