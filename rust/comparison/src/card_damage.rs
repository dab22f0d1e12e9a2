//! Damage to a card, aimed at one refusal each. Where the card has nothing to aim at it stays as it is.

use inputs::card::{put, Card, DAMAGED, ENTRIES, FREE, GAME, LAST, ROOT, ROOT_FIELDS, TABLE, USER};
use inputs::Prng;

/// The refusals that damage can aim at.
pub const TARGETS: [u32; 10] = [21, 22, 23, 24, 25, 26, 27, 28, 29, 30];

pub fn aim(prng: &mut Prng, card: &mut Card, target: u32) {
    match target {
        21 => prng.flip_bit(&mut card.bytes[ROOT..ROOT + 16]),
        22 => root_field(prng, card),
        23 => system_entry(prng, card),
        24 => hidden_entry(prng, card),
        25 => user_entry(prng, card),
        26 => directory_entry(prng, card),
        27 => chain(prng, card),
        28 => shared_block(prng, card),
        29 => same_name(prng, card),
        _ => game_rule(prng, card),
    }
}

/// Any bit of the root, the table or the directory.
pub fn stray_bit(prng: &mut Prng, card: &mut Card) {
    let part = match prng.below(3) {
        0 => ROOT..ROOT + 0x60,
        1 => TABLE..ROOT,
        _ => 241 * 512..TABLE,
    };
    prng.flip_bit(&mut card.bytes[part]);
}

fn root_field(prng: &mut Prng, card: &mut Card) {
    let (at, value) = prng.pick(&ROOT_FIELDS);
    let wrong = prng.pick_or_word(&[value ^ 1, value + 1, value | 0x100, value.swap_bytes()]);
    put(&mut card.bytes, ROOT + at, wrong);
}

fn system_entry(prng: &mut Prng, card: &mut Card) {
    let block = prng.within(241..=255) as u16;
    let wrong = prng.pick_or_word(&[FREE, DAMAGED, LAST, block, block - 1, block - 2]);
    card.set_link(block, wrong);
}

fn hidden_entry(prng: &mut Prng, card: &mut Card) {
    let block = prng.within(200..=240) as u16;
    let wrong = prng.pick_or_word(&[LAST, 0xfffb, 0xfffd, 0xfffe, 0, 199, 200, block]);
    card.set_link(block, wrong);
}

fn user_entry(prng: &mut Prng, card: &mut Card) {
    let block = prng.below(USER.into()) as u16;
    let wrong = [200, 201, 240, 241, 255, 256, 0xfff9, 0xfffb, 0xfffd, 0xfffe];
    card.set_link(block, prng.pick_or_word(&wrong));
}

/// One field of a used entry, or the type of an unused one.
fn directory_entry(prng: &mut Prng, card: &mut Card) {
    if card.files.is_empty() || prng.one_in(8) {
        let entry = prng.below(ENTRIES);
        card.entry_mut(entry)[0] = prng.byte();
        return;
    }
    let at = prng.below(card.files.len());
    let (entry, size) = (card.files[at].entry, card.files[at].blocks.len() as u16);
    let bytes = card.entry_mut(entry);
    match prng.below(4) {
        0 => bytes[0] = prng.pick_or_byte(&[1, 0x32, 0x34, 0xcd, 0xff]),
        1 => put(bytes, 0x02, prng.pick(&[200, 201, 255, 256, 0x100 + size, 0xffff])),
        2 => put(bytes, 0x18, prng.pick(&[0, 201, 256, 0x100 + size, 0xffff])),
        _ => put(bytes, 0x1a, prng.pick(&[size, size + 1, 0x100, 0xffff])),
    }
}

/// A file that is longer or shorter than it says, or runs off.
fn chain(prng: &mut Prng, card: &mut Card) {
    if card.files.is_empty() {
        return;
    }
    let at = prng.below(card.files.len());
    let (entry, blocks) = (card.files[at].entry, card.files[at].blocks.clone());
    let size = blocks.len() as u16;
    match prng.below(5) {
        0 => put(card.entry_mut(entry), 0x18, (size + 1).min(USER)),
        1 => {
            let shorter = (size - 1).max(1);
            put(card.entry_mut(entry), 0x18, shorter);
            put(card.entry_mut(entry), 0x1a, prng.word() % shorter);
        }
        2 => card.set_link(blocks[blocks.len() - 1], prng.pick(&blocks)),
        3 => card.set_link(prng.pick(&blocks), prng.pick(&[LAST, FREE, DAMAGED])),
        _ => card.set_link(prng.pick(&blocks), prng.word() % USER),
    }
}

/// Two entries with the tail of one file between them.
fn shared_block(prng: &mut Prng, card: &mut Card) {
    let Some((from, to)) = two_files(prng, card) else {
        return;
    };
    let kept = prng.below(card.files[from].blocks.len());
    let tail = card.files[from].blocks[kept..].to_vec();
    let (entry, own) = (card.files[to].entry, card.files[to].blocks.clone());
    let joined = prng.below(own.len());
    // Either all of the other file is the tail, or it runs into the tail from blocks of its own.
    let blocks = [&own[..joined], &tail].concat();
    card.chain(&blocks);
    let bytes = card.entry_mut(entry);
    put(bytes, 0x02, blocks[0]);
    put(bytes, 0x18, blocks.len() as u16);
    put(bytes, 0x1a, 0);
}

fn same_name(prng: &mut Prng, card: &mut Card) {
    let Some((from, to)) = two_files(prng, card) else {
        return;
    };
    let (name, entry) = (card.files[from].name, card.files[to].entry);
    card.entry_mut(entry)[0x04..0x10].copy_from_slice(&name);
}

/// A game out of order, or one that is made of a data file: a second one, or not at block 0.
fn game_rule(prng: &mut Prng, card: &mut Card) {
    let game = card.files.iter().find(|file| file.kind == GAME);
    let blocks = game.map_or(Vec::new(), |file| file.blocks.clone());
    if blocks.len() > 2 && prng.one_in(2) {
        let mut stirred = blocks;
        let last = stirred.len() - 1;
        stirred.swap(prng.within(1..=last), prng.within(1..=last));
        card.chain(&stirred);
    } else if !card.files.is_empty() {
        let at = prng.below(card.files.len());
        let entry = card.files[at].entry;
        card.entry_mut(entry)[0] = GAME;
    }
}

/// Two files, either of which may be the earlier one.
fn two_files(prng: &mut Prng, card: &Card) -> Option<(usize, usize)> {
    let count = card.files.len();
    if count < 2 {
        return None;
    }
    let one = prng.below(count);
    let other = (one + prng.within(1..=count - 1)) % count;
    Some((one, other))
}
