//! The tests that a card's files have to pass together.

use super::directory::{Directory, Record};
use super::table::Table;
use super::{Refusal, NAME, SAME_NAME, SHARED_BLOCK, USER_BLOCKS, WRONG_CHAIN, WRONG_GAME};

const FIRST_GAME_BLOCK: u16 = 0;
const MAX_GAME_SIZE: u16 = 128;
const NAME_SLOTS: usize = 512;

/// Tests every chain, then whether two of them meet. Gives the number of
/// blocks in files.
///
/// From a shared block on, two chains are the same. So they share a block
/// exactly when they share their last one.
pub(super) fn check_chains(table: &Table, directory: &Directory) -> Result<u16, Refusal> {
    let mut ends = [false; USER_BLOCKS as usize];
    let mut shared = None;
    let mut in_files = 0;
    for (entry, record) in directory.records() {
        let last = table
            .last_block(record.first(), record.size())
            .ok_or(Refusal::entry(WRONG_CHAIN, entry))?;
        let is_shared = std::mem::replace(&mut ends[usize::from(last)], true);
        if is_shared && shared.is_none() {
            shared = Some(entry);
        }
        in_files += record.size();
    }
    match shared {
        Some(entry) => Err(Refusal::entry(SHARED_BLOCK, entry)),
        None => Ok(in_files),
    }
}

/// Tests that no two files have the same name, with a hash table of the names
/// met so far. It has more slots than the directory has entries, so every
/// search comes to an empty one.
pub(super) fn check_names(directory: &Directory) -> Result<(), Refusal> {
    let mut slots: [Option<Record>; NAME_SLOTS] = [None; NAME_SLOTS];
    for (entry, record) in directory.records() {
        let name = record.name();
        let mut slot = hash(name);
        while let Some(earlier) = slots[slot] {
            if earlier.name() == name {
                return Err(Refusal::entry(SAME_NAME, entry));
            }
            slot = (slot + 1) % NAME_SLOTS;
        }
        slots[slot] = Some(record);
    }
    Ok(())
}

/// A slot for a name: a multiplicative hash, of which the top bits serve.
fn hash(name: [u8; NAME]) -> usize {
    const ODD: u64 = 0x9E37_79B9_7F4A_7C15;
    let mix = name.as_chunks().0.iter().fold(0, |mix: u64, word| {
        (mix.rotate_left(21) ^ u64::from(u32::from_le_bytes(*word))).wrapping_mul(ODD)
    });
    (mix >> (u64::BITS - NAME_SLOTS.ilog2())) as usize
}

/// Tests that there is at most one game, and that it lies in one piece at
/// the start of the card.
pub(super) fn check_games(table: &Table, directory: &Directory) -> Result<(), Refusal> {
    let mut games = directory.records().filter(|(_, record)| record.is_game());
    if let Some((entry, game)) = games.next() {
        if !is_runnable(table, game) {
            return Err(Refusal::entry(WRONG_GAME, entry));
        }
    }
    match games.next() {
        Some((entry, _)) => Err(Refusal::entry(WRONG_GAME, entry)),
        None => Ok(()),
    }
}

fn is_runnable(table: &Table, game: Record) -> bool {
    game.first() == FIRST_GAME_BLOCK
        && game.size() <= MAX_GAME_SIZE
        && (1..game.size()).all(|next| table.entry(next - 1) == next)
}
