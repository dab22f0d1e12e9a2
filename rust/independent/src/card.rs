//! A 128 KiB memory card: 256 blocks of 512 bytes. Blocks 0 to 199 hold
//! files, 241 to 253 the directory, 254 the allocation table, 255 the root.

mod changes;
mod directory;
mod files;
mod table;
#[cfg(test)]
mod tests;

pub use changes::{delete, write, NewFile};

use directory::Directory;
use table::Table;

const BLOCK: usize = 512;
const BLOCKS: usize = 256;
const CARD: usize = BLOCKS * BLOCK;

const USER_BLOCKS: u16 = 200;
/// The directory runs downwards, from its first block to its last.
const FIRST_DIRECTORY_BLOCK: usize = 253;
const LAST_DIRECTORY_BLOCK: usize = 241;
const DIRECTORY_BLOCKS: usize = FIRST_DIRECTORY_BLOCK - LAST_DIRECTORY_BLOCK + 1;
const TABLE_BLOCK: usize = 254;
const ROOT_BLOCK: usize = 255;
const NAME: usize = 12;
const TIME: usize = 8;

const FORMATTED: [u8; 16] = [0x55; 16];
/// Places and values of the root fields that are tested: location and size
/// of the table, location and size of the directory, number of user blocks.
const ROOT_FIELDS: [(usize, u16); 5] = [
    (0x46, TABLE_BLOCK as u16),
    (0x48, 1),
    (0x4A, FIRST_DIRECTORY_BLOCK as u16),
    (0x4C, DIRECTORY_BLOCKS as u16),
    (0x50, USER_BLOCKS),
];

const WRONG_LENGTH: u32 = 20;
const NOT_FORMATTED: u32 = 21;
const WRONG_ROOT: u32 = 22;
const WRONG_SYSTEM_BLOCK: u32 = 23;
const WRONG_HIDDEN_BLOCK: u32 = 24;
const WRONG_USER_BLOCK: u32 = 25;
const WRONG_RECORD: u32 = 26;
const WRONG_CHAIN: u32 = 27;
const SHARED_BLOCK: u32 = 28;
const SAME_NAME: u32 = 29;
const WRONG_GAME: u32 = 30;
const NO_SUCH_FILE: u32 = 31;
const WRONG_INDEX: u32 = 32;
const WRONG_BUFFER: u32 = 33;
const NO_ROOM: u32 = 34;

/// What part of the card a refusal is about.
#[derive(Debug, Clone, Copy, PartialEq, Eq)]
pub enum Place {
    /// The card as a whole.
    Whole,
    /// The block with this number.
    Block(u64),
    /// The directory entry with this number.
    Entry(u64),
}

/// Why a call did nothing.
#[derive(Debug, Clone, Copy, PartialEq, Eq)]
pub struct Refusal {
    /// The number of the reason, 20 to 34.
    pub number: u32,
    /// Where it was found.
    pub place: Place,
}

impl Refusal {
    fn whole(number: u32) -> Self {
        let place = Place::Whole;
        Refusal { number, place }
    }

    fn block(number: u32, block: usize) -> Self {
        let place = Place::Block(block as u64);
        Refusal { number, place }
    }

    fn entry(number: u32, entry: u8) -> Self {
        let place = Place::Entry(entry.into());
        Refusal { number, place }
    }
}

/// A used directory entry.
#[derive(Debug, Clone, Copy, PartialEq, Eq)]
pub struct Entry {
    /// Its number in the directory.
    pub entry: u64,
    /// 0x33 for data, 0xCC for a game.
    pub kind: u8,
    /// Copy flag as stored.
    pub flag: u8,
    /// Whether that says copy protected: 0xFF does, any other byte does not.
    pub is_copy_protected: bool,
    /// First block of the file.
    pub first: u64,
    /// Size of the file in blocks.
    pub size: u64,
    /// Place of the file's header, in blocks from its start.
    pub offset: u64,
    /// The name as stored.
    pub name: [u8; NAME],
    /// The creation time as stored.
    pub time: [u8; TIME],
}

/// Tests the whole card. Gives the number of orphans: user blocks that are
/// neither free nor damaged and in no file.
pub fn check(card: &[u8]) -> Result<u64, Refusal> {
    Ok(Volume::open(card)?.orphans)
}

/// Gives the first used directory entry that isn't below `from`.
pub fn list(card: &[u8], from: u64) -> Result<Entry, Refusal> {
    let volume = Volume::open(card)?;
    let (entry, record) = volume
        .directory
        .records()
        .find(|&(entry, _)| u64::from(entry) >= from)
        .ok_or(Refusal::whole(NO_SUCH_FILE))?;
    Ok(record.describe(entry))
}

/// Fills `block` with the block of a file that has the given index.
pub fn read(card: &[u8], name: &[u8], index: u64, block: &mut [u8]) -> Result<(), Refusal> {
    let volume = Volume::open(card)?;
    if name.len() != NAME || block.len() != BLOCK {
        return Err(Refusal::whole(WRONG_BUFFER));
    }
    let (_, file) = volume
        .directory
        .find(name)
        .ok_or(Refusal::whole(NO_SUCH_FILE))?;
    if index >= u64::from(file.size()) {
        return Err(Refusal::whole(WRONG_INDEX));
    }
    let found = (0..index).fold(file.first(), |at, _| volume.table.entry(at));
    block.copy_from_slice(block_of(volume.card, found.into()));
    Ok(())
}

/// A card that has passed every test.
struct Volume<'a> {
    card: &'a [u8; CARD],
    table: Table,
    directory: Directory<'a>,
    orphans: u64,
}

impl<'a> Volume<'a> {
    fn open(card: &'a [u8]) -> Result<Self, Refusal> {
        let card = card.try_into().map_err(|_| Refusal::whole(WRONG_LENGTH))?;
        check_root(block_of(card, ROOT_BLOCK))?;
        let table = Table::decode(block_of(card, TABLE_BLOCK));
        table.check_system_blocks()?;
        table.check_hidden_blocks()?;
        let allocated = table.check_user_blocks()?;
        let directory = Directory::open(card)?;
        let in_files = files::check_chains(&table, &directory)?;
        files::check_names(&directory)?;
        files::check_games(&table, &directory)?;
        Ok(Volume {
            card,
            table,
            directory,
            // Every block of a file is allocated, and no two files share one.
            orphans: u64::from(allocated - in_files),
        })
    }
}

fn block_of(card: &[u8; CARD], number: usize) -> &[u8; BLOCK] {
    &card.as_chunks().0[number]
}

fn check_root(root: &[u8; BLOCK]) -> Result<(), Refusal> {
    if root[..FORMATTED.len()] != FORMATTED {
        return Err(Refusal::block(NOT_FORMATTED, ROOT_BLOCK));
    }
    let is_right = |(at, value): (usize, u16)| root[at..at + 2] == value.to_le_bytes();
    if !ROOT_FIELDS.into_iter().all(is_right) {
        return Err(Refusal::block(WRONG_ROOT, ROOT_BLOCK));
    }
    Ok(())
}
