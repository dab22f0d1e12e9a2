//! VMU memory cards: images of 131,072 bytes, 256 blocks of 512.
//!
//! ```
//! use galtuyeg::card::{self, NewFile, Place, Reason};
//!
//! # let mut bytes = vec![0; 131_072];
//! # bytes[130_560..130_576].fill(0x55);
//! # for (at, value) in [(0x46, 254), (0x48, 1), (0x4a, 253), (0x4c, 13), (0x50, 200)] {
//! #     bytes[130_560 + at] = value;
//! # }
//! # for block in 0..256 {
//! #     let link: u16 = match block {
//! #         0 | 241 | 254 | 255 => 0xfffa,
//! #         242..=253 => block - 1,
//! #         _ => 0xfffc,
//! #     };
//! #     let at = 130_048 + 2 * usize::from(block);
//! #     bytes[at..at + 2].copy_from_slice(&link.to_le_bytes());
//! # }
//! # let entry = &mut bytes[253 * 512..][..32];
//! # entry[0] = 0x33;
//! # entry[4..16].copy_from_slice(b"SETTINGS.DAT");
//! # entry[24] = 1;
//! # let card = bytes.as_mut_slice();
//! // `card` is a sound card with one file, a block long.
//! for entry in card::entries(card)? {
//!     let file = card::read_file(card, &entry.name)?;
//!     assert_eq!(file.len(), usize::from(entry.size) * card::BLOCK_BYTES);
//! }
//!
//! // A copy of it is written under another name, and the file itself deleted.
//! let data = card::read_file(card, b"SETTINGS.DAT")?;
//! let time = [0x19, 0x99, 0x11, 0x15, 0x23, 0x59, 0x58, 0x00];
//! let copy = NewFile { name: *b"SETTINGS.BAK", flag: 0x00, time, offset: 0, data: &data };
//! card::write(card, &copy)?;
//! card::delete(card, b"SETTINGS.DAT")?;
//! assert_eq!(card::read_file(card, &copy.name)?, data);
//!
//! // The name is in use now, by directory entry 1.
//! let refusal = card::write(card, &copy).unwrap_err();
//! assert_eq!(refusal.reason, Reason::SameName);
//! assert_eq!(refusal.place, Place::Entry(1));
//!
//! // Its root block spoiled, it is refused, and the refusal says where.
//! card[255 * 512] = 0;
//! let refusal = card::check(card).unwrap_err();
//! assert_eq!(refusal.reason, Reason::Format);
//! assert_eq!(refusal.place, Place::Block(255));
//! assert_eq!(refusal.number(), 21);
//! # Ok::<(), card::Refusal>(())
//! ```

use std::error::Error;
use std::fmt;
use std::iter::FusedIterator;

use crate::contract::{broken, byte, word};
use crate::raw;

/// Bytes in a file's name.
pub const NAME_BYTES: usize = 12;
/// Bytes in a file's time.
pub const TIME_BYTES: usize = 8;
/// Bytes in a block.
pub const BLOCK_BYTES: usize = 512;

/// What is wrong with a card, or with what was asked of it. [`Reason::Length`] to [`Reason::Game`] are
/// tested in this order, each over the whole card before the next. Then a [`read`] tests
/// [`Reason::BufferLength`], [`Reason::NoFile`], [`Reason::Index`]; a [`write()`] [`Reason::BufferLength`],
/// [`Reason::Entry`], [`Reason::SameName`], [`Reason::NoRoom`]; a [`delete`] [`Reason::BufferLength`],
/// [`Reason::NoFile`].
#[derive(Clone, Copy, Debug, PartialEq, Eq, Hash)]
#[non_exhaustive]
pub enum Reason {
    /// 20: the card isn't 131,072 bytes long.
    Length,
    /// 21: the root block's first 16 bytes aren't all 55.
    Format,
    /// 22: the root block's fields are wrong.
    Root,
    /// 23: a table entry of blocks 241 to 255 is wrong.
    SystemBlock,
    /// 24: a table entry of blocks 200 to 240 is neither FFFC nor FFFF.
    HiddenBlock,
    /// 25: a table entry of a user block is none of FFFC, FFFF, FFFA and 0 to 199.
    UserBlock,
    /// 26: a bad directory entry. With [`Place::WholeCard`], of a [`write()`]: the header offset isn't below
    /// the size.
    Entry,
    /// 27: a chain that doesn't end at the file's size.
    Chain,
    /// 28: a block that is in an earlier entry's file also.
    SharedBlock,
    /// 29: an earlier entry's name. Of a [`write()`] also: the name is in use, and the place is the entry
    /// that has it.
    SameName,
    /// 30: a game that isn't the only one, or isn't blocks 0 and up in order, or is above 128 blocks.
    Game,
    /// 31: no file of that name.
    NoFile,
    /// 32: the block index isn't below the file's size.
    Index,
    /// 33: name, time, block buffer or data of the wrong length. In this module only a [`write()`] is
    /// refused so, where its data isn't 1 to 200 whole blocks: its types have the other lengths. [`raw`]'s
    /// functions are refused for each.
    BufferLength,
    /// 34: fewer user blocks are free than the file has.
    NoRoom,
}

impl Reason {
    /// All reasons, in the order of their numbers.
    pub const ALL: &'static [Reason] = &[
        Reason::Length,
        Reason::Format,
        Reason::Root,
        Reason::SystemBlock,
        Reason::HiddenBlock,
        Reason::UserBlock,
        Reason::Entry,
        Reason::Chain,
        Reason::SharedBlock,
        Reason::SameName,
        Reason::Game,
        Reason::NoFile,
        Reason::Index,
        Reason::BufferLength,
        Reason::NoRoom,
    ];

    /// The paper's number, 20 to 34.
    pub fn number(self) -> u32 {
        match self {
            Reason::Length => 20,
            Reason::Format => 21,
            Reason::Root => 22,
            Reason::SystemBlock => 23,
            Reason::HiddenBlock => 24,
            Reason::UserBlock => 25,
            Reason::Entry => 26,
            Reason::Chain => 27,
            Reason::SharedBlock => 28,
            Reason::SameName => 29,
            Reason::Game => 30,
            Reason::NoFile => 31,
            Reason::Index => 32,
            Reason::BufferLength => 33,
            Reason::NoRoom => 34,
        }
    }

    /// The reason of this number, if there is one.
    pub fn from_number(number: u32) -> Option<Reason> {
        Reason::ALL.iter().copied().find(|reason| reason.number() == number)
    }
}

impl fmt::Display for Reason {
    fn fmt(&self, f: &mut fmt::Formatter<'_>) -> fmt::Result {
        f.write_str(match self {
            Reason::Length => "the card is not 131,072 bytes long",
            Reason::Format => "the root block does not begin with sixteen bytes of 55",
            Reason::Root => "the root block's fields are wrong",
            Reason::SystemBlock => "a system block's table entry is wrong",
            Reason::HiddenBlock => "a hidden block's table entry is neither free nor damaged",
            Reason::UserBlock => "a user block's table entry says nothing known",
            Reason::Entry => "bad directory entry, or bad header offset of a new file",
            Reason::Chain => "the file's chain does not end at its size",
            Reason::SharedBlock => "the file has a block of an earlier file",
            Reason::SameName => {
                "the file has an earlier file's name, or the name is in use already"
            }
            Reason::Game => "the game is a second one, out of place or too long",
            Reason::NoFile => "no file of that name",
            Reason::Index => "the file has no block of that index",
            Reason::BufferLength => "a buffer has the wrong length",
            Reason::NoRoom => "fewer user blocks are free than the file has",
        })
    }
}

/// Where on the card a refusal was met.
#[derive(Clone, Copy, Debug, PartialEq, Eq, Hash)]
#[non_exhaustive]
pub enum Place {
    /// No place of its own.
    WholeCard,
    /// This block, 0 to 255.
    Block(u8),
    /// This directory entry, 0 to 207.
    Entry(u8),
}

impl fmt::Display for Place {
    fn fmt(&self, f: &mut fmt::Formatter<'_>) -> fmt::Result {
        match self {
            Place::WholeCard => f.write_str("whole card"),
            Place::Block(block) => write!(f, "block {block}"),
            Place::Entry(entry) => write!(f, "directory entry {entry}"),
        }
    }
}

/// Why a call was refused, and where.
#[derive(Clone, Copy, Debug, PartialEq, Eq, Hash)]
pub struct Refusal {
    /// What is wrong.
    pub reason: Reason,
    /// The lowest block or entry that it is wrong of.
    pub place: Place,
}

impl Refusal {
    /// The paper's number, 20 to 34.
    pub fn number(self) -> u32 {
        self.reason.number()
    }
}

impl fmt::Display for Refusal {
    fn fmt(&self, f: &mut fmt::Formatter<'_>) -> fmt::Result {
        let Refusal { reason, place } = self;
        write!(f, "refused {} ({place}): {reason}", self.number())
    }
}

impl Error for Refusal {}

/// What a check says of a sound card.
#[derive(Clone, Copy, Debug, PartialEq, Eq, Hash)]
pub struct Checked {
    /// User blocks that are in use by no file.
    pub orphans: u8,
}

/// What a file is.
#[derive(Clone, Copy, Debug, PartialEq, Eq, Hash)]
pub enum Kind {
    /// 33: a save or other data.
    Data,
    /// CC: a mini-game, which lies from block 0 on.
    Game,
}

/// What a file's copy flag says. It is for whoever copies files: every call takes a protected file like
/// any other.
#[derive(Clone, Copy, Debug, PartialEq, Eq, Hash)]
pub enum CopyProtection {
    /// FF: it is not to be copied.
    Protected,
    /// Any other byte: it may be copied.
    Copyable,
}

/// A used directory entry.
#[derive(Clone, Copy, Debug, PartialEq, Eq, Hash)]
pub struct Entry {
    /// The entry's number, 0 to 207.
    pub entry: u8,
    /// Data or game.
    pub kind: Kind,
    /// The copy flag, any byte.
    pub flag: u8,
    /// What the copy flag says.
    pub protection: CopyProtection,
    /// The first block, 0 to 199.
    pub first: u8,
    /// The size in blocks, 1 to 200.
    pub size: u8,
    /// The header offset in blocks: for data below the size, for a game as the card has it.
    pub offset: u16,
    /// The name, any bytes.
    pub name: [u8; NAME_BYTES],
    /// The time as the card has it, untested.
    pub time: [u8; TIME_BYTES],
}

/// A data file to be written.
#[derive(Clone, Copy, Debug, PartialEq, Eq, Hash)]
pub struct NewFile<'a> {
    /// The name, any bytes that no file of the card has for its name.
    pub name: [u8; NAME_BYTES],
    /// The copy flag, any byte: FF is protected, all others may be copied.
    pub flag: u8,
    /// The time, stored untested.
    pub time: [u8; TIME_BYTES],
    /// The header offset in blocks, below the size.
    pub offset: u64,
    /// [`BLOCK_BYTES`] for each of its blocks, 1 to 200 of them.
    pub data: &'a [u8],
}

/// Whether the card is sound, and how many orphans it has.
///
/// # Errors
/// [`Refusal`] 20 to 30.
pub fn check(card: &[u8]) -> Result<Checked, Refusal> {
    let checked = raw::card_check(card);
    answered(checked.code, checked.place_kind, checked.place)?;
    let orphans = byte("a number of orphans", checked.orphans);
    Ok(Checked { orphans })
}

/// The first used entry from entry `from` on, which may be any number; `None` where there is none.
///
/// # Errors
/// [`Refusal`] 20 to 30.
pub fn list(card: &[u8], from: u64) -> Result<Option<Entry>, Refusal> {
    let listed = raw::card_list(card, from);
    match answered(listed.code, listed.place_kind, listed.place) {
        Ok(()) => Ok(Some(entry(&listed))),
        Err(Refusal { reason: Reason::NoFile, .. }) => Ok(None),
        Err(refusal) => Err(refusal),
    }
}

/// All used entries, rising. Each one takes a [`list`], which checks the whole card.
///
/// # Errors
/// [`Refusal`] 20 to 30.
pub fn entries(card: &[u8]) -> Result<Entries<'_>, Refusal> {
    check(card)?;
    Ok(Entries { card, from: 0 })
}

/// The used entries of a sound card, rising; [`entries`] gives it.
#[derive(Clone, Debug)]
pub struct Entries<'a> {
    card: &'a [u8],
    from: u64,
}

impl Iterator for Entries<'_> {
    type Item = Entry;

    fn next(&mut self) -> Option<Entry> {
        // No refusal is met: the card is sound, and borrowed since.
        let entry = list(self.card, self.from).ok()??;
        self.from = u64::from(entry.entry) + 1;
        Some(entry)
    }
}

impl FusedIterator for Entries<'_> {}

/// Fills `block` with block `index` of the file of this name.
///
/// # Errors
/// [`Refusal`] 20 to 32. The buffer is then as it was.
pub fn read(
    card: &[u8],
    name: &[u8; NAME_BYTES],
    index: u64,
    block: &mut [u8; BLOCK_BYTES],
) -> Result<(), Refusal> {
    let verdict = raw::card_read(card, name, index, block);
    answered(verdict.code, verdict.place_kind, verdict.place)
}

/// The whole file of this name, [`BLOCK_BYTES`] for each of its blocks. Each block takes a [`read`], which
/// checks the whole card.
///
/// # Errors
/// [`Refusal`] 20 to 31.
pub fn read_file(card: &[u8], name: &[u8; NAME_BYTES]) -> Result<Vec<u8>, Refusal> {
    let mut file = Vec::new();
    let mut block = [0; BLOCK_BYTES];
    for index in 0.. {
        match read(card, name, index, &mut block) {
            Ok(()) => file.extend_from_slice(&block),
            // Behind the last block.
            Err(Refusal { reason: Reason::Index, .. }) => break,
            Err(refusal) => return Err(refusal),
        }
    }
    Ok(file)
}

/// Puts a data file onto the card: into the highest free blocks, from the highest down, and the lowest
/// unused entry.
///
/// # Errors
/// [`Refusal`] 20 to 30, then 33 for the data, 26, 29, 34. The card is then as it was.
pub fn write(card: &mut [u8], file: &NewFile<'_>) -> Result<(), Refusal> {
    let NewFile { name, flag, time, offset, data } = file;
    let verdict = raw::card_write(card, name, *flag, time, *offset, data);
    answered(verdict.code, verdict.place_kind, verdict.place)
}

/// Takes the file of this name off the card, data or game. Its blocks become free and keep their bytes;
/// its entry becomes zeros.
///
/// # Errors
/// [`Refusal`] 20 to 31. The card is then as it was.
pub fn delete(card: &mut [u8], name: &[u8; NAME_BYTES]) -> Result<(), Refusal> {
    let verdict = raw::card_delete(card, name);
    answered(verdict.code, verdict.place_kind, verdict.place)
}

fn entry(listed: &raw::CardEntry) -> Entry {
    let kind = match listed.kind {
        0x33 => Kind::Data,
        0xcc => Kind::Game,
        other => broken("the entry type", other),
    };
    let protection = match listed.copy_protected {
        0 => CopyProtection::Copyable,
        1 => CopyProtection::Protected,
        other => broken("the copy protection", other),
    };
    Entry {
        entry: byte("the entry", listed.entry),
        kind,
        flag: byte("the copy flag", listed.flag),
        protection,
        first: byte("the first block", listed.first),
        size: byte("the size", listed.size),
        offset: word("the header offset", listed.offset),
        name: listed.name,
        time: listed.time,
    }
}

fn answered(code: u64, place_kind: u64, place: u64) -> Result<(), Refusal> {
    if code == 0 {
        return Ok(());
    }
    let reason = u32::try_from(code).ok().and_then(Reason::from_number);
    let reason = reason.unwrap_or_else(|| broken("the number", code));
    let place = match place_kind {
        0 => Place::WholeCard,
        1 => Place::Block(byte("the block", place)),
        2 => Place::Entry(byte("the entry", place)),
        other => broken("the kind of place", other),
    };
    Err(Refusal { reason, place })
}
