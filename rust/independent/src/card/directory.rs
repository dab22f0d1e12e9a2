//! The directory: 208 entries of 32 bytes, used or not.

use super::{
    block_of, Entry, NewFile, Refusal, BLOCK, CARD, DIRECTORY_BLOCKS, FIRST_DIRECTORY_BLOCK, NAME,
    TIME, USER_BLOCKS, WRONG_RECORD,
};

pub(super) const RECORD: usize = 32;
const RECORDS_PER_BLOCK: usize = BLOCK / RECORD;
const RECORDS: usize = DIRECTORY_BLOCKS * RECORDS_PER_BLOCK;

const UNUSED: u8 = 0x00;
const DATA: u8 = 0x33;
const GAME: u8 = 0xCC;
const COPY_PROTECTED: u8 = 0xFF;

/// A directory entry as stored.
#[derive(Clone, Copy)]
pub(super) struct Record<'a>(&'a [u8; RECORD]);

impl<'a> Record<'a> {
    fn at(card: &'a [u8; CARD], entry: usize) -> Self {
        let block = block_of(card, FIRST_DIRECTORY_BLOCK - entry / RECORDS_PER_BLOCK);
        Record(&block.as_chunks().0[entry % RECORDS_PER_BLOCK])
    }

    fn is_used(self) -> bool {
        self.kind() != UNUSED
    }

    pub(super) fn is_game(self) -> bool {
        self.kind() == GAME
    }

    fn kind(self) -> u8 {
        self.0[0x00]
    }

    fn flag(self) -> u8 {
        self.0[0x01]
    }

    pub(super) fn first(self) -> u16 {
        self.number_at(0x02)
    }

    pub(super) fn name(self) -> [u8; NAME] {
        self.bytes_at(0x04)
    }

    fn time(self) -> [u8; TIME] {
        self.bytes_at(0x10)
    }

    pub(super) fn size(self) -> u16 {
        self.number_at(0x18)
    }

    fn offset(self) -> u16 {
        self.number_at(0x1A)
    }

    fn number_at(self, at: usize) -> u16 {
        u16::from_le_bytes(self.bytes_at(at))
    }

    fn bytes_at<const N: usize>(self, at: usize) -> [u8; N] {
        std::array::from_fn(|i| self.0[at + i])
    }

    /// Whether the fields of a used entry are in range.
    fn is_well_formed(self) -> bool {
        let offset_fits = match self.kind() {
            DATA => self.offset() < self.size(),
            GAME => true,
            _ => return false,
        };
        offset_fits && self.first() < USER_BLOCKS && (1..=USER_BLOCKS).contains(&self.size())
    }

    pub(super) fn describe(self, entry: u8) -> Entry {
        Entry {
            entry: entry.into(),
            kind: self.kind(),
            flag: self.flag(),
            is_copy_protected: self.flag() == COPY_PROTECTED,
            first: self.first().into(),
            size: self.size().into(),
            offset: self.offset().into(),
            name: self.name(),
            time: self.time(),
        }
    }
}

/// The entry of a new data file, whose offset is below its size. Its reserved
/// bytes are zero.
pub(super) fn data_record(file: &NewFile<'_>, first: u16, size: u16) -> [u8; RECORD] {
    let mut record = [0; RECORD];
    record[0x00] = DATA;
    record[0x01] = file.flag;
    record[0x02..0x04].copy_from_slice(&first.to_le_bytes());
    record[0x04..0x10].copy_from_slice(file.name);
    record[0x10..0x18].copy_from_slice(file.time);
    record[0x18..0x1A].copy_from_slice(&size.to_le_bytes());
    record[0x1A..0x1C].copy_from_slice(&(file.offset as u16).to_le_bytes());
    record
}

/// Where an entry is stored on a card.
pub(super) fn record_mut(card: &mut [[u8; BLOCK]], entry: u8) -> &mut [u8; RECORD] {
    let entry = usize::from(entry);
    let block = &mut card[FIRST_DIRECTORY_BLOCK - entry / RECORDS_PER_BLOCK];
    &mut block.as_chunks_mut().0[entry % RECORDS_PER_BLOCK]
}

/// The used entries of a directory, all of them well formed.
pub(super) struct Directory<'a> {
    card: &'a [u8; CARD],
    used: [u8; RECORDS],
    count: usize,
}

impl<'a> Directory<'a> {
    pub(super) fn open(card: &'a [u8; CARD]) -> Result<Self, Refusal> {
        let mut used = [0; RECORDS];
        let mut count = 0;
        for entry in 0..RECORDS {
            let record = Record::at(card, entry);
            if record.is_used() {
                if !record.is_well_formed() {
                    return Err(Refusal::entry(WRONG_RECORD, entry as u8));
                }
                used[count] = entry as u8;
                count += 1;
            }
        }
        Ok(Directory { card, used, count })
    }

    /// The used entries with their numbers, rising.
    pub(super) fn records(&self) -> impl Iterator<Item = (u8, Record<'a>)> + '_ {
        self.used[..self.count]
            .iter()
            .map(|&entry| (entry, Record::at(self.card, entry.into())))
    }

    /// The used entry with this name.
    pub(super) fn find(&self, name: &[u8]) -> Option<(u8, Record<'a>)> {
        self.records().find(|(_, record)| record.name() == name)
    }

    /// There is one on every sound card: each file has a block of its own, and
    /// there are fewer of these than entries.
    pub(super) fn lowest_unused(&self) -> u8 {
        let used = self.used[..self.count].iter();
        used.zip(0..)
            .take_while(|&(&used, entry)| used == entry)
            .count() as u8
    }
}
