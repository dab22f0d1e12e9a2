//! The calls that change a card: a data file is put onto it, a file is taken
//! off.

use super::directory::{data_record, record_mut, RECORD};
use super::table::{set_entry, FREE, LAST};
use super::{
    Refusal, Volume, BLOCK, NAME, NO_ROOM, NO_SUCH_FILE, SAME_NAME, TIME, USER_BLOCKS,
    WRONG_BUFFER, WRONG_RECORD,
};

/// A data file that is to be put onto a card.
#[derive(Debug, Clone, Copy)]
pub struct NewFile<'a> {
    /// The name, 12 bytes.
    pub name: &'a [u8],
    /// Copy flag, any byte.
    pub flag: u8,
    /// The creation time, 8 bytes, stored as it is.
    pub time: &'a [u8],
    /// Place of the file's header, in blocks from its start.
    pub offset: u64,
    /// What the file holds: 1 to 200 blocks of 512 bytes.
    pub data: &'a [u8],
}

impl<'a> NewFile<'a> {
    /// Tests what can be tested without a card and gives the file's blocks.
    fn blocks(&self) -> Result<&'a [[u8; BLOCK]], Refusal> {
        let (blocks, rest) = self.data.as_chunks();
        let is_whole = rest.is_empty() && (1..=usize::from(USER_BLOCKS)).contains(&blocks.len());
        if self.name.len() != NAME || self.time.len() != TIME || !is_whole {
            return Err(Refusal::whole(WRONG_BUFFER));
        }
        if self.offset >= blocks.len() as u64 {
            return Err(Refusal::whole(WRONG_RECORD));
        }
        Ok(blocks)
    }
}

/// Puts a data file onto the card. It gets the highest free blocks, in falling
/// order, and the lowest unused directory entry.
pub fn write(card: &mut [u8], file: &NewFile<'_>) -> Result<(), Refusal> {
    let Volume {
        table, directory, ..
    } = Volume::open(card)?;
    let contents = file.blocks()?;
    let size = contents.len();
    if let Some((entry, _)) = directory.find(file.name) {
        return Err(Refusal::entry(SAME_NAME, entry));
    }
    let mut free = table.free_blocks(0);
    let last = free.nth_back(size - 1).ok_or(Refusal::whole(NO_ROOM))?;
    let entry = directory.lowest_unused();
    let card = card.as_chunks_mut().0;
    // From the last block, the lowest, back to the first: each one's next is
    // known then.
    let mut next = LAST;
    for (block, content) in table.free_blocks(last).zip(contents.iter().rev()) {
        card[usize::from(block)] = *content;
        set_entry(card, block, next);
        next = block;
    }
    *record_mut(card, entry) = data_record(file, next, size as u16);
    Ok(())
}

/// Takes a file off the card. Its blocks are free then and keep their bytes.
pub fn delete(card: &mut [u8], name: &[u8]) -> Result<(), Refusal> {
    let Volume {
        table, directory, ..
    } = Volume::open(card)?;
    if name.len() != NAME {
        return Err(Refusal::whole(WRONG_BUFFER));
    }
    let (entry, file) = directory.find(name).ok_or(Refusal::whole(NO_SUCH_FILE))?;
    let chain = table.chain(file.first());
    let card = card.as_chunks_mut().0;
    for block in chain {
        set_entry(card, block, FREE);
    }
    *record_mut(card, entry) = [0; RECORD];
    Ok(())
}
