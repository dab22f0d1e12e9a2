//! The allocation table: for each block, what it is used for.

use std::iter::successors;

use super::{
    Refusal, BLOCK, BLOCKS, LAST_DIRECTORY_BLOCK, ROOT_BLOCK, TABLE_BLOCK, USER_BLOCKS,
    WRONG_HIDDEN_BLOCK, WRONG_SYSTEM_BLOCK, WRONG_USER_BLOCK,
};

pub(super) const FREE: u16 = 0xFFFC;
const DAMAGED: u16 = 0xFFFF;
pub(super) const LAST: u16 = 0xFFFA;
const FIRST_SYSTEM_BLOCK: usize = LAST_DIRECTORY_BLOCK;

pub(super) struct Table([u16; BLOCKS]);

impl Table {
    pub(super) fn decode(block: &[u8; BLOCK]) -> Self {
        let mut entries = [0; BLOCKS];
        for (entry, bytes) in entries.iter_mut().zip(block.as_chunks().0) {
            *entry = u16::from_le_bytes(*bytes);
        }
        Table(entries)
    }

    pub(super) fn entry(&self, block: u16) -> u16 {
        self.0[usize::from(block)]
    }

    /// The table and the root are files of one block, the directory is one
    /// that runs downwards.
    pub(super) fn check_system_blocks(&self) -> Result<(), Refusal> {
        for block in FIRST_SYSTEM_BLOCK..BLOCKS {
            let expected = match block {
                LAST_DIRECTORY_BLOCK | TABLE_BLOCK | ROOT_BLOCK => LAST,
                _ => block as u16 - 1,
            };
            if self.0[block] != expected {
                return Err(Refusal::block(WRONG_SYSTEM_BLOCK, block));
            }
        }
        Ok(())
    }

    pub(super) fn check_hidden_blocks(&self) -> Result<(), Refusal> {
        for block in usize::from(USER_BLOCKS)..FIRST_SYSTEM_BLOCK {
            if !matches!(self.0[block], FREE | DAMAGED) {
                return Err(Refusal::block(WRONG_HIDDEN_BLOCK, block));
            }
        }
        Ok(())
    }

    /// Gives the number of user blocks that are neither free nor damaged.
    pub(super) fn check_user_blocks(&self) -> Result<u16, Refusal> {
        let mut allocated = 0;
        for block in 0..usize::from(USER_BLOCKS) {
            match self.0[block] {
                FREE | DAMAGED => {}
                LAST | 0..USER_BLOCKS => allocated += 1,
                _ => return Err(Refusal::block(WRONG_USER_BLOCK, block)),
            }
        }
        Ok(allocated)
    }

    /// The last block of the chain from `first`, if it ends after exactly
    /// `size` blocks.
    pub(super) fn last_block(&self, first: u16, size: u16) -> Option<u16> {
        let mut block = first;
        for _ in 1..size {
            block = match self.entry(block) {
                next @ 0..USER_BLOCKS => next,
                _ => return None,
            };
        }
        (self.entry(block) == LAST).then_some(block)
    }

    /// The free user blocks that aren't below `from`, rising.
    pub(super) fn free_blocks(&self, from: u16) -> impl DoubleEndedIterator<Item = u16> + '_ {
        (from..USER_BLOCKS).filter(|&block| self.entry(block) == FREE)
    }

    /// The blocks of the file that begins with `first`, whose chain is sound.
    pub(super) fn chain(&self, first: u16) -> impl Iterator<Item = u16> + '_ {
        successors(Some(first), |&block| {
            Some(self.entry(block)).filter(|&next| next != LAST)
        })
    }
}

/// Gives a block another entry in the table of a card.
pub(super) fn set_entry(card: &mut [[u8; BLOCK]], block: u16, value: u16) {
    card[TABLE_BLOCK].as_chunks_mut().0[usize::from(block)] = value.to_le_bytes();
}
