//! The hundred game slots of partition 3: four logical blocks each, from
//! number 24 on. The first two are the slot's header, the others its data.
//!
//! A slot is valid when both header blocks have contents and these, put
//! together, are a right header.

use crate::checksum::checksum;
use crate::flash::{
    self, Block, Layout, Page, DONE, MAGIC, NOTHING_THERE, PAGE, WRONG_BUFFER, WRONG_LENGTH,
    WRONG_PARTITION,
};

#[cfg(test)]
mod tests;

const SLOTS: u64 = 100;
const LENGTH: usize = 32_768;
const PARTITION: u8 = 3;
/// Logical blocks of such a partition: 512, less the header and the bitmap.
const NUMBERS: usize = 510;
const FIRST_NUMBER: u16 = 24;
const BLOCKS_PER_SLOT: u64 = 4;
const HEADER_BLOCKS: usize = 2;

const START: [u8; 2] = [0x01, 0xFF];
const PRODUCT_AT: usize = 0x02;
/// Behind the bytes that it is worked over, which begin at the product.
const CHECKSUM_AT: usize = 0x70;

type Product = [u8; 10];

const ALL_TAKEN: u32 = 40;
const WRONG_HEADER: u32 = 41;
const NO_SLOT: u32 = 42;
const WRONG_BLOCK: u32 = 43;

/// Gives the lowest valid slot with this product number.
pub fn find(image: &[u8], partition: u8, product: &[u8]) -> Result<u64, u32> {
    let layout = open(image, partition)?;
    let product: &Product = product.try_into().map_err(|_| WRONG_BUFFER)?;
    let pages = Pages::of(layout.allocated(image));
    let has_it = |&slot: &u64| pages.header(slot).is_some_and(|it| it.product() == product);
    (0..SLOTS).find(has_it).ok_or(NOTHING_THERE)
}

/// Gives the lowest valid slot that isn't below `from`.
pub fn list(image: &[u8], partition: u8, from: u64) -> Result<u64, u32> {
    let layout = open(image, partition)?;
    let pages = Pages::of(layout.allocated(image));
    let is_valid = |&slot: &u64| pages.header(slot).is_some();
    (from..SLOTS).find(is_valid).ok_or(NOTHING_THERE)
}

/// Gives the slot that has the header's product number. Where none has, the
/// header is first saved at the lowest slot that isn't valid; a block of it
/// that is there already stays.
pub fn claim(image: &mut [u8], partition: u8, first: &[u8], second: &[u8]) -> Result<u64, u32> {
    let layout = open(image, partition)?;
    let first: &Page = first.try_into().map_err(|_| WRONG_BUFFER)?;
    let second: &Page = second.try_into().map_err(|_| WRONG_BUFFER)?;
    let header = Header { first, second };
    if !header.is_right() {
        return Err(WRONG_HEADER);
    }
    let pages = Pages::of(layout.allocated(image));
    let mut lowest_not_valid = None;
    for slot in 0..SLOTS {
        match pages.header(slot) {
            Some(other) if other.product() == header.product() => return Ok(slot),
            Some(_) => {}
            None => lowest_not_valid = lowest_not_valid.or(Some(slot)),
        }
    }
    let slot = lowest_not_valid.ok_or(ALL_TAKEN)?;
    let number = number_of_block(slot, 0);
    let first_is_there = pages.page(slot, 0) == Some(first);
    let second_is_there = pages.page(slot, 1) == Some(second);
    if !first_is_there {
        flash::store(image, layout, number, first);
    }
    if !second_is_there {
        flash::store(image, open(image, partition)?, number + 1, second);
    }
    Ok(slot)
}

/// A data block that is asked for.
#[derive(Debug, Clone, Copy, PartialEq, Eq)]
pub struct DataBlock {
    /// The slot, which may be any number.
    pub slot: u64,
    /// 0 or 1 for the slot's two, which may be any number too.
    pub block: u64,
}

/// Fills `page` with the contents of a slot's data block.
pub fn read(image: &[u8], partition: u8, asked: DataBlock, page: &mut [u8]) -> u32 {
    try_read(image, partition, asked, page).map_or_else(|refusal| refusal, |()| DONE)
}

/// Gives a slot's data block new contents, provided its present ones are
/// still as `expected`: 0 bytes stand for nothing, 60 for a page. The bytes
/// that are there already change nothing.
pub fn save(
    image: &mut [u8],
    partition: u8,
    asked: DataBlock,
    expected: &[u8],
    page: &[u8],
) -> u32 {
    try_save(image, partition, asked, expected, page).map_or_else(|refusal| refusal, |()| DONE)
}

fn try_read(image: &[u8], partition: u8, asked: DataBlock, page: &mut [u8]) -> Result<(), u32> {
    let layout = open(image, partition)?;
    let page = page.try_into().map_err(|_| WRONG_BUFFER)?;
    let allocated = layout.allocated(image);
    flash::fill(allocated, data_number(allocated, asked)?, page)
}

fn try_save(
    image: &mut [u8],
    partition: u8,
    asked: DataBlock,
    expected: &[u8],
    page: &[u8],
) -> Result<(), u32> {
    let layout = open(image, partition)?;
    let (expected, page) = flash::save_buffers(expected, page)?;
    let number = data_number(layout.allocated(image), asked)?;
    flash::replace(image, layout, number, expected, page)
}

/// Tests that the partition is sound and the one that has slots.
fn open(image: &[u8], partition: u8) -> Result<Layout, u32> {
    if image.len() != LENGTH {
        return Err(WRONG_LENGTH);
    }
    if image.starts_with(&MAGIC) && partition != PARTITION {
        return Err(WRONG_PARTITION);
    }
    flash::open(image, partition)
}

/// The logical number of data block 0 or 1 of a valid slot.
fn data_number(allocated: &[Block], asked: DataBlock) -> Result<u16, u32> {
    let DataBlock { slot, block } = asked;
    if slot >= SLOTS || !is_valid(allocated, slot) {
        return Err(NO_SLOT);
    }
    match block {
        0 | 1 => Ok(number_of_block(slot, 2 + block)),
        _ => Err(WRONG_BLOCK),
    }
}

/// The logical number of one of a slot's four blocks.
fn number_of_block(slot: u64, block: u64) -> u16 {
    FIRST_NUMBER + (BLOCKS_PER_SLOT * slot + block) as u16
}

fn is_valid(allocated: &[Block], slot: u64) -> bool {
    let page = |block| flash::find(allocated, number_of_block(slot, block));
    match (page(0), page(1)) {
        (Some(first), Some(second)) => Header { first, second }.is_right(),
        _ => false,
    }
}

/// The two blocks of a header.
#[derive(Clone, Copy)]
struct Header<'a> {
    first: &'a Page,
    second: &'a Page,
}

impl<'a> Header<'a> {
    fn is_right(self) -> bool {
        let mut bytes = [0; HEADER_BLOCKS * PAGE];
        bytes[..PAGE].copy_from_slice(self.first);
        bytes[PAGE..].copy_from_slice(self.second);
        let stored = u16::from_le_bytes([bytes[CHECKSUM_AT], bytes[CHECKSUM_AT + 1]]);
        bytes.starts_with(&START) && checksum(&bytes[PRODUCT_AT..CHECKSUM_AT]) == stored
    }

    fn product(self) -> &'a Product {
        self.first[PRODUCT_AT..]
            .first_chunk()
            .expect("the product lies in the first block")
    }
}

/// The contents of every logical block.
struct Pages<'a>([Option<&'a Page>; NUMBERS]);

impl<'a> Pages<'a> {
    /// One pass from the top down: the first good block of a number is its
    /// latest.
    fn of(allocated: &'a [Block]) -> Self {
        let mut pages = [None; NUMBERS];
        for block in allocated.iter().rev() {
            if let Some(page @ None) = pages.get_mut(usize::from(flash::number_of(block))) {
                if flash::has_right_checksum(block) {
                    *page = Some(flash::page_of(block));
                }
            }
        }
        Pages(pages)
    }

    /// The contents of one of a slot's four blocks.
    fn page(&self, slot: u64, block: u64) -> Option<&'a Page> {
        self.0[usize::from(number_of_block(slot, block))]
    }

    /// The header of a valid slot.
    fn header(&self, slot: u64) -> Option<Header<'a>> {
        let (first, second) = (self.page(slot, 0)?, self.page(slot, 1)?);
        Some(Header { first, second }).filter(|header| header.is_right())
    }
}
