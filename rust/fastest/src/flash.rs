//! A system flash partition. The calls and their answers are those of `independent::flash`.

mod bitmap;
mod blocks;
mod compaction;
mod next;

use blocks::{Block, BLOCK, PAGE};

pub use independent::flash::Report;

const MAGIC: [u8; 16] = *b"KATANA_FLASH____";
const PARTITION_AT: usize = 16;
const VERSION_AT: usize = 17;
const NEWEST_VERSION: u8 = 1;

const DONE: u32 = 0;
const WRONG_LENGTH: u32 = 1;
const WRONG_MAGIC: u32 = 2;
const WRONG_PARTITION: u32 = 3;
const WRONG_VERSION: u32 = 4;
const WRONG_BITMAP: u32 = 5;
const WRONG_NUMBER: u32 = 6;
const NOTHING_THERE: u32 = 7;
const WRONG_BUFFER: u32 = 8;
const CHANGED: u32 = 9;

/// Tests whether the image is a sound partition with the number named.
pub fn check(image: &[u8], partition: u8) -> u32 {
    number_of(open(image, partition).map(|_| ()))
}

/// Counts what a sound partition holds.
pub fn report(image: &[u8], partition: u8) -> Result<Report, u32> {
    let layout = open(image, partition)?;
    let mut live = 0;
    blocks::latest(layout.allocated(image), layout.capacity, None, |_| live += 1);
    Ok(Report {
        version: image[VERSION_AT],
        capacity: layout.capacity as u64,
        used: layout.used as u64,
        live,
    })
}

/// Gives the lowest logical number with contents that isn't below `from`.
pub fn next_live(image: &[u8], partition: u8, from: u64) -> Result<u64, u32> {
    let layout = open(image, partition)?;
    let from = layout.logical_number(from).map_err(|_| NOTHING_THERE)?;
    next::live(layout.allocated(image), from, layout.capacity as u16)
        .map(u64::from)
        .ok_or(NOTHING_THERE)
}

/// Fills `page` with the contents of a logical block.
pub fn read(image: &[u8], partition: u8, number: u64, page: &mut [u8]) -> u32 {
    number_of(try_read(image, partition, number, page))
}

/// Gives a logical block new contents, provided its present ones are still as `expected`: 0 bytes stand
/// for nothing, 60 for a page. The bytes that are there already change nothing.
pub fn save(image: &mut [u8], partition: u8, number: u64, expected: &[u8], page: &[u8]) -> u32 {
    number_of(try_save(image, partition, number, expected, page))
}

/// Erases the partition and writes back one block for each live number.
pub fn erase(image: &mut [u8], partition: u8) -> u32 {
    number_of(open(image, partition).map(|layout| compaction::compact(image, layout, None)))
}

fn number_of(answer: Result<(), u32>) -> u32 {
    answer.err().unwrap_or(DONE)
}

fn try_read(image: &[u8], partition: u8, number: u64, page: &mut [u8]) -> Result<(), u32> {
    let layout = open(image, partition)?;
    let number = layout.logical_number(number)?;
    let page: &mut [u8; PAGE] = page.try_into().map_err(|_| WRONG_BUFFER)?;
    *page = *blocks::find(layout.allocated(image), number).ok_or(NOTHING_THERE)?;
    Ok(())
}

fn try_save(
    image: &mut [u8],
    partition: u8,
    number: u64,
    expected: &[u8],
    page: &[u8],
) -> Result<(), u32> {
    let layout = open(image, partition)?;
    let number = layout.logical_number(number)?;
    let page: &[u8; PAGE] = page.try_into().map_err(|_| WRONG_BUFFER)?;
    let expected: Option<&[u8; PAGE]> = match expected {
        [] => None,
        bytes => Some(bytes.try_into().map_err(|_| WRONG_BUFFER)?),
    };
    if blocks::find(layout.allocated(image), number) != expected {
        return Err(CHANGED);
    }
    if expected == Some(page) {
        return Ok(());
    }
    let new = blocks::sealed(number, page);
    match layout.erased_block(image) {
        Some(free) => {
            *free = new;
            bitmap::allocate(&mut image[layout.bitmap_at()..], layout.used);
        }
        None => compaction::compact(image, layout, Some(new)),
    }
    Ok(())
}

/// The measures of a sound partition.
#[derive(Clone, Copy)]
struct Layout {
    /// User blocks: blocks 1 to this one.
    capacity: usize,
    /// Allocated ones: blocks 1 to this one.
    used: usize,
}

impl Layout {
    fn bitmap_at(self) -> usize {
        (self.capacity + 1) * BLOCK
    }

    fn logical_number(self, number: u64) -> Result<u16, u32> {
        match number < self.capacity as u64 {
            true => Ok(number as u16),
            false => Err(WRONG_NUMBER),
        }
    }

    fn allocated(self, image: &[u8]) -> &[Block] {
        &image.as_chunks().0[1..=self.used]
    }

    /// The lowest free user block, if there is one and it is erased.
    fn erased_block(self, image: &mut [u8]) -> Option<&mut Block> {
        let user: &mut [Block] = image[..self.bitmap_at()].as_chunks_mut().0;
        user.get_mut(self.used + 1).filter(|block| **block == [0xff; BLOCK])
    }
}

/// Tests that the partition is sound and gives its measures.
fn open(image: &[u8], partition: u8) -> Result<Layout, u32> {
    let capacity = match image.len() {
        16_384 => 254,
        32_768 => 510,
        65_536 => 1_021,
        _ => return Err(WRONG_LENGTH),
    };
    if image[..MAGIC.len()] != MAGIC {
        return Err(WRONG_MAGIC);
    }
    if image[PARTITION_AT] != partition {
        return Err(WRONG_PARTITION);
    }
    if image[VERSION_AT] > NEWEST_VERSION {
        return Err(WRONG_VERSION);
    }
    let bitmap = &image[(capacity + 1) * BLOCK..];
    let used = bitmap::allocated(bitmap, capacity).ok_or(WRONG_BITMAP)?;
    Ok(Layout { capacity, used })
}
