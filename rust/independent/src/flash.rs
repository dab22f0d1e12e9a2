//! A system flash partition: a header block, user blocks that each hold one
//! version of a logical block, and a bitmap of the allocated ones.
//!
//! The contents of a logical block are the payload of the highest allocated
//! user block with that number and a right checksum.

use crate::checksum::checksum;

#[cfg(test)]
mod tests;

const BLOCK: usize = 64;
pub(crate) const PAGE: usize = 60;
pub(crate) const MAGIC: [u8; 16] = *b"KATANA_FLASH____";
const PARTITION_AT: usize = 16;
const VERSION_AT: usize = 17;
const NEWEST_VERSION: u8 = 1;
/// Image bytes whose blocks one bitmap block can keep track of.
const BYTES_PER_BITMAP_BLOCK: usize = 32_768;

pub(crate) const DONE: u32 = 0;
pub(crate) const WRONG_LENGTH: u32 = 1;
const WRONG_MAGIC: u32 = 2;
pub(crate) const WRONG_PARTITION: u32 = 3;
const WRONG_VERSION: u32 = 4;
const WRONG_BITMAP: u32 = 5;
const WRONG_NUMBER: u32 = 6;
pub(crate) const NOTHING_THERE: u32 = 7;
pub(crate) const WRONG_BUFFER: u32 = 8;
const CHANGED: u32 = 9;

pub(crate) type Block = [u8; BLOCK];
pub(crate) type Page = [u8; PAGE];

/// What a sound partition holds, in numbers.
#[derive(Debug, Clone, Copy, PartialEq, Eq)]
pub struct Report {
    /// Format version of the header.
    pub version: u8,
    /// User blocks in all.
    pub capacity: u64,
    /// User blocks allocated.
    pub used: u64,
    /// Logical blocks with contents.
    pub live: u64,
}

/// Tests whether the image is a sound partition with the number named.
pub fn check(image: &[u8], partition: u8) -> u32 {
    open(image, partition).map_or_else(|refusal| refusal, |_| DONE)
}

/// Counts what a sound partition holds.
pub fn report(image: &[u8], partition: u8) -> Result<Report, u32> {
    let layout = open(image, partition)?;
    let mut seen = NumberSet::default();
    let live = layout
        .allocated(image)
        .iter()
        .filter(|block| seen.admits(block, layout.capacity))
        .count();
    Ok(Report {
        version: image[VERSION_AT],
        capacity: layout.capacity as u64,
        used: layout.used as u64,
        live: live as u64,
    })
}

/// Gives the lowest logical number with contents that isn't below `from`.
pub fn next_live(image: &[u8], partition: u8, from: u64) -> Result<u64, u32> {
    let layout = open(image, partition)?;
    let mut lowest = layout.capacity as u64;
    for block in layout.allocated(image) {
        let number = u64::from(number_of(block));
        if (from..lowest).contains(&number) && has_right_checksum(block) {
            lowest = number;
            if number == from {
                break;
            }
        }
    }
    if lowest < layout.capacity as u64 {
        Ok(lowest)
    } else {
        Err(NOTHING_THERE)
    }
}

/// Fills `page` with the contents of a logical block.
pub fn read(image: &[u8], partition: u8, number: u64, page: &mut [u8]) -> u32 {
    try_read(image, partition, number, page).map_or_else(|refusal| refusal, |()| DONE)
}

/// Gives a logical block new contents, provided its present ones are still
/// as `expected`: 0 bytes stand for nothing, 60 for a page. The bytes that
/// are there already change nothing.
pub fn save(image: &mut [u8], partition: u8, number: u64, expected: &[u8], page: &[u8]) -> u32 {
    try_save(image, partition, number, expected, page).map_or_else(|refusal| refusal, |()| DONE)
}

/// Erases the partition and writes back one block for each live number.
pub fn erase(image: &mut [u8], partition: u8) -> u32 {
    match open(image, partition) {
        Ok(layout) => {
            compact(image, layout, None);
            DONE
        }
        Err(refusal) => refusal,
    }
}

fn try_read(image: &[u8], partition: u8, number: u64, page: &mut [u8]) -> Result<(), u32> {
    let layout = open(image, partition)?;
    let number = layout.logical_number(number)?;
    let page = page.try_into().map_err(|_| WRONG_BUFFER)?;
    fill(layout.allocated(image), number, page)
}

fn try_save(
    image: &mut [u8],
    partition: u8,
    number: u64,
    expected: &[u8],
    page: &[u8],
) -> Result<(), u32> {
    let layout = open(image, partition)?;
    let number = layout.logical_number(number)?;
    let (expected, page) = save_buffers(expected, page)?;
    replace(image, layout, number, expected, page)
}

/// The buffers of a save by their types.
pub(crate) fn save_buffers<'a>(
    expected: &'a [u8],
    page: &'a [u8],
) -> Result<(Option<&'a Page>, &'a Page), u32> {
    let page = page.try_into().map_err(|_| WRONG_BUFFER)?;
    let expected = match expected {
        [] => None,
        bytes => Some(bytes.try_into().map_err(|_| WRONG_BUFFER)?),
    };
    Ok((expected, page))
}

/// Fills `page` with the contents of a legal number.
pub(crate) fn fill(allocated: &[Block], number: u16, page: &mut Page) -> Result<(), u32> {
    *page = *find(allocated, number).ok_or(NOTHING_THERE)?;
    Ok(())
}

/// Gives a legal number new contents, provided its present ones are as
/// `expected`. Where the page is there already, nothing changes.
pub(crate) fn replace(
    image: &mut [u8],
    layout: Layout,
    number: u16,
    expected: Option<&Page>,
    page: &Page,
) -> Result<(), u32> {
    if find(layout.allocated(image), number) != expected {
        return Err(CHANGED);
    }
    if expected != Some(page) {
        store(image, layout, number, page);
    }
    Ok(())
}

/// Gives a legal number new contents that differ from its present ones.
pub(crate) fn store(image: &mut [u8], layout: Layout, number: u16, page: &Page) {
    let block = build_block(number, page);
    if layout.can_append(image) {
        append(image, layout, block);
    } else {
        compact(image, layout, Some(block));
    }
}

/// The measures of a sound partition.
#[derive(Debug, Clone, Copy, PartialEq, Eq)]
pub(crate) struct Layout {
    /// Number of user blocks: physical blocks 1 to `capacity`, logical
    /// numbers 0 to `capacity - 1`.
    capacity: usize,
    /// Number of allocated user blocks: physical blocks 1 to `used`.
    used: usize,
}

impl Layout {
    fn first_bitmap_block(self) -> usize {
        self.capacity + 1
    }

    fn logical_number(self, number: u64) -> Result<u16, u32> {
        match u16::try_from(number) {
            Ok(number) if usize::from(number) < self.capacity => Ok(number),
            _ => Err(WRONG_NUMBER),
        }
    }

    pub(crate) fn allocated(self, image: &[u8]) -> &[Block] {
        &blocks(image)[1..=self.used]
    }

    /// Whether the lowest free user block exists and is still erased.
    fn can_append(self, image: &[u8]) -> bool {
        self.used < self.capacity && blocks(image)[self.used + 1] == [0xFF; BLOCK]
    }
}

/// Tests that the partition is sound and gives its measures.
pub(crate) fn open(image: &[u8], partition: u8) -> Result<Layout, u32> {
    let capacity = capacity(image.len()).ok_or(WRONG_LENGTH)?;
    if image[..MAGIC.len()] != MAGIC {
        return Err(WRONG_MAGIC);
    }
    if image[PARTITION_AT] != partition {
        return Err(WRONG_PARTITION);
    }
    if image[VERSION_AT] > NEWEST_VERSION {
        return Err(WRONG_VERSION);
    }
    let bitmap = &image[(capacity + 1) * BLOCK..];
    let used = count_allocated(bitmap, capacity).ok_or(WRONG_BITMAP)?;
    Ok(Layout { capacity, used })
}

/// Number of user blocks in an image of a known length: all blocks but the
/// header and the bitmap.
fn capacity(length: usize) -> Option<usize> {
    matches!(length, 16_384 | 32_768 | 65_536)
        .then(|| length / BLOCK - 1 - length.div_ceil(BYTES_PER_BITMAP_BLOCK))
}

/// Number of allocated blocks, or `None` if one of them follows a free one.
///
/// The highest bit stands for the first block, and a 0 means allocated, so
/// in every word the zeros have to come first.
fn count_allocated(bitmap: &[u8], capacity: usize) -> Option<usize> {
    let mut used = 0;
    let mut free_seen = false;
    for (i, bytes) in bitmap.as_chunks().0.iter().enumerate() {
        let past_the_end = low_bits(64 * (i + 1), capacity);
        let word = u64::from_be_bytes(*bytes) | past_the_end;
        let zeros = if free_seen { 0 } else { word.leading_zeros() };
        if word != u64::MAX.checked_shr(zeros).unwrap_or(0) {
            return None;
        }
        used += zeros as usize;
        free_seen |= word != 0;
    }
    Some(used)
}

/// The low bits of a word that ends at bit `end`, as far as they don't lie
/// below bit `limit`.
fn low_bits(end: usize, limit: usize) -> u64 {
    match end.saturating_sub(limit) {
        count @ 0..64 => (1 << count) - 1,
        _ => u64::MAX,
    }
}

fn blocks(image: &[u8]) -> &[Block] {
    image.as_chunks().0
}

fn blocks_mut(image: &mut [u8]) -> &mut [Block] {
    image.as_chunks_mut().0
}

pub(crate) fn number_of(block: &Block) -> u16 {
    u16::from_le_bytes([block[0], block[1]])
}

pub(crate) fn page_of(block: &Block) -> &Page {
    let [_, _, page @ .., _, _] = block;
    page
}

pub(crate) fn has_right_checksum(block: &Block) -> bool {
    let [data @ .., low, high] = block;
    checksum(data) == u16::from_le_bytes([*low, *high])
}

fn build_block(number: u16, page: &Page) -> Block {
    let mut block = [0; BLOCK];
    block[..2].copy_from_slice(&number.to_le_bytes());
    block[2..62].copy_from_slice(page);
    let sum = checksum(&block[..62]);
    block[62..].copy_from_slice(&sum.to_le_bytes());
    block
}

/// The contents of a logical block.
pub(crate) fn find(allocated: &[Block], number: u16) -> Option<&Page> {
    allocated
        .iter()
        .rev()
        .find(|block| number_of(block) == number && has_right_checksum(block))
        .map(page_of)
}

/// Writes the block to the lowest free place, which is erased.
fn append(image: &mut [u8], layout: Layout, block: Block) {
    let blocks = blocks_mut(image);
    blocks[layout.used + 1] = block;
    let bitmap = blocks[layout.first_bitmap_block()..].as_flattened_mut();
    bitmap[layout.used / 8] &= !(0x80 >> (layout.used % 8));
}

/// Leaves what erasing and rewriting would: the header, the latest block of
/// every live number in the order they stood, then the new block. A new
/// block takes the place of the contents its number had.
fn compact(image: &mut [u8], layout: Layout, new: Option<Block>) {
    let blocks = blocks_mut(image);
    let mut seen = NumberSet::default();
    if let Some(block) = &new {
        seen.insert(number_of(block));
    }
    // Going down, the first good block of a number is its latest. Those are
    // gathered against the top of the allocated blocks, then moved down.
    let mut lowest = layout.used + 1;
    for k in (1..=layout.used).rev() {
        if seen.admits(&blocks[k], layout.capacity) {
            lowest -= 1;
            blocks[lowest] = blocks[k];
        }
    }
    blocks.copy_within(lowest..=layout.used, 1);
    let mut filled = layout.used + 1 - lowest;
    if let Some(block) = new {
        filled += 1;
        blocks[filled] = block;
    }
    blocks[filled + 1..].fill([0xFF; BLOCK]);
    mark_allocated(
        blocks[layout.first_bitmap_block()..].as_flattened_mut(),
        filled,
    );
}

/// Clears the first `count` bits of an erased bitmap, which always has some
/// to spare.
fn mark_allocated(bitmap: &mut [u8], count: usize) {
    let (whole, rest) = bitmap.split_at_mut(count / 8);
    whole.fill(0);
    rest[0] >>= count % 8;
}

/// A set of logical numbers. No partition has more than 1024 blocks.
#[derive(Default)]
struct NumberSet([u64; 16]);

impl NumberSet {
    fn contains(&self, number: u16) -> bool {
        self.0[usize::from(number / 64)] >> (number % 64) & 1 != 0
    }

    fn insert(&mut self, number: u16) {
        self.0[usize::from(number / 64)] |= 1 << (number % 64);
    }

    /// Adds the number of a good block. False if the block counts for
    /// nothing or its number was there before.
    fn admits(&mut self, block: &Block, capacity: usize) -> bool {
        let number = number_of(block);
        let admitted =
            usize::from(number) < capacity && !self.contains(number) && has_right_checksum(block);
        if admitted {
            self.insert(number);
        }
        admitted
    }
}
