//! The hundred game slots of partition 3, an image of 32,768 bytes.
//!
//! A slot is four logical numbers, the first slot's 24 to 27: two header blocks, then two data blocks, of
//! which either may be missing. It is valid when both header blocks have contents and these are a right
//! header. `partition` is the number that the header of the image must have; only 3 isn't refused.
//!
//! ```
//! use galtuyeg::slots::{self, DataBlock, HeaderFields, SlotHeader};
//!
//! // A partition as a formatter leaves it.
//! let mut image = vec![0xff; 32_768];
//! image[..16].copy_from_slice(b"KATANA_FLASH____");
//! image[16] = 3;
//! image[17] = 1;
//!
//! // A game claims its slot, and saves with what it saw: nothing.
//! let header = SlotHeader::new(&HeaderFields {
//!     product: *b"T-40502D01",
//!     software_name: [b' '; 48],
//!     file_name: [b' '; 44],
//!     unknown: [0; 4],
//!     created: [0; 4],
//! });
//! let slot = slots::claim(&mut image, 3, &header)?;
//! slots::save(&mut image, 3, slot, DataBlock::First, None, &[1; 60])?;
//!
//! // Later it finds the slot again.
//! let found = slots::find(&image, 3, &header.product())?;
//! assert_eq!(found, Some(slot));
//! assert_eq!(slots::read(&image, 3, slot, DataBlock::First)?, [1; 60]);
//! # Ok::<(), galtuyeg::flash::Refusal>(())
//! ```

use std::iter::FusedIterator;

use crate::contract::byte;
use crate::flash::{answered, Refusal, PAGE_BYTES};
use crate::raw;

/// Bytes in a product number.
pub const PRODUCT_BYTES: usize = 10;
/// Bytes in a header, which is two blocks.
pub const HEADER_BYTES: usize = 2 * PAGE_BYTES;

const START: [u8; 2] = [0x01, 0xff];
const PRODUCT_AT: usize = 0x02;
const SOFTWARE_NAME_AT: usize = 0x0c;
const FILE_NAME_AT: usize = 0x3c;
const UNKNOWN_AT: usize = 0x68;
const CREATED_AT: usize = 0x6c;
const CHECKSUM_AT: usize = 0x70;
const PADDING_AT: usize = 0x72;

/// A game's product number, which tells its slot from others.
pub type ProductNumber = [u8; PRODUCT_BYTES];

/// What a header says, as the flash description has it. Only the product number decides anything here.
#[derive(Clone, Copy, Debug, PartialEq, Eq, Hash)]
pub struct HeaderFields {
    /// The game's product number.
    pub product: ProductNumber,
    /// The game's name.
    pub software_name: [u8; 48],
    /// The file's name, any bytes.
    pub file_name: [u8; 44],
    /// Four bytes that the description doesn't explain.
    pub unknown: [u8; 4],
    /// When the file was made.
    pub created: [u8; 4],
}

/// The header of a slot as its two blocks. Any bytes may be in it; a [`claim`] refuses a wrong one.
#[derive(Clone, Copy, Debug, PartialEq, Eq, Hash)]
pub struct SlotHeader {
    /// The slot's first block.
    pub first: [u8; PAGE_BYTES],
    /// The slot's second block.
    pub second: [u8; PAGE_BYTES],
}

impl SlotHeader {
    /// A right header: these fields, the bytes 01 FF before them, their checksum and FF behind them.
    pub fn new(fields: &HeaderFields) -> SlotHeader {
        let mut bytes = [0xff; HEADER_BYTES];
        bytes[..PRODUCT_AT].copy_from_slice(&START);
        bytes[PRODUCT_AT..SOFTWARE_NAME_AT].copy_from_slice(&fields.product);
        bytes[SOFTWARE_NAME_AT..FILE_NAME_AT].copy_from_slice(&fields.software_name);
        bytes[FILE_NAME_AT..UNKNOWN_AT].copy_from_slice(&fields.file_name);
        bytes[UNKNOWN_AT..CREATED_AT].copy_from_slice(&fields.unknown);
        bytes[CREATED_AT..CHECKSUM_AT].copy_from_slice(&fields.created);
        let sum = checksum(&bytes[PRODUCT_AT..CHECKSUM_AT]);
        bytes[CHECKSUM_AT..PADDING_AT].copy_from_slice(&sum.to_le_bytes());
        SlotHeader::from_bytes(&bytes)
    }

    /// The header with these bytes, right or wrong.
    pub fn from_bytes(bytes: &[u8; HEADER_BYTES]) -> SlotHeader {
        let (mut first, mut second) = ([0; PAGE_BYTES], [0; PAGE_BYTES]);
        first.copy_from_slice(&bytes[..PAGE_BYTES]);
        second.copy_from_slice(&bytes[PAGE_BYTES..]);
        SlotHeader { first, second }
    }

    /// The product number in it.
    pub fn product(&self) -> ProductNumber {
        let mut product = [0; PRODUCT_BYTES];
        product.copy_from_slice(&self.first[PRODUCT_AT..SOFTWARE_NAME_AT]);
        product
    }
}

/// One of a slot's two data blocks.
#[derive(Clone, Copy, Debug, PartialEq, Eq, Hash)]
pub enum DataBlock {
    /// The slot's third block, data block 0.
    First,
    /// The slot's fourth block, data block 1.
    Second,
}

impl DataBlock {
    /// 0 or 1.
    pub fn index(self) -> u64 {
        match self {
            DataBlock::First => 0,
            DataBlock::Second => 1,
        }
    }
}

/// The lowest valid slot with this product number; `None` where there is none.
///
/// # Errors
/// [`Refusal`] 1 to 5.
pub fn find(image: &[u8], partition: u8, product: &ProductNumber) -> Result<Option<u8>, Refusal> {
    found(raw::slot_find(image, partition, product))
}

/// The lowest valid slot not below `from`, which may be any number; `None` where there is none.
///
/// # Errors
/// [`Refusal`] 1 to 5.
pub fn list(image: &[u8], partition: u8, from: u64) -> Result<Option<u8>, Refusal> {
    found(raw::slot_list(image, partition, from))
}

/// All valid slots, rising. Each one takes a [`list`], which looks at every used block.
///
/// # Errors
/// [`Refusal`] 1 to 5.
pub fn valid_slots(image: &[u8], partition: u8) -> Result<ValidSlots<'_>, Refusal> {
    list(image, partition, u64::MAX)?;
    Ok(ValidSlots { image, partition, from: 0 })
}

/// The valid slots of a sound partition 3, rising; [`valid_slots`] gives it.
#[derive(Clone, Debug)]
pub struct ValidSlots<'a> {
    image: &'a [u8],
    partition: u8,
    from: u64,
}

impl Iterator for ValidSlots<'_> {
    type Item = u8;

    fn next(&mut self) -> Option<u8> {
        // No refusal is met: the partition is sound, and borrowed since.
        let slot = list(self.image, self.partition, self.from).ok()??;
        self.from = u64::from(slot) + 1;
        Some(slot)
    }
}

impl FusedIterator for ValidSlots<'_> {}

/// The slot that [`find`] gives for the header's product number, and then nothing has changed; else the
/// lowest slot that isn't valid, where the header's two blocks are saved, but for one that is there already.
///
/// # Errors
/// [`Refusal`] 1 to 5, 41 and 40. The image is then as it was.
pub fn claim(image: &mut [u8], partition: u8, header: &SlotHeader) -> Result<u8, Refusal> {
    let claimed = raw::slot_claim(image, partition, &header.first, &header.second);
    answered(claimed.code)?;
    Ok(slot_of(claimed))
}

/// The contents of a valid slot's data block.
///
/// # Errors
/// [`Refusal`] 1 to 5, 42 and 7.
pub fn read(
    image: &[u8],
    partition: u8,
    slot: u8,
    block: DataBlock,
) -> Result<[u8; PAGE_BYTES], Refusal> {
    let mut page = [0; PAGE_BYTES];
    answered(raw::slot_read(image, partition, slot.into(), block.index(), &mut page).into())?;
    Ok(page)
}

/// Saves a page as the contents of a valid slot's data block, if these are still `expected`, what the writer
/// last saw there: a page, or `None` for nothing. All other numbers keep their contents. A page that is there
/// already changes no byte.
///
/// # Errors
/// [`Refusal`] 1 to 5, 42 and 9. The image is then as it was.
pub fn save(
    image: &mut [u8],
    partition: u8,
    slot: u8,
    block: DataBlock,
    expected: Option<&[u8; PAGE_BYTES]>,
    page: &[u8; PAGE_BYTES],
) -> Result<(), Refusal> {
    let expected = expected.map_or(&[][..], |seen| &seen[..]);
    answered(raw::slot_save(image, partition, slot.into(), block.index(), expected, page).into())
}

fn found(answer: raw::Slot) -> Result<Option<u8>, Refusal> {
    match answered(answer.code) {
        Ok(()) => Ok(Some(slot_of(answer))),
        Err(Refusal::NothingThere) => Ok(None),
        Err(refusal) => Err(refusal),
    }
}

fn slot_of(answer: raw::Slot) -> u8 {
    byte("a slot", answer.slot)
}

/// The checksum of the flash description.
fn checksum(bytes: &[u8]) -> u16 {
    let mut sum = 0xffff_u16;
    for &byte in bytes {
        sum ^= u16::from(byte) << 8;
        for _ in 0..8 {
            let top = sum & 0x8000 != 0;
            sum = (sum << 1) ^ if top { 4_129 } else { 0 };
        }
    }
    !sum
}
