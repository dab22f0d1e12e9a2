//! The library's calls as they are, one function each, over slices of any length.
//!
//! A call answers the paper's number: 0 when it is done, else the refusal's, and then no byte of any
//! buffer has changed.
//!
//! What the library asks of a caller is what Rust's borrows give: a slice's bytes are there, written by
//! nobody else during the call, and a `&mut` overlaps no other buffer. Two shared slices may overlap.

use crate::ffi;

pub use crate::ffi::{CardChecked, CardEntry, CardVerdict, NextLive, Report, Slot};

/// The library's interface that this crate was written for: `GALTUYEG_VERSION` of `include/galtuyeg.h`.
pub const VERSION: u32 = 5;

/// The interface of the library that is linked. Where it isn't [`VERSION`] the two don't fit.
pub fn version() -> u32 {
    // SAFETY: nothing is lent.
    unsafe { ffi::galtuyeg_version() }
}

/// Whether the image is a sound partition of this number: 0 to 5.
pub fn flash_check(image: &[u8], partition: u8) -> u32 {
    // SAFETY: pointer and length are of one slice, borrowed for the call, which only reads it.
    unsafe { ffi::galtuyeg_flash_check(image.as_ptr(), image.len(), partition) }
}

/// Version, capacity, used and live: 0 to 5.
pub fn flash_report(image: &[u8], partition: u8) -> Report {
    // SAFETY: pointer and length are of one slice, borrowed for the call, which only reads it.
    unsafe { ffi::galtuyeg_flash_report(image.as_ptr(), image.len(), partition) }
}

/// The lowest live number not below `from`, which may be any number: 0 to 5, 7.
pub fn flash_next_live(image: &[u8], partition: u8, from: u64) -> NextLive {
    // SAFETY: pointer and length are of one slice, borrowed for the call, which only reads it.
    unsafe { ffi::galtuyeg_flash_next_live(image.as_ptr(), image.len(), partition, from) }
}

/// Fills `page`, which is to be 60 bytes long, with the contents of a number: 0 to 8.
pub fn flash_read(image: &[u8], partition: u8, number: u64, page: &mut [u8]) -> u32 {
    // SAFETY: each pointer and length are of one slice, borrowed for the call; only `page` is written,
    // and it overlaps nothing, being a `&mut`.
    unsafe {
        ffi::galtuyeg_flash_read(
            image.as_ptr(),
            image.len(),
            partition,
            number,
            page.as_mut_ptr(),
            page.len(),
        )
    }
}

/// Saves `page`, 60 bytes, as the contents of a number, if these are still what the writer last saw:
/// `expected` is 60 bytes, or 0 for nothing there. A page that is there already changes no byte. 0 to 6, 8, 9.
pub fn flash_save(
    image: &mut [u8],
    partition: u8,
    number: u64,
    expected: &[u8],
    page: &[u8],
) -> u32 {
    // SAFETY: each pointer and length are of one slice, borrowed for the call; only `image` is written,
    // and it overlaps nothing, being a `&mut`.
    unsafe {
        ffi::galtuyeg_flash_save(
            image.as_mut_ptr(),
            image.len(),
            partition,
            number,
            expected.as_ptr(),
            expected.len(),
            page.as_ptr(),
            page.len(),
        )
    }
}

/// Compacts the partition, keeping one block for each live number: 0 to 5.
pub fn flash_erase(image: &mut [u8], partition: u8) -> u32 {
    // SAFETY: pointer and length are of one slice, borrowed alone for the call.
    unsafe { ffi::galtuyeg_flash_erase(image.as_mut_ptr(), image.len(), partition) }
}

/// The lowest valid slot with this product number, 10 bytes: 0 to 5, 8, 7.
pub fn slot_find(image: &[u8], partition: u8, product: &[u8]) -> Slot {
    // SAFETY: each pointer and length are of one slice, borrowed for the call, which only reads them.
    unsafe {
        ffi::galtuyeg_slot_find(
            image.as_ptr(),
            image.len(),
            partition,
            product.as_ptr(),
            product.len(),
        )
    }
}

/// The lowest valid slot not below `from`, which may be any number: 0 to 5, 7.
pub fn slot_list(image: &[u8], partition: u8, from: u64) -> Slot {
    // SAFETY: pointer and length are of one slice, borrowed for the call, which only reads it.
    unsafe { ffi::galtuyeg_slot_list(image.as_ptr(), image.len(), partition, from) }
}

/// The slot with the product number of this header, two blocks of 60 bytes; where there is none, the lowest
/// that isn't valid, where the two are saved, but for one that is there already: 0 to 5, 8, 41, 40.
pub fn slot_claim(image: &mut [u8], partition: u8, first: &[u8], second: &[u8]) -> Slot {
    // SAFETY: each pointer and length are of one slice, borrowed for the call; only `image` is written,
    // and it overlaps nothing, being a `&mut`.
    unsafe {
        ffi::galtuyeg_slot_claim(
            image.as_mut_ptr(),
            image.len(),
            partition,
            first.as_ptr(),
            first.len(),
            second.as_ptr(),
            second.len(),
        )
    }
}

/// Fills `page`, which is to be 60 bytes long, with data block 0 or 1 of a valid slot: 0 to 5, 8, 42, 43, 7.
pub fn slot_read(image: &[u8], partition: u8, slot: u64, block: u64, page: &mut [u8]) -> u32 {
    // SAFETY: each pointer and length are of one slice, borrowed for the call; only `page` is written,
    // and it overlaps nothing, being a `&mut`.
    unsafe {
        ffi::galtuyeg_slot_read(
            image.as_ptr(),
            image.len(),
            partition,
            slot,
            block,
            page.as_mut_ptr(),
            page.len(),
        )
    }
}

/// Saves `page`, 60 bytes, as data block 0 or 1 of a valid slot, if that is still what the writer last saw:
/// `expected` is 60 bytes, or 0 for nothing there. A page that is there already changes no byte. 0 to 5, 8, 42,
/// 43, 9.
pub fn slot_save(
    image: &mut [u8],
    partition: u8,
    slot: u64,
    block: u64,
    expected: &[u8],
    page: &[u8],
) -> u32 {
    // SAFETY: each pointer and length are of one slice, borrowed for the call; only `image` is written,
    // and it overlaps nothing, being a `&mut`.
    unsafe {
        ffi::galtuyeg_slot_save(
            image.as_mut_ptr(),
            image.len(),
            partition,
            slot,
            block,
            expected.as_ptr(),
            expected.len(),
            page.as_ptr(),
            page.len(),
        )
    }
}

/// Whether the card is sound, and its number of orphans: 0, 20 to 30.
pub fn card_check(card: &[u8]) -> CardChecked {
    // SAFETY: pointer and length are of one slice, borrowed for the call, which only reads it.
    unsafe { ffi::galtuyeg_card_check(card.as_ptr(), card.len()) }
}

/// The first used directory entry from entry `from` on, which may be any number: 0, 20 to 31.
pub fn card_list(card: &[u8], from: u64) -> CardEntry {
    // SAFETY: pointer and length are of one slice, borrowed for the call, which only reads it.
    unsafe { ffi::galtuyeg_card_list(card.as_ptr(), card.len(), from) }
}

/// Fills `block`, 512 bytes, with block `index` of the file of this name, 12 bytes: 0, 20 to 30, then
/// 33, 31, 32.
pub fn card_read(card: &[u8], name: &[u8], index: u64, block: &mut [u8]) -> CardVerdict {
    // SAFETY: each pointer and length are of one slice, borrowed for the call; only `block` is written,
    // and it overlaps nothing, being a `&mut`.
    unsafe {
        ffi::galtuyeg_card_read(
            card.as_ptr(),
            card.len(),
            name.as_ptr(),
            name.len(),
            index,
            block.as_mut_ptr(),
            block.len(),
        )
    }
}

/// Puts a data file onto the card: its name, 12 bytes that no file has, copy flag, any byte, time, 8 bytes,
/// header offset, below its size in blocks, and data, 1 to 200 blocks of 512: 0, 20 to 30, then 33, 26, 29,
/// 34.
pub fn card_write(
    card: &mut [u8],
    name: &[u8],
    flag: u8,
    time: &[u8],
    offset: u64,
    data: &[u8],
) -> CardVerdict {
    // SAFETY: each pointer and length are of one slice, borrowed for the call; only `card` is written,
    // and it overlaps nothing, being a `&mut`.
    unsafe {
        ffi::galtuyeg_card_write(
            card.as_mut_ptr(),
            card.len(),
            name.as_ptr(),
            name.len(),
            flag,
            time.as_ptr(),
            time.len(),
            offset,
            data.as_ptr(),
            data.len(),
        )
    }
}

/// Takes the file of this name, 12 bytes, off the card, data or game: 0, 20 to 30, then 33, 31.
pub fn card_delete(card: &mut [u8], name: &[u8]) -> CardVerdict {
    // SAFETY: each pointer and length are of one slice, borrowed for the call; only `card` is written,
    // and it overlaps nothing, being a `&mut`.
    unsafe { ffi::galtuyeg_card_delete(card.as_mut_ptr(), card.len(), name.as_ptr(), name.len()) }
}
