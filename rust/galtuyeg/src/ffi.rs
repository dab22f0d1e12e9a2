//! The declarations of `include/galtuyeg.h`. A buffer is a pointer and its length.

/// What a report answers. After a refusal all values but `code` are 0.
#[repr(C)]
#[derive(Clone, Copy, Debug, PartialEq, Eq)]
pub struct Report {
    /// 0, or the refusal's number.
    pub code: u64,
    /// The header's version.
    pub version: u64,
    /// User blocks.
    pub capacity: u64,
    /// Allocated user blocks.
    pub used: u64,
    /// Logical numbers with contents.
    pub live: u64,
}

/// What a search for the next live number answers. After a refusal `number` is 0.
#[repr(C)]
#[derive(Clone, Copy, Debug, PartialEq, Eq)]
pub struct NextLive {
    /// 0, or the refusal's number.
    pub code: u64,
    /// The live number.
    pub number: u64,
}

/// What a search for a game slot and a claim answer. After a refusal `slot` is 0.
#[repr(C)]
#[derive(Clone, Copy, Debug, PartialEq, Eq)]
pub struct Slot {
    /// 0, or the refusal's number.
    pub code: u64,
    /// The slot, 0 to 99.
    pub slot: u64,
}

/// What a card's check answers. After a refusal `orphans` is 0.
#[repr(C)]
#[derive(Clone, Copy, Debug, PartialEq, Eq)]
pub struct CardChecked {
    /// 0, or the refusal's number.
    pub code: u64,
    /// What `place` is: 0 the whole card, 1 a block, 2 a directory entry.
    pub place_kind: u64,
    /// The refused block or entry, or 0.
    pub place: u64,
    /// User blocks in use by no file.
    pub orphans: u64,
}

/// A used directory entry. After a refusal all values but `code`, `place_kind` and `place` are 0.
#[repr(C)]
#[derive(Clone, Copy, Debug, PartialEq, Eq)]
pub struct CardEntry {
    /// 0, or the refusal's number.
    pub code: u64,
    /// What `place` is: 0 the whole card, 1 a block, 2 a directory entry.
    pub place_kind: u64,
    /// The refused block or entry, or 0.
    pub place: u64,
    /// The entry's number, 0 to 207.
    pub entry: u64,
    /// 0x33 data, 0xCC game. The header calls it `type`.
    pub kind: u64,
    /// The copy flag, any byte.
    pub flag: u64,
    /// What that says: 1 protected, 0 copyable.
    pub copy_protected: u64,
    /// The first block.
    pub first: u64,
    /// The size in blocks.
    pub size: u64,
    /// The header offset.
    pub offset: u64,
    /// The name, not ended by a 0.
    pub name: [u8; 12],
    /// The time as the card has it.
    pub time: [u8; 8],
}

/// What a read of a file's block, a write and a delete answer.
#[repr(C)]
#[derive(Clone, Copy, Debug, PartialEq, Eq)]
pub struct CardVerdict {
    /// 0, or the refusal's number.
    pub code: u64,
    /// What `place` is: 0 the whole card, 1 a block, 2 a directory entry.
    pub place_kind: u64,
    /// The refused block or entry, or 0.
    pub place: u64,
}

extern "C" {
    pub(crate) fn galtuyeg_version() -> u32;

    pub(crate) fn galtuyeg_flash_check(image: *const u8, image_len: usize, partition: u8) -> u32;

    pub(crate) fn galtuyeg_flash_report(
        image: *const u8,
        image_len: usize,
        partition: u8,
    ) -> Report;

    pub(crate) fn galtuyeg_flash_next_live(
        image: *const u8,
        image_len: usize,
        partition: u8,
        from: u64,
    ) -> NextLive;

    pub(crate) fn galtuyeg_flash_read(
        image: *const u8,
        image_len: usize,
        partition: u8,
        number: u64,
        page: *mut u8,
        page_len: usize,
    ) -> u32;

    pub(crate) fn galtuyeg_flash_save(
        image: *mut u8,
        image_len: usize,
        partition: u8,
        number: u64,
        expected: *const u8,
        expected_len: usize,
        page: *const u8,
        page_len: usize,
    ) -> u32;

    pub(crate) fn galtuyeg_flash_erase(image: *mut u8, image_len: usize, partition: u8) -> u32;

    pub(crate) fn galtuyeg_slot_find(
        image: *const u8,
        image_len: usize,
        partition: u8,
        product: *const u8,
        product_len: usize,
    ) -> Slot;

    pub(crate) fn galtuyeg_slot_list(
        image: *const u8,
        image_len: usize,
        partition: u8,
        from: u64,
    ) -> Slot;

    pub(crate) fn galtuyeg_slot_claim(
        image: *mut u8,
        image_len: usize,
        partition: u8,
        first: *const u8,
        first_len: usize,
        second: *const u8,
        second_len: usize,
    ) -> Slot;

    pub(crate) fn galtuyeg_slot_read(
        image: *const u8,
        image_len: usize,
        partition: u8,
        slot: u64,
        block: u64,
        page: *mut u8,
        page_len: usize,
    ) -> u32;

    pub(crate) fn galtuyeg_slot_save(
        image: *mut u8,
        image_len: usize,
        partition: u8,
        slot: u64,
        block: u64,
        expected: *const u8,
        expected_len: usize,
        page: *const u8,
        page_len: usize,
    ) -> u32;

    pub(crate) fn galtuyeg_card_check(card: *const u8, card_len: usize) -> CardChecked;

    pub(crate) fn galtuyeg_card_list(card: *const u8, card_len: usize, from: u64) -> CardEntry;

    pub(crate) fn galtuyeg_card_read(
        card: *const u8,
        card_len: usize,
        name: *const u8,
        name_len: usize,
        index: u64,
        block: *mut u8,
        block_len: usize,
    ) -> CardVerdict;

    pub(crate) fn galtuyeg_card_write(
        card: *mut u8,
        card_len: usize,
        name: *const u8,
        name_len: usize,
        flag: u8,
        time: *const u8,
        time_len: usize,
        offset: u64,
        data: *const u8,
        data_len: usize,
    ) -> CardVerdict;

    pub(crate) fn galtuyeg_card_delete(
        card: *mut u8,
        card_len: usize,
        name: *const u8,
        name_len: usize,
    ) -> CardVerdict;
}
