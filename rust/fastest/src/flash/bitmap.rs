//! The bitmap: a bit for each user block, the highest first, 0 for allocated.

/// How many blocks are allocated, or `None` if one of them follows a free one.
pub(super) fn allocated(bitmap: &[u8], capacity: usize) -> Option<usize> {
    let words = &bitmap.as_chunks().0[..capacity.div_ceil(64)];
    let (last, before) = words.split_last()?;
    // Bits past the last block are taken for free ones, and so the last word is not 0.
    let last = u64::from_be_bytes(*last) | (u64::MAX >> (capacity % 64));
    let full = before.iter().take_while(|word| **word == [0; 8]).count();
    let (mixed, free) = match before.get(full) {
        Some(mixed) => (u64::from_be_bytes(*mixed), last == u64::MAX),
        None => (last, true),
    };
    let is_sound = mixed & mixed.wrapping_add(1) == 0
        && free
        && before.iter().skip(full + 1).all(|word| *word == [0xff; 8]);
    is_sound.then_some(64 * full + mixed.leading_zeros() as usize)
}

/// Takes the block that is the lowest free one after so many.
pub(super) fn allocate(bitmap: &mut [u8], used: usize) {
    bitmap[used / 8] &= !(0x80 >> (used % 8));
}

/// Takes the first blocks of an erased bitmap, which has some to spare.
pub(super) fn allocate_first(bitmap: &mut [u8], count: usize) {
    let (whole, rest) = bitmap.split_at_mut(count / 8);
    whole.fill(0);
    rest[0] >>= count % 8;
}
