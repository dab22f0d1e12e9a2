//! Erasing and rewriting.

use super::bitmap;
use super::blocks::{latest, number_of, Block};
use super::Layout;

/// Leaves the header, the latest block of every live number in the order they stood, then the new block.
/// A new block takes the place of the contents its number had.
pub(super) fn compact(image: &mut [u8], layout: Layout, new: Option<Block>) {
    let mut kept = [0_u64; 16];
    latest(layout.allocated(image), layout.capacity, new.as_ref().map(number_of), |at| {
        kept[at / 64] |= 1 << (at % 64);
    });
    let (blocks, bitmap) = image.split_at_mut(layout.bitmap_at());
    let user = &mut blocks.as_chunks_mut().0[1..];
    let mut filled = gather(user, &kept);
    if let Some(block) = new {
        user[filled] = block;
        filled += 1;
    }
    user[filled..].as_flattened_mut().fill(0xff);
    bitmap.fill(0xff);
    bitmap::allocate_first(bitmap, filled);
}

/// Moves the blocks kept to the front, by runs of neighbours, and gives how many they are.
fn gather(user: &mut [Block], kept: &[u64; 16]) -> usize {
    let mut filled = 0;
    for (word, &bits) in kept.iter().enumerate() {
        let mut left = bits;
        while left != 0 {
            let skipped = left.trailing_zeros();
            let run = (left >> skipped).trailing_ones();
            let (from, count) = (64 * word + skipped as usize, run as usize);
            if from != filled {
                user.copy_within(from..from + count, filled);
            }
            filled += count;
            left &= u64::MAX.checked_shl(skipped + run).unwrap_or(0);
        }
    }
    filled
}
