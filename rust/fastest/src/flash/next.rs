//! The search for the next live number.

use super::blocks::{is_right, number_of, Block};

/// Blocks whose numbers are looked at together.
const GROUP: usize = 8;

/// The lowest number from `from` to below `capacity` that a right block has. Nearly every block is right, so
/// that of the nearest number is tested last; where it fails, each one that comes nearer than those before.
pub(super) fn live(allocated: &[Block], from: u16, capacity: u16) -> Option<u16> {
    let span = capacity - from;
    let nearest = nearest(allocated, from);
    let block = nearest.iter().min_by_key(|block| distance(block, from))?;
    match distance(block, from) {
        far if far >= span => None,
        near if is_right(block) => Some(from + near),
        _ => nearest_right(allocated, from, span),
    }
}

/// How far above the number asked, where those below come last.
fn distance(block: &Block, from: u16) -> u16 {
    number_of(block).wrapping_sub(from)
}

#[inline(always)]
fn least_distance(blocks: &[Block], from: u16) -> u16 {
    blocks.iter().fold(u16::MAX, |least, block| least.min(distance(block, from)))
}

/// A group of blocks that has the nearest number.
fn nearest(allocated: &[Block], from: u16) -> &[Block] {
    let (groups, rest) = allocated.as_chunks::<GROUP>();
    let mut found = rest;
    let mut least = least_distance(rest, from);
    for group in groups {
        let here = least_distance(group, from);
        if here < least {
            (found, least) = (group, here);
            if here == 0 {
                break;
            }
        }
    }
    found
}

fn nearest_right(allocated: &[Block], from: u16, span: u16) -> Option<u16> {
    let mut least = span;
    for group in allocated.chunks(GROUP) {
        if least_distance(group, from) < least {
            for block in group {
                if distance(block, from) < least && is_right(block) {
                    least = distance(block, from);
                }
            }
        }
    }
    (least < span).then_some(from + least)
}
