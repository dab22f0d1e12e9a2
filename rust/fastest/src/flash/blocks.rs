//! User blocks: a number, a page and a checksum.

use crate::checksum;

pub(super) const BLOCK: usize = 64;
pub(super) const PAGE: usize = 60;
/// No partition has as many numbers.
const NUMBERS: usize = 1024;

/// Blocks whose numbers are looked at together.
const GROUP: usize = 4;

pub(super) type Block = [u8; BLOCK];

pub(super) fn number_of(block: &Block) -> u16 {
    u16::from_le_bytes([block[0], block[1]])
}

#[inline(always)]
pub(super) fn is_right(block: &Block) -> bool {
    let [data @ .., low, high] = block;
    checksum::of_data(data) == u16::from_le_bytes([*low, *high])
}

pub(super) fn sealed(number: u16, page: &[u8; PAGE]) -> Block {
    let mut block = [0; BLOCK];
    let [data @ .., low, high] = &mut block;
    data[..2].copy_from_slice(&number.to_le_bytes());
    data[2..].copy_from_slice(page);
    [*low, *high] = checksum::of_data(data).to_le_bytes();
    block
}

/// The contents of a number: the page of its highest right block.
pub(super) fn find(allocated: &[Block], number: u16) -> Option<&[u8; PAGE]> {
    let (rest, groups) = allocated.as_rchunks::<GROUP>();
    let with_it = |group: &&[Block; GROUP]| group.iter().any(|block| number_of(block) == number);
    let mut pages = groups.iter().rev().filter(with_it).filter_map(|group| find_in(group, number));
    pages.next().or_else(|| find_in(rest, number))
}

/// Apart, so that the search for a group is a short loop.
#[inline(never)]
fn find_in(blocks: &[Block], number: u16) -> Option<&[u8; PAGE]> {
    let found = blocks.iter().rev().find(|block| number_of(block) == number && is_right(block));
    found.map(|[_, _, page @ .., _, _]| page)
}

/// Calls `found` with the index of each block that holds the contents of a number, falling. The numbers
/// are below `capacity`, and one of them may be left out.
#[inline(always)]
pub(super) fn latest(
    allocated: &[Block],
    capacity: usize,
    without: Option<u16>,
    mut found: impl FnMut(usize),
) {
    let mut seen = [false; NUMBERS];
    if let Some(number) = without {
        seen[usize::from(number) % NUMBERS] = true;
    }
    for (at, block) in allocated.iter().enumerate().rev() {
        let number = usize::from(number_of(block));
        if number < capacity && !seen[number % NUMBERS] && is_right(block) {
            seen[number % NUMBERS] = true;
            found(at);
        }
    }
}
