//! The headers, product numbers, slots and data blocks that slot calls bring.

use inputs::slots::{right_header, seal, Header, Product, HEADER, PARTITION, PRODUCT, SLOTS};
use inputs::Prng;

/// Product numbers of a run. Above 100 of them all slots can be taken by others.
const PRODUCTS: usize = 120;

/// Alike but for a byte or two, so that each byte of a comparison counts.
pub fn any_product(prng: &mut Prng) -> Product {
    product(prng.below(PRODUCTS))
}

pub fn product(number: usize) -> Product {
    let mut product = *b"T-40502D01";
    product[number % PRODUCT] = b'a' + (number / PRODUCT) as u8;
    product
}

/// A product number as a call brings it: now and then a byte off, or of another length.
pub fn nearly_product(prng: &mut Prng, product: Product) -> Vec<u8> {
    let mut product = product.to_vec();
    match prng.below(10) {
        0 => prng.flip_bit(&mut product),
        1 => product.resize(prng.pick(&[0, 1, 9, 11, 12, 60]), b'0'),
        _ => {}
    }
    product
}

/// A right header. What nobody tests in it is anything.
pub fn header(prng: &mut Prng, product: &Product) -> Header {
    let rest = match prng.below(4) {
        0 => [0xff; HEADER],
        1 => [prng.byte(); HEADER],
        _ => prng.array(),
    };
    right_header(product, &rest)
}

/// Mostly a right header, else one that is nearly so.
pub fn any_header(prng: &mut Prng, product: &Product) -> Header {
    let right = header(prng, product);
    if prng.one_in(5) {
        damaged(prng, right)
    } else {
        right
    }
}

/// One fault, which not always makes it wrong: a bit that nobody tests may be turned.
pub fn damaged(prng: &mut Prng, mut header: Header) -> Header {
    match prng.below(8) {
        0 => header[prng.below(2)] = prng.byte(),
        1 => header.swap(0, 1),
        2 => header[0x70 + prng.below(2)] ^= 1 << prng.below(8),
        3 => header.swap(0x70, 0x71),
        4 => header[0x6f + prng.below(4)] ^= 1 << prng.below(8),
        5 => header[1 + prng.below(2)] ^= 1 << prng.below(8),
        6 => header.rotate_left(HEADER / 2),
        _ => prng.flip_bit(&mut header),
    }
    if prng.one_in(8) {
        seal(&mut header);
    }
    header
}

/// One of a claim's two blocks: 60 bytes, or now and then another length.
pub fn nearly_block(prng: &mut Prng, page: &[u8]) -> Vec<u8> {
    let mut page = page.to_vec();
    if prng.one_in(16) {
        page.resize(prng.pick(&[0, 1, 59, 61, 64, 120]), 0xff);
    }
    page
}

/// A slot, or a start of a listing: mostly legal, else past the last, or legal again once cut to fewer bits.
pub fn any_slot(prng: &mut Prng) -> u64 {
    let legal = prng.below(SLOTS.into()) as u64;
    match prng.below(12) {
        0 => prng.pick(&[0, 1, 98, 99, 100, 101, 103, 121, 127]),
        1 => prng.pick(&[255, 256, 0xffff, 1 << 16, 1 << 32, u64::MAX, u64::MAX - 99]),
        2 => beside(prng),
        3 => legal + prng.pick(&[1 << 7, 1 << 8, 1 << 14, 1 << 16, 1 << 32, 1 << 62, 1 << 63]),
        _ => legal,
    }
}

/// What would be slots if there were more, before the first and behind the last: 24 + 4 * S, cut to 64 bits,
/// is a legal number there.
fn beside(prng: &mut Prng) -> u64 {
    match prng.below(4) {
        0 => u64::MAX - prng.below(6) as u64,
        _ => 100 + prng.below(22) as u64,
    }
}

/// A data block: mostly 0 or 1, else neither, though perhaps once cut to fewer bits.
pub fn any_data_block(prng: &mut Prng) -> u64 {
    let legal = prng.below(2) as u64;
    match prng.below(8) {
        0 => prng.pick(&[2, 3, 4, 255, 256, u64::MAX, u64::MAX - 1]),
        1 => legal + prng.pick(&[1 << 1, 1 << 8, 1 << 16, 1 << 32, 1 << 63]),
        _ => legal,
    }
}

/// The partition number that slots ask for; where the header has another, often that; now and then any.
pub fn partition_named(prng: &mut Prng, image: &[u8]) -> u8 {
    let own = image.get(16).copied().unwrap_or(PARTITION);
    match prng.below(32) {
        0 | 1 => prng.pick_or_byte(&[0, 2, 4, 0x83]),
        2..=16 => own,
        _ => PARTITION,
    }
}
