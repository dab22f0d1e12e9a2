//! Partitions 3 with valid slots.

use inputs::flash::{Partition, PAGE};
use inputs::slots::{
    blocks, number, right_header, Header, Product, HEADER, PARTITION, PRODUCT, SIZE,
};
use inputs::Prng;

pub struct Sample {
    pub name: &'static str,
    pub partition: Partition,
    /// Slots 0 to one below this are valid and have both data blocks.
    pub valid: u16,
}

impl Sample {
    /// The slots' blocks lie in any order.
    pub fn new(name: &'static str, valid: u16) -> Sample {
        let mut partition = Partition::formatted(SIZE, PARTITION, 1);
        let mut places: Vec<(u16, u16)> =
            (0..valid).flat_map(|slot| (0..4).map(move |block| (slot, block))).collect();
        Prng::new(11, 0).shuffle(&mut places);
        for (slot, block) in places {
            let page = match block {
                0 | 1 => *blocks(&Sample::header(slot))[usize::from(block)],
                _ => Sample::page(slot.into(), u64::from(block) - 2),
            };
            partition.append(number(slot, block), &page);
        }
        Sample { name, partition, valid }
    }

    pub fn product(slot: u16) -> Product {
        let mut product = [b'0'; PRODUCT];
        product[..6].copy_from_slice(b"T-4050");
        product[8..].copy_from_slice(&slot.to_be_bytes());
        product
    }

    pub fn header(slot: u16) -> Header {
        right_header(&Sample::product(slot), &[b' '; HEADER])
    }

    pub fn page(slot: u64, block: u64) -> [u8; PAGE] {
        [(2 * slot + block) as u8; PAGE]
    }
}
