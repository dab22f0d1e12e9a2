//! The rows of the slot calls.

use std::hint::black_box;

use ::independent::slots::{self as independent, DataBlock};
use galtuyeg::raw;
use inputs::answers::SlotAnswer;
use inputs::flash::{BLOCK, PAGE};
use inputs::slots::{blocks, Header, Product, PARTITION, PRODUCT, SIZE};

use crate::row::{Job, Restored, Row};
use crate::slots::Sample;

const NOTHING_LEFT: u32 = 7;

/// How many data blocks are read or saved in turn.
const SPREAD: u16 = 16;

/// All slots valid; half of them, so that one can be claimed.
pub fn samples() -> [Sample; 2] {
    [Sample::new("a hundred slots", 100), Sample::new("fifty slots", 50)]
}

pub fn rows([all, half]: &[Sample; 2]) -> Vec<Row<'_>> {
    vec![
        find(all),
        find_missing(all),
        list(all),
        claim_found(all),
        claim_append(half),
        read(all),
        save(all),
    ]
}

fn job<I, S: Clone>(call: &'static str, sample: &Sample, inputs: Vec<I>, fresh: S) -> Job<I, S> {
    let (restored, restore) = (Restored::EachTiming, S::clone_from);
    Job { call, kib: None, on: sample.name.into(), inputs, answer: 0, fresh, restored, restore }
}

/// The last of the slots has it.
fn find(sample: &Sample) -> Row<'_> {
    let product = Sample::product(sample.valid - 1);
    find_row(sample, job("slot find, the last", sample, vec![product], ()))
}

fn find_missing(sample: &Sample) -> Row<'_> {
    let missing = job("slot find, none", sample, vec![[b'0'; PRODUCT]], ());
    find_row(sample, Job { answer: NOTHING_LEFT, ..missing })
}

fn find_row(sample: &Sample, job: Job<Product, ()>) -> Row<'_> {
    let image = &sample.partition.bytes[..];
    job.row(
        |_, product| raw::slot_find(black_box(image), PARTITION, product),
        [|_: &mut (), product: &Product| {
            SlotAnswer(independent::find(black_box(image), PARTITION, product))
        }],
    )
}

/// From 0 on until nothing is left.
fn list(sample: &Sample) -> Row<'_> {
    let image = &sample.partition.bytes[..];
    let starts = (0..=sample.valid).map(u64::from).collect();
    Job { answer: NOTHING_LEFT, ..job("slot list, a walk", sample, starts, ()) }.row(
        |_, &from| raw::slot_list(black_box(image), PARTITION, from),
        [|_: &mut (), &from: &u64| {
            SlotAnswer(independent::list(black_box(image), PARTITION, from))
        }],
    )
}

type ClaimCall<T> = fn(&mut [u8], u8, &[u8], &[u8]) -> T;

fn claim<T>(claim: ClaimCall<T>, image: &mut [u8], header: &Header) -> T {
    let [first, second] = blocks(header);
    claim(image, PARTITION, first, second)
}

fn simple_claim(image: &mut [u8], partition: u8, first: &[u8], second: &[u8]) -> SlotAnswer {
    SlotAnswer(independent::claim(image, partition, first, second))
}

/// The last of the slots has the product number, so that nothing changes.
fn claim_found(sample: &Sample) -> Row<'_> {
    let header = Sample::header(sample.valid - 1);
    let fresh = sample.partition.bytes.clone();
    job("slot claim, found", sample, vec![header], fresh).row(
        |image, header| claim(raw::slot_claim, image, header),
        [|image: &mut Vec<u8>, header: &Header| claim(simple_claim, image, header)],
    )
}

/// Each claim finds the image as it was, as for an append of the flash rows.
fn claim_append(sample: &Sample) -> Row<'_> {
    let header = Sample::header(sample.valid);
    let fresh = sample.partition.bytes.clone();
    let job = job("slot claim, append", sample, vec![header], fresh);
    Job { restored: Restored::InTiming, ..job }.row(
        |image, header| {
            restore(image, sample, 2);
            claim(raw::slot_claim, image, header)
        },
        [|image: &mut Vec<u8>, header: &Header| {
            restore(image, sample, 2);
            claim(simple_claim, image, header)
        }],
    )
}

/// Puts back the bitmap and the blocks that so many appends change.
fn restore(image: &mut [u8], sample: &Sample, appends: usize) {
    let next = (sample.partition.used + 1) * BLOCK..(sample.partition.used + 1 + appends) * BLOCK;
    let bitmap = SIZE.bitmap * BLOCK;
    image[next.clone()].copy_from_slice(&sample.partition.bytes[next]);
    image[bitmap..].copy_from_slice(&sample.partition.bytes[bitmap..]);
}

/// Data blocks of slots spread over all, the first and the second in turn.
fn spread(sample: &Sample) -> Vec<DataBlock> {
    let slot = |at: u16| (2 * at + 1) * sample.valid / (2 * SPREAD);
    let data_block = |at| DataBlock { slot: slot(at).into(), block: (at % 2).into() };
    (0..SPREAD).map(data_block).collect()
}

fn read(sample: &Sample) -> Row<'_> {
    let image = &sample.partition.bytes[..];
    job("slot read", sample, spread(sample), [0; PAGE]).row(
        |page, asked| raw::slot_read(black_box(image), PARTITION, asked.slot, asked.block, page),
        [|page: &mut [u8; PAGE], asked: &DataBlock| {
            independent::read(black_box(image), PARTITION, *asked, page)
        }],
    )
}

fn save(sample: &Sample) -> Row<'_> {
    let fresh = sample.partition.bytes.clone();
    let job = job("slot save, append", sample, spread(sample), fresh);
    Job { restored: Restored::InTiming, ..job }.row(
        |image, &DataBlock { slot, block }| {
            restore(image, sample, 1);
            let expected = Sample::page(slot, block);
            raw::slot_save(image, PARTITION, slot, block, &expected, &[0x5a; PAGE])
        },
        [|image: &mut Vec<u8>, asked: &DataBlock| {
            restore(image, sample, 1);
            let expected = Sample::page(asked.slot, asked.block);
            independent::save(image, PARTITION, *asked, &expected, &[0x5a; PAGE])
        }],
    )
}

#[cfg(test)]
mod tests {
    use super::*;

    #[test]
    fn claims_take_the_way_of_their_row() {
        let [all, half] = samples();
        let mut image = all.partition.bytes.clone();
        let found = claim(simple_claim, &mut image, &Sample::header(99));
        assert_eq!(found.0, Ok(99));
        assert!(image == all.partition.bytes);

        let mut image = half.partition.bytes.clone();
        let claimed = claim(simple_claim, &mut image, &Sample::header(50));
        assert_eq!(claimed.0, Ok(50));
        let used = raw::flash_report(&image, PARTITION).used;
        assert_eq!(used, half.partition.used as u64 + 2);
        restore(&mut image, &half, 2);
        assert!(image == half.partition.bytes);
    }
}
