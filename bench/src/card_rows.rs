//! The rows of the card calls.

use std::hint::black_box;
use std::ops::Range;

use ::independent::card::{self as independent, NewFile};
use galtuyeg::raw;
use inputs::card::{Name, BLOCK};
use inputs::Prng;

use crate::cards::Sample;
use crate::row::{Job, Restored, Row};

const NOTHING_LEFT: u32 = 31;

/// The file that is written and deleted.
const NAME: &Name = b"NEW_SAVE.DAT";
const TIME: &[u8; 8] = b"19991115";

/// The directory's first block and, behind it, the table: what a call sees of a write or a delete before
/// it. The bytes of free blocks are nobody's.
const SEEN: Range<usize> = 253 * BLOCK..255 * BLOCK;

/// Sound cards, then refused ones.
pub fn samples() -> Vec<Sample> {
    vec![
        Sample::empty(),
        Sample::scattered(),
        Sample::of_short_files(),
        Sample::of_one_file(),
        Sample::with_game(),
        Sample::cut(),
        Sample::with_wrong_link(),
        Sample::with_shared_block(),
        Sample::with_all_shared(),
        Sample::with_same_name(),
        Sample::with_stirred_game(),
    ]
}

pub fn rows(samples: &[Sample]) -> Vec<Row<'_>> {
    let mut rows = Vec::new();
    for sample in samples {
        rows.push(check(sample));
        if sample.code == 0 {
            rows.push(list(sample));
        }
        if sample.code == 0 && !sample.card.files.is_empty() {
            rows.push(read(sample));
        }
        rows.extend(sample.writes.iter().map(|&size| write(sample, size)));
        rows.extend(sample.writes.iter().map(|&size| delete(sample, size)));
    }
    rows
}

fn job<I, S: Clone>(call: &'static str, sample: &Sample, inputs: Vec<I>, fresh: S) -> Job<I, S> {
    let on = sample.name.clone();
    let (restored, restore) = (Restored::EachTiming, S::clone_from);
    Job { call, kib: None, on, inputs, answer: 0, fresh, restored, restore }
}

fn check(sample: &Sample) -> Row<'_> {
    let image = &sample.card.bytes[..];
    Job { answer: sample.code, ..job("card check", sample, vec![()], ()) }.row(
        |_, ()| raw::card_check(black_box(image)),
        [|_: &mut (), _: &()| independent::check(black_box(image))],
    )
}

/// The starts of a walk from 0 on until nothing is left.
fn starts(image: &[u8]) -> Vec<u64> {
    let mut starts = vec![0];
    let mut from = 0;
    while let Ok(found) = independent::list(image, from) {
        from = found.entry + 1;
        starts.push(from);
    }
    starts
}

fn list(sample: &Sample) -> Row<'_> {
    let image = &sample.card.bytes[..];
    let walk = job("card list, a walk", sample, starts(image), ());
    Job { answer: NOTHING_LEFT, ..walk }.row(
        |_, &from| raw::card_list(black_box(image), from),
        [|_: &mut (), &from: &u64| independent::list(black_box(image), from)],
    )
}

/// Every block of every file.
fn read(sample: &Sample) -> Row<'_> {
    let image = &sample.card.bytes[..];
    let files = sample.card.files.iter().map(|file| (file.name, file.blocks.len() as u64));
    let blocks: Vec<(Name, u64)> =
        files.flat_map(|(name, size)| (0..size).map(move |index| (name, index))).collect();
    job("card read", sample, blocks, [0; BLOCK]).row(
        |block, (name, index)| raw::card_read(black_box(image), name, *index, block),
        [|block: &mut [u8; BLOCK], (name, index): &(Name, u64)| {
            independent::read(black_box(image), name, *index, block)
        }],
    )
}

fn write(sample: &Sample, size: usize) -> Row<'_> {
    changing("card write", sample, data(size), sample.card.bytes.clone(), size).row(
        |card, data| raw::card_write(card, NAME, 0, TIME, 0, data),
        [|card: &mut Vec<u8>, data: &Vec<u8>| independent::write(card, &new_file(data))],
    )
}

fn delete(sample: &Sample, size: usize) -> Row<'_> {
    changing("card delete", sample, *NAME, written(sample, size), size).row(
        |card, name| raw::card_delete(card, name),
        [|card: &mut Vec<u8>, name: &Name| independent::delete(card, name)],
    )
}

/// A write or a delete of a file of so many blocks.
fn changing<I>(
    call: &'static str,
    sample: &Sample,
    input: I,
    fresh: Vec<u8>,
    size: usize,
) -> Job<I, Vec<u8>> {
    let job = job(call, sample, vec![input], fresh);
    let on = format!("{}, {size} {}", job.on, if size == 1 { "block" } else { "blocks" });
    Job { on, restored: Restored::EachCall, restore: |card, fresh| restore(card, fresh), ..job }
}

fn restore(card: &mut [u8], fresh: &[u8]) {
    card[SEEN].copy_from_slice(&fresh[SEEN]);
}

/// The card with a file of so many blocks on it.
fn written(sample: &Sample, size: usize) -> Vec<u8> {
    let mut card = sample.card.bytes.clone();
    independent::write(&mut card, &new_file(&data(size))).expect("there is room");
    card
}

fn new_file(data: &[u8]) -> NewFile<'_> {
    NewFile { name: NAME, flag: 0, time: TIME, offset: 0, data }
}

fn data(size: usize) -> Vec<u8> {
    let mut data = vec![0; BLOCK * size];
    Prng::new(9, 0).fill(&mut data);
    data
}

#[cfg(test)]
mod tests {
    use super::*;

    /// Were the file still there, or gone, the calls timed would be refused.
    #[test]
    fn a_restored_card_is_fresh_but_for_free_blocks() {
        for sample in samples() {
            sample.writes.iter().for_each(|&size| restored_after_both(&sample, size));
        }
    }

    fn restored_after_both(sample: &Sample, size: usize) {
        let (fresh, filled) = (&sample.card.bytes, written(sample, size));
        let mut card = filled.clone();
        restore(&mut card, fresh);
        assert!(card[200 * BLOCK..] == fresh[200 * BLOCK..]);
        restore(&mut card, &filled);
        independent::delete(&mut card, NAME).expect("the file is there");
        restore(&mut card, &filled);
        assert!(card == filled);
    }
}
