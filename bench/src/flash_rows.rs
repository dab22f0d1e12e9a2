//! The rows of the partition calls.

use std::hint::black_box;

use fastest::flash as fastest;
use galtuyeg::raw;
use independent::flash as independent;
use independent::Report;
use inputs::flash::{Size, BLOCK, PAGE, SIZES};
use inputs::Prng;

use crate::partitions::{Filling, Sample, NUMBER};
use crate::row::{Job, Restored, Row};

/// How many numbers are read or saved in turn.
const SPREAD: usize = 16;

const NOTHING_LEFT: u32 = 7;

type Call = for<'a> fn(&'a Sample) -> Row<'a>;

/// The calls of the simple implementation and of the best one.
const CHECKS: [fn(&[u8], u8) -> u32; 2] = [independent::check, fastest::check];
const REPORTS: [ReportCall; 2] = [independent::report, fastest::report];
const NEXTS: [NextCall; 2] = [independent::next_live, fastest::next_live];
const READS: [ReadCall; 2] = [independent::read, fastest::read];
const SAVES: [SaveCall; 2] = [independent::save, fastest::save];
const ERASES: [fn(&mut [u8], u8) -> u32; 2] = [independent::erase, fastest::erase];

type ReportCall = fn(&[u8], u8) -> Result<Report, u32>;
type NextCall = fn(&[u8], u8, u64) -> Result<u64, u32>;
type ReadCall = fn(&[u8], u8, u64, &mut [u8]) -> u32;
type SaveCall = fn(&mut [u8], u8, u64, &[u8], &[u8]) -> u32;

/// What is called on which filling.
const CALLS: [(Filling, &[Call]); 5] = [
    (Filling::Sparse, &[check, report, next_live, read, idle, append, compaction, erase]),
    (Filling::HalfUsed, &[check, report, next_live, read, idle, append, compaction, erase]),
    (Filling::Full, &[check, report, next_live, read, idle, compaction, erase]),
    (Filling::Stale, &[report, next_live, read, read_missing, idle, compaction, erase]),
    (Filling::Damaged, &[report, next_live, read, compaction, erase]),
];

/// Those that show how the cost grows with the image.
const GROWING: [Filling; 2] = [Filling::HalfUsed, Filling::Full];

/// The samples of each size, in the order of the calls on them.
pub fn samples() -> [Vec<Sample>; 3] {
    SIZES.map(|size: Size| CALLS.iter().map(|&(filling, _)| Sample::new(filling, size)).collect())
}

/// The rows of each size, in the same order for all.
pub fn rows(samples: &[Vec<Sample>; 3]) -> [Vec<Row<'_>>; 3] {
    samples.each_ref().map(|samples| {
        let called = samples.iter().zip(CALLS);
        called.flat_map(|(sample, (_, calls))| calls.iter().map(move |call| call(sample))).collect()
    })
}

/// The same calls on images of each length, for the fillings that show growth.
pub fn growing<'a>(rows: &'a [Vec<Row<'a>>; 3]) -> impl Iterator<Item = [&'a Row<'a>; 3]> {
    let lines = (0..rows[0].len()).map(|at| rows.each_ref().map(|rows| &rows[at]));
    lines.filter(|line| GROWING.iter().any(|filling| line[0].on == filling.name()))
}

fn job<I, S: Clone>(call: &'static str, sample: &Sample, inputs: Vec<I>, fresh: S) -> Job<I, S> {
    let (kib, on) = (Some(sample.kib()), sample.filling.name().into());
    let (restored, restore) = (Restored::EachTiming, S::clone_from);
    Job { call, kib, on, inputs, answer: 0, fresh, restored, restore }
}

fn check(sample: &Sample) -> Row<'_> {
    let image = &sample.partition.bytes[..];
    job("check", sample, vec![NUMBER], ()).row(
        |_, &number| raw::flash_check(black_box(image), number),
        CHECKS.map(|check| move |_: &mut (), &number: &u8| check(black_box(image), number)),
    )
}

fn report(sample: &Sample) -> Row<'_> {
    let image = &sample.partition.bytes[..];
    job("report", sample, vec![NUMBER], ()).row(
        |_, &number| raw::flash_report(black_box(image), number),
        REPORTS.map(|report| move |_: &mut (), &number: &u8| report(black_box(image), number)),
    )
}

/// The starts of a walk from 0 on until nothing is left.
fn starts(image: &[u8]) -> Vec<u64> {
    let mut starts = vec![0];
    let mut from = 0;
    while let Ok(number) = independent::next_live(image, NUMBER, from) {
        from = number + 1;
        starts.push(from);
    }
    starts
}

fn next_live(sample: &Sample) -> Row<'_> {
    let image = &sample.partition.bytes[..];
    let walk = job("next-live, a walk", sample, starts(image), ());
    Job { answer: NOTHING_LEFT, ..walk }.row(
        |_, &from| raw::flash_next_live(black_box(image), NUMBER, from),
        NEXTS.map(|next| move |_: &mut (), &from: &u64| next(black_box(image), NUMBER, from)),
    )
}

fn read(sample: &Sample) -> Row<'_> {
    let numbers = sample.spread(SPREAD).map(|(number, _)| number).collect();
    read_row(sample, job("read", sample, numbers, [0; PAGE]))
}

fn read_missing(sample: &Sample) -> Row<'_> {
    let missing = job("read of a missing number", sample, vec![0], [0; PAGE]);
    read_row(sample, Job { answer: NOTHING_LEFT, ..missing })
}

fn read_row(sample: &Sample, job: Job<u64, [u8; PAGE]>) -> Row<'_> {
    let image = &sample.partition.bytes[..];
    job.row(
        |page, &number| raw::flash_read(black_box(image), NUMBER, number, page),
        READS.map(|read| {
            move |page: &mut [u8; PAGE], &number: &u64| read(black_box(image), NUMBER, number, page)
        }),
    )
}

/// A live number, what it holds and what it is to hold.
struct Save<'a> {
    number: u64,
    expected: &'a [u8],
    page: [u8; PAGE],
}

impl Save<'_> {
    fn by(&self, save: SaveCall, image: &mut [u8]) -> u32 {
        save(image, NUMBER, self.number, self.expected, &self.page)
    }
}

fn saves(sample: &Sample) -> Vec<Save<'_>> {
    let mut prng = Prng::new(5, 0);
    let save = |(number, expected)| Save { number, expected, page: prng.array() };
    sample.spread(SPREAD).map(save).collect()
}

/// Each save brings what is there.
fn idle_saves(sample: &Sample) -> Vec<Save<'_>> {
    let save = |(number, expected)| {
        let page = <[u8; PAGE]>::try_from(expected).expect("a page");
        Save { number, expected, page }
    };
    sample.spread(SPREAD).map(save).collect()
}

fn saved_by(save: SaveCall) -> impl Fn(&mut Vec<u8>, &Save) -> u32 {
    move |image, asked| asked.by(save, image)
}

fn idle(sample: &Sample) -> Row<'_> {
    let job = job("save, idle", sample, idle_saves(sample), sample.partition.bytes.clone());
    job.row(saved_by(raw::flash_save), SAVES.map(saved_by))
}

/// Each save finds the image as it was: before it, the block and the bitmap that an append changes are
/// put back. A copy of the whole image would take longer than the call.
fn append(sample: &Sample) -> Row<'_> {
    let next = (sample.partition.used + 1) * BLOCK..(sample.partition.used + 2) * BLOCK;
    let bitmap = sample.partition.size.bitmap * BLOCK;
    let restore = move |image: &mut [u8]| {
        image[next.clone()].copy_from_slice(&sample.partition.bytes[next.clone()]);
        image[bitmap..].copy_from_slice(&sample.partition.bytes[bitmap..]);
    };
    let append = move |save: SaveCall| {
        let restore = restore.clone();
        move |image: &mut Vec<u8>, asked: &Save| {
            restore(image);
            asked.by(save, image)
        }
    };
    let job = job("save, append", sample, saves(sample), sample.partition.bytes.clone());
    Job { restored: Restored::InTiming, ..job }.row(append(raw::flash_save), SAVES.map(append))
}

fn compaction(sample: &Sample) -> Row<'_> {
    let job = job("save, compaction", sample, saves(sample), sample.spoilt());
    Job { restored: Restored::EachCall, ..job }.row(saved_by(raw::flash_save), SAVES.map(saved_by))
}

fn erase(sample: &Sample) -> Row<'_> {
    let erase = |erase: fn(&mut [u8], u8) -> u32| {
        move |image: &mut Vec<u8>, &number: &u8| erase(image, number)
    };
    let job = job("erase", sample, vec![NUMBER], sample.partition.bytes.clone());
    Job { restored: Restored::EachCall, ..job }.row(erase(raw::flash_erase), ERASES.map(erase))
}

#[cfg(test)]
mod tests {
    use super::*;

    fn used_after_save(sample: &Sample, mut image: Vec<u8>) -> (u64, u64) {
        assert_eq!(saves(sample)[0].by(raw::flash_save, &mut image), 0);
        let counts = raw::flash_report(&image, NUMBER);
        (counts.used, counts.live)
    }

    #[test]
    fn saves_take_the_way_of_their_row() {
        for sample in samples().iter().flatten() {
            let (used, live) = used_after_save(sample, sample.spoilt());
            assert_eq!(used, live);
            if sample.has_room() {
                let (used, _) = used_after_save(sample, sample.partition.bytes.clone());
                assert_eq!(used, sample.partition.used as u64 + 1);
            }
        }
    }

    #[test]
    fn idle_saves_change_nothing() {
        for sample in samples().iter().flatten() {
            let mut image = sample.partition.bytes.clone();
            for save in idle_saves(sample) {
                assert_eq!(save.by(raw::flash_save, &mut image), 0);
            }
            assert!(image == sample.partition.bytes);
        }
    }

    #[test]
    fn rows_of_all_sizes_correspond() {
        let samples = samples();
        let rows = rows(&samples);
        for line in growing(&rows) {
            assert!(line.iter().all(|row| (row.call, &row.on) == (line[0].call, &line[0].on)));
        }
        assert_eq!(growing(&rows).count(), 15);
    }
}
