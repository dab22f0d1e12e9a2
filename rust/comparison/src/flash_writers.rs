//! A run of calls by two writers on one image. Each remembers what it last saw of a number and saves
//! with that, so it is refused 9 where the other has saved since.

use std::collections::BTreeMap;

use inputs::flash::PAGE;

use crate::flash_arguments::{any_page, number, partition_number, Pages};
use crate::flash_compare::{self as compare, Save};
use crate::flash_rounds::{ask_erase, ask_read, ask_whole};
use crate::lent::Lent;
use crate::round::Round;

struct Writer {
    /// What it last saw of each number, no bytes for nothing.
    seen: BTreeMap<u64, Vec<u8>>,
    pages: Pages,
}

pub fn run(round: &mut Round, image: &mut Lent, own: u8, top: u64) {
    let count = round.prng.within(1..=12);
    let pool: Vec<u64> = (0..count).map(|_| number(&mut round.prng, top)).collect();
    let pages = Pages::any(&mut round.prng);
    let mut writers = [0, 1].map(|_| Writer { seen: BTreeMap::new(), pages: pages.clone() });
    let steps = round.prng.within(100..=600);
    for _ in 0..steps {
        let writer = &mut writers[round.prng.below(2)];
        let asked = round.prng.pick(&pool);
        match round.prng.below(32) {
            0..=6 => look(round, image, own, asked, writer),
            7..=24 => save(round, image, own, asked, writer),
            25..=26 => ask_whole(round, image, own),
            27 => ask_read(round, image, own, top),
            28..=29 => list(round, image, own, top),
            30 => improper_save(round, image, own, asked),
            _ => ask_erase(round, image, own),
        }
    }
}

fn look(round: &mut Round, image: &mut Lent, own: u8, asked: u64, writer: &mut Writer) {
    let (answer, page) = compare::read(round, image, own, asked, &[0; PAGE]);
    match answer {
        0 => writer.seen.insert(asked, page),
        _ => writer.seen.insert(asked, Vec::new()),
    };
}

/// After a refusal the writer looks again, at times.
fn save(round: &mut Round, image: &mut Lent, own: u8, asked: u64, writer: &mut Writer) {
    let expected = writer.seen.get(&asked).cloned().unwrap_or_default();
    let page = writer.pages.draw(&mut round.prng);
    let save = Save { partition: own, number: asked, expected: &expected, page: &page };
    let answer = compare::save(round, image, &save);
    if answer == 0 {
        writer.seen.insert(asked, page.to_vec());
    } else if round.prng.one_in(2) {
        look(round, image, own, asked, writer);
    }
}

fn list(round: &mut Round, image: &mut Lent, own: u8, top: u64) {
    let from = number(&mut round.prng, top);
    let partition = partition_number(&mut round.prng, own);
    compare::next_live(round, image, partition, from);
}

fn improper_save(round: &mut Round, image: &mut Lent, own: u8, asked: u64) {
    let save = Save {
        partition: partition_number(&mut round.prng, own),
        number: asked,
        expected: &any_page(&mut round.prng),
        page: &any_page(&mut round.prng),
    };
    compare::save(round, image, &save);
}
