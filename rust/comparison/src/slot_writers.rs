//! A run of calls by two benches on one image. Each claims slots for its games, remembers what it last saw of
//! their data blocks and saves with that, so it is refused 9 where the other has saved since.

use std::collections::BTreeMap;

use inputs::flash::PAGE;
use inputs::slots::{blocks, Product, PARTITION};

use crate::flash_arguments::Pages;
use crate::flash_damage::Damage;
use crate::round::Round;
use crate::slot_arguments::{any_product, header};
use crate::slot_compare::{self as compare, Data, Lent};
use crate::slot_rounds::{ask_claim, ask_everything, ask_list};

struct Bench {
    /// What it last saw of each slot's data blocks, no bytes for nothing.
    seen: BTreeMap<(u64, u64), Vec<u8>>,
    pages: Pages,
}

pub fn run(round: &mut Round, image: &mut Lent, damage: &Damage) {
    let count = round.prng.within(1..=12);
    let games: Vec<Product> = (0..count).map(|_| any_product(&mut round.prng)).collect();
    let pages = Pages::any(&mut round.prng);
    let mut benches = [0, 1].map(|_| Bench { seen: BTreeMap::new(), pages: pages.clone() });
    let steps = round.prng.within(20..=120);
    for _ in 0..steps {
        let bench = &mut benches[round.prng.below(2)];
        let game = round.prng.pick(&games);
        match round.prng.below(24) {
            0 => image.change(|bytes| damage.blocks(&mut round.prng, bytes)),
            1 => ask_everything(round, image),
            2 => ask_claim(round, image),
            3 => ask_list(round, image),
            _ => play(round, image, &game, bench),
        }
    }
}

/// A game looks for its slot, or claims it, then reads or saves there.
fn play(round: &mut Round, image: &mut Lent, game: &Product, bench: &mut Bench) {
    let found = match round.prng.one_in(3) {
        true => compare::find(round, image, PARTITION, game),
        false => {
            let header = header(&mut round.prng, game);
            let [first, second] = blocks(&header);
            compare::claim(round, image, PARTITION, [first, second])
        }
    };
    let Some(slot) = found else { return };
    let block = round.prng.below(2) as u64;
    let asked = Data { partition: PARTITION, slot, block };
    match round.prng.one_in(3) {
        true => look(round, image, asked, bench),
        false => save(round, image, asked, bench),
    }
}

fn look(round: &mut Round, image: &mut Lent, asked: Data, bench: &mut Bench) {
    let (answer, page) = compare::read(round, image, asked, &[0; PAGE]);
    let seen = if answer == 0 { page } else { Vec::new() };
    bench.seen.insert((asked.slot, asked.block), seen);
}

/// After a refusal the bench looks again, at times.
fn save(round: &mut Round, image: &mut Lent, asked: Data, bench: &mut Bench) {
    let expected = bench.seen.get(&(asked.slot, asked.block)).cloned().unwrap_or_default();
    let page = bench.pages.draw(&mut round.prng);
    let answer = compare::save(round, image, asked, [&expected, &page]);
    if answer == 0 {
        bench.seen.insert((asked.slot, asked.block), page.to_vec());
    } else if round.prng.one_in(2) {
        look(round, image, asked, bench);
    }
}
