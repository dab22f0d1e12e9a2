//! Times the proved library, through its C interface, a simple implementation and, but for slots and cards,
//! the best one that plain Rust has, on the same inputs.

mod args;
mod card_rows;
mod cards;
mod checksum_rows;
mod flash_rows;
mod machine;
mod partitions;
mod rounds;
mod row;
mod slot_rows;
mod slots;
mod tables;

use std::env;
use std::process::ExitCode;

use args::{Args, Asked};

const LEGEND: &str = "\
Ours is the proved library, called from Rust through its C interface; simple is `rust/independent`, for the checksum a table of
256 numbers; best is `rust/fastest`; slots and cards have no best. A ratio is the median of the rounds' ratios, with the 10th
and the 90th percentile. In each round all sides are timed over passes of the same calls and on the same memory, in rotating
order. Nanoseconds are medians for one call; in a walk that is one of its calls. Before the timing each call was made once on
all sides: answers and bytes were the same.

Page and block buffers are filled with zeros before each timing. Images that a call writes to are restored from a master copy
before every call: `untimed`, between two timings, the whole partition, or a card's table and first directory block; `timed`,
inside the timing and for all alike, the blocks and the bitmap that an append changes. Where a save is to compact and a block is
free, the lowest free one is spoilt. On a scattered card every second block is free.";

const GROWTH: &str = "\
How ours grows with the image: in each round the three lengths are timed right after each other, in rotating order.";

fn main() -> ExitCode {
    match args::parse(env::args().skip(1)) {
        Ok(Asked::Run(args)) => {
            run(&args);
            ExitCode::SUCCESS
        }
        Ok(Asked::Help) => {
            println!("{}", args::HELP);
            ExitCode::SUCCESS
        }
        Err(why) => {
            eprintln!("{why}\n\n{}", args::HELP);
            ExitCode::from(2)
        }
    }
}

fn run(args: &Args) {
    let (partitions, cards) = (flash_rows::samples(), card_rows::samples());
    let slotted = slot_rows::samples();
    let (flash, slot) = (flash_rows::rows(&partitions), slot_rows::rows(&slotted));
    let (card, checksum) = (card_rows::rows(&cards), checksum_rows::rows());
    tables::ratios(args, flash.iter().flatten().chain(&slot).chain(&card).chain(&checksum));
    println!("\n{LEGEND}\n\n{GROWTH}\n");
    tables::growth(args, flash_rows::growing(&flash));
    println!("\n{} rounds. {}.", args.rounds, machine::describe());
}
