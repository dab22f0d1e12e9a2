//! Runs the proved library, the independent implementation and, for the partition calls, the fastest one on
//! the same inputs and compares every answer, every value and every byte of every buffer.

mod args;
mod card_arguments;
mod card_builder;
mod card_compare;
mod card_damage;
mod card_rounds;
mod card_writers;
mod flash_arguments;
mod flash_builder;
mod flash_compare;
mod flash_damage;
mod flash_rounds;
mod flash_writers;
mod lent;
mod round;
mod slot_arguments;
mod slot_builder;
mod slot_compare;
mod slot_rounds;
mod slot_writers;
mod tally;

use std::env;
use std::panic::{catch_unwind, AssertUnwindSafe};
use std::process::ExitCode;

use args::{Args, Asked};
use round::Round;
use tally::Tally;

/// The least times each number is answered in a whole run.
const LEAST: u64 = 1_000;

/// What the rounds do in turn.
const TURNS: [fn(&mut Round); 30] = [
    flash_rounds::lengths,
    flash_rounds::built,
    flash_rounds::built,
    flash_rounds::built,
    flash_rounds::grown,
    flash_rounds::grown,
    flash_rounds::full,
    flash_rounds::writers,
    slot_rounds::lengths,
    slot_rounds::refused,
    slot_rounds::refused,
    slot_rounds::built,
    slot_rounds::taken,
    slot_rounds::mended,
    slot_rounds::filled,
    slot_rounds::writers,
    card_rounds::lengths,
    card_rounds::sound,
    card_rounds::sound,
    card_rounds::changed,
    card_rounds::changed,
    card_rounds::aimed,
    card_rounds::aimed,
    card_rounds::aimed,
    card_rounds::aimed,
    card_rounds::aimed,
    card_rounds::aimed,
    card_rounds::aimed,
    card_rounds::battered,
    card_rounds::battered,
];

fn main() -> ExitCode {
    match args::parse(env::args().skip(1)) {
        Ok(Asked::Run(args)) => run(&args),
        Ok(Asked::Help) => {
            println!("{}", args::HELP);
            ExitCode::SUCCESS
        }
        Err(why) => {
            eprintln!("{why}\n\n{}", args::HELP);
            ExitCode::from(2)
        }
    }
}

fn run(args: &Args) -> ExitCode {
    let mut tally = Tally::new();
    for number in args.range() {
        play(args, number, &mut tally);
    }
    print!("{}", tally.table());
    println!("seed {}, rounds {:?}", args.seed, args.range());
    let few = tally.below(least(args));
    if !few.is_empty() {
        println!("answered fewer than {} times: {}", least(args), few.join(", "));
    }
    match tally.differences() == 0 && few.is_empty() {
        true => ExitCode::SUCCESS,
        false => ExitCode::FAILURE,
    }
}

/// A shorter run answers for half its share, since it varies more, and a single round for none.
fn least(args: &Args) -> u64 {
    match (args.only, args.rounds) {
        (Some(_), _) => 0,
        (None, args::DEFAULT_ROUNDS..) => LEAST,
        (None, fewer) => LEAST * fewer / args::DEFAULT_ROUNDS / 2,
    }
}

/// A round that panics, on whichever side, is a difference too: no input may end a call so.
fn play(args: &Args, number: u64, tally: &mut Tally) {
    let mut round = Round::new(args.seed, number, args.bare, tally);
    let turn = TURNS[(number % TURNS.len() as u64) as usize];
    let played = catch_unwind(AssertUnwindSafe(|| turn(&mut round)));
    if played.is_err() {
        println!("DIFFERENCE --seed {} --only {number}: a panic", args.seed);
        tally.count_difference();
    }
}
