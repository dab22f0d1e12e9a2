//! The command line.

use std::ops::Range;

pub const DEFAULT_ROUNDS: u64 = 20_000;
const DEFAULT_SEED: u64 = 1;

pub const HELP: &str = "\
Runs the proved library, the independent implementation and, for the partition calls, the fastest one on the same inputs and
compares every answer and every byte.

  --seed N     fixes all inputs (default 1)
  --rounds N   how many rounds (default 20000); below that, fewer answers of each number are asked for
  --only N     runs round N alone, which is the same as among others, and asks for no number
  --bare       no guard bytes: buffers begin and end where their allocations do, for a memory checker to watch
  --help       prints this

Exits with 1 after a difference, or where a number was answered too seldom; with 2 if not called so.";

pub struct Args {
    pub seed: u64,
    pub rounds: u64,
    pub only: Option<u64>,
    pub bare: bool,
}

pub enum Asked {
    Run(Args),
    Help,
}

impl Args {
    pub fn range(&self) -> Range<u64> {
        match self.only {
            Some(round) => round..round.saturating_add(1),
            None => 0..self.rounds,
        }
    }
}

pub fn parse(mut words: impl Iterator<Item = String>) -> Result<Asked, String> {
    let mut args = Args { seed: DEFAULT_SEED, rounds: DEFAULT_ROUNDS, only: None, bare: false };
    while let Some(word) = words.next() {
        match word.as_str() {
            "--seed" => args.seed = value(&word, words.next())?,
            "--rounds" => args.rounds = value(&word, words.next())?,
            "--only" => args.only = Some(value(&word, words.next())?),
            "--bare" => args.bare = true,
            "--help" => return Ok(Asked::Help),
            _ => return Err(format!("{word} is not known")),
        }
    }
    Ok(Asked::Run(args))
}

fn value(option: &str, word: Option<String>) -> Result<u64, String> {
    word.and_then(|word| word.parse().ok()).ok_or_else(|| format!("{option} takes a number"))
}

#[cfg(test)]
mod tests {
    use super::*;

    fn parsed(line: &str) -> Result<Asked, String> {
        parse(line.split_whitespace().map(String::from))
    }

    #[test]
    fn options_are_taken_in_any_order() {
        let Ok(Asked::Run(args)) = parsed("--bare --rounds 7 --seed 9") else {
            panic!("refused");
        };
        assert_eq!((args.seed, args.range(), args.bare), (9, 0..7, true));
        let Ok(Asked::Run(args)) = parsed("--only 3") else {
            panic!("refused");
        };
        assert_eq!(args.range(), 3..4);
        assert!(matches!(parsed("--help"), Ok(Asked::Help)));
    }

    #[test]
    fn anything_else_is_refused() {
        for line in ["--rounds", "--seed x", "--only -1", "more"] {
            assert!(parsed(line).is_err());
        }
    }
}
