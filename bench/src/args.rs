//! The command line.

use std::time::Duration;

pub const HELP: &str = "\
Times the proved library, a simple and, but for slots and cards, the best plain implementation on the same inputs and prints two tables.

  --rounds N    how many paired rounds for each row (default 301)
  --quick       11 rounds of shorter timings: to see that it runs, not to compare
  --only TEXT   only rows that have this text in their call or input
  --help        prints this";

const DEFAULT: Args = Args { rounds: 301, least: Duration::from_micros(250), only: None };
const QUICK: Args = Args { rounds: 11, least: Duration::from_micros(50), only: None };

pub struct Args {
    pub rounds: usize,
    /// The least that one timing takes; calls are repeated until it does.
    pub least: Duration,
    pub only: Option<String>,
}

impl Args {
    pub fn wants(&self, title: &str) -> bool {
        self.only.as_ref().is_none_or(|text| title.contains(text))
    }
}

pub enum Asked {
    Run(Args),
    Help,
}

pub fn parse(mut words: impl Iterator<Item = String>) -> Result<Asked, String> {
    let mut quick = false;
    let mut rounds = None;
    let mut only = None;
    while let Some(word) = words.next() {
        match word.as_str() {
            "--rounds" => rounds = Some(count(words.next())?),
            "--quick" => quick = true,
            "--only" => only = Some(words.next().ok_or("--only takes a text")?),
            "--help" => return Ok(Asked::Help),
            _ => return Err(format!("{word} is not known")),
        }
    }
    let base = if quick { QUICK } else { DEFAULT };
    Ok(Asked::Run(Args { rounds: rounds.unwrap_or(base.rounds), only, ..base }))
}

fn count(word: Option<String>) -> Result<usize, String> {
    let count = word.and_then(|word| word.parse().ok()).filter(|&count| count > 0);
    count.ok_or_else(|| String::from("--rounds takes a number from 1 on"))
}

#[cfg(test)]
mod tests {
    use super::*;

    fn parsed(line: &str) -> Result<Asked, String> {
        parse(line.split_whitespace().map(String::from))
    }

    #[test]
    fn options_are_taken_in_any_order() {
        let Ok(Asked::Run(args)) = parsed("--rounds 7 --quick --only erase") else {
            panic!("refused");
        };
        assert_eq!((args.rounds, args.least), (7, QUICK.least));
        assert_eq!(args.only.as_deref(), Some("erase"));
        assert!(matches!(parsed("--help"), Ok(Asked::Help)));
    }

    #[test]
    fn anything_else_is_refused() {
        for line in ["--rounds", "--rounds 0", "--rounds x", "--only", "more"] {
            assert!(parsed(line).is_err());
        }
    }
}
