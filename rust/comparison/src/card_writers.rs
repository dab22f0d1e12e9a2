//! A run of writes and deletes on one card, with other calls between them.

use inputs::card::{count_free, listed, name_at, Listed, ENTRIES, USER};
use inputs::Prng;

use crate::card_arguments::{any_file, any_name, Draft};
use crate::card_compare::{self as compare, Lent};
use crate::card_rounds::{ask_delete, ask_list, ask_read};
use crate::round::Round;

/// What the files of a run are like, and how often they go again.
struct Habits {
    longest: usize,
    /// One file in so many is as long as what is free, or a block off.
    fitted: usize,
    /// One change in so many is a delete.
    deletes: usize,
}

impl Habits {
    fn any(prng: &mut Prng) -> Habits {
        Habits {
            longest: prng.pick(&[1, 3, 12, 50, 200]),
            fitted: prng.pick(&[3, 12, 100]),
            deletes: prng.pick(&[2, 4, 20]),
        }
    }
}

/// The card is sound before, and so after each call.
pub fn run(round: &mut Round, image: &mut Lent) {
    let habits = Habits::any(&mut round.prng);
    let steps = round.prng.within(20..=100);
    for _ in 0..steps {
        let files = listed(image.before());
        match round.prng.below(20) {
            0 => compare::check(round, image),
            1 => ask_list(round, image),
            2 | 3 => ask_read(round, image, &files),
            _ if round.prng.one_in(habits.deletes) => ask_delete(round, image, &files),
            _ => write(round, image, &files, &habits),
        }
    }
    compare::check(round, image);
}

/// A file that the card may have room for, under a name that is new, in use, or left in an unused entry.
fn write(round: &mut Round, image: &mut Lent, files: &[Listed], habits: &Habits) {
    let free = count_free(image.before());
    let prng = &mut round.prng;
    let name = match prng.below(10) {
        0 => any_file(prng, files).name,
        1 => name_at(image.before(), prng.below(ENTRIES)),
        _ => any_name(prng),
    };
    let size = match prng.one_in(habits.fitted) {
        true => (free + prng.below(3)).saturating_sub(1),
        false => prng.within(1..=habits.longest),
    };
    let draft = Draft::any(prng, name, size.clamp(1, USER.into()));
    compare::write(round, image, &draft.file());
}
