//! How often each call gave each number, and how many differences there were.

use std::fmt::Write;

/// Numbers run to 43, with gaps.
const NUMBERS: usize = 44;
const CALLS: usize = FLASH_CALLS.len() + SLOT_CALLS.len() + CARD_CALLS.len();
const FLASH: [u64; 10] = [0, 1, 2, 3, 4, 5, 6, 7, 8, 9];
const SLOT: [u64; 13] = [0, 1, 2, 3, 4, 5, 7, 8, 9, 40, 41, 42, 43];
const CARD: [u64; 16] = [0, 20, 21, 22, 23, 24, 25, 26, 27, 28, 29, 30, 31, 32, 33, 34];

#[derive(Clone, Copy, Debug, PartialEq, Eq)]
pub enum Call {
    FlashCheck,
    FlashReport,
    FlashNextLive,
    FlashRead,
    FlashSave,
    FlashErase,
    SlotFind,
    SlotList,
    SlotClaim,
    SlotRead,
    SlotSave,
    CardCheck,
    CardList,
    CardRead,
    CardWrite,
    CardDelete,
}

const FLASH_CALLS: [Call; 6] = [
    Call::FlashCheck,
    Call::FlashReport,
    Call::FlashNextLive,
    Call::FlashRead,
    Call::FlashSave,
    Call::FlashErase,
];
const SLOT_CALLS: [Call; 5] =
    [Call::SlotFind, Call::SlotList, Call::SlotClaim, Call::SlotRead, Call::SlotSave];
const CARD_CALLS: [Call; 5] =
    [Call::CardCheck, Call::CardList, Call::CardRead, Call::CardWrite, Call::CardDelete];

/// The calls that change a card, and what they answer where it is sound.
const OWN: [(Call, &[u64]); 2] =
    [(Call::CardWrite, &[0, 26, 29, 33, 34]), (Call::CardDelete, &[0, 31, 33])];

/// The calls that save pages.
const SAVES: [Call; 3] = [Call::FlashSave, Call::SlotSave, Call::SlotClaim];

impl Call {
    pub fn name(self) -> &'static str {
        match self {
            Call::FlashCheck => "flash_check",
            Call::FlashReport => "flash_report",
            Call::FlashNextLive => "flash_next_live",
            Call::FlashRead => "flash_read",
            Call::FlashSave => "flash_save",
            Call::FlashErase => "flash_erase",
            Call::SlotFind => "slot_find",
            Call::SlotList => "slot_list",
            Call::SlotClaim => "slot_claim",
            Call::SlotRead => "slot_read",
            Call::SlotSave => "slot_save",
            Call::CardCheck => "card_check",
            Call::CardList => "card_list",
            Call::CardRead => "card_read",
            Call::CardWrite => "card_write",
            Call::CardDelete => "card_delete",
        }
    }

    /// The numbers that the header says of each call.
    fn may_give(self, number: u64) -> bool {
        match self {
            Call::FlashCheck | Call::FlashReport | Call::FlashErase => matches!(number, 0..=5),
            Call::FlashNextLive => matches!(number, 0..=5 | 7),
            Call::FlashRead => matches!(number, 0..=8),
            Call::FlashSave => matches!(number, 0..=6 | 8 | 9),
            Call::SlotFind => matches!(number, 0..=5 | 7 | 8),
            Call::SlotList => matches!(number, 0..=5 | 7),
            Call::SlotClaim => matches!(number, 0..=5 | 8 | 40 | 41),
            Call::SlotRead => matches!(number, 0..=5 | 7 | 8 | 42 | 43),
            Call::SlotSave => matches!(number, 0..=5 | 8 | 9 | 42 | 43),
            Call::CardCheck => matches!(number, 0 | 20..=30),
            Call::CardList => matches!(number, 0 | 20..=31),
            Call::CardRead => matches!(number, 0 | 20..=33),
            Call::CardWrite => matches!(number, 0 | 20..=30 | 33 | 34),
            Call::CardDelete => matches!(number, 0 | 20..=31 | 33),
        }
    }
}

type Counts = [[u64; NUMBERS]; CALLS];

pub struct Tally {
    answers: Counts,
    /// Those of the answers that were given on a sound card, by calls that change it.
    own: Counts,
    /// Of each call those that were done with an idle save.
    idle: [u64; CALLS],
    typed: u64,
    differences: u64,
}

impl Tally {
    pub fn new() -> Tally {
        let none = [[0; NUMBERS]; CALLS];
        Tally { answers: none, own: none, idle: [0; CALLS], typed: 0, differences: 0 }
    }

    /// Whether the number is one that this call may give; only then is it counted.
    pub fn count(&mut self, call: Call, number: u64) -> bool {
        let may_be = call.may_give(number);
        if may_be {
            self.answers[call as usize][number as usize] += 1;
        }
        may_be
    }

    /// Counts a number once more, as one that was given on a sound card.
    pub fn count_own(&mut self, call: Call, number: u64) {
        if call.may_give(number) {
            self.own[call as usize][number as usize] += 1;
        }
    }

    pub fn count_idle(&mut self, call: Call) {
        self.idle[call as usize] += 1;
    }

    pub fn count_typed(&mut self) {
        self.typed += 1;
    }

    pub fn count_difference(&mut self) {
        self.differences += 1;
    }

    pub fn differences(&self) -> u64 {
        self.differences
    }

    /// The numbers answered fewer than `least` times, counted over flash, slots and cards apart, 0 for each
    /// slot call, what a call that changes a card answers on a sound one for each such call, and the calls
    /// with fewer idle saves.
    pub fn below(&self, least: u64) -> Vec<String> {
        let few = |calls: &[Call], number| self.total(calls, number) < least;
        let flash = FLASH.into_iter().filter(|&number| few(&FLASH_CALLS, number));
        let slot = SLOT.into_iter().filter(|&number| few(&SLOT_CALLS, number));
        let undone = SLOT_CALLS.into_iter().filter(|&call| few(&[call], 0));
        let card = CARD.into_iter().filter(|&number| few(&CARD_CALLS, number));
        let own = own_counts(&self.own).filter(|&(_, _, count)| count < least);
        let idle = SAVES.into_iter().filter(|&call| self.idle[call as usize] < least);
        flash
            .map(|number| format!("flash {number}"))
            .chain(slot.map(|number| format!("slot {number}")))
            .chain(undone.map(|call| format!("{} 0", call.name())))
            .chain(card.map(|number| format!("card {number}")))
            .chain(own.map(|(call, number, _)| format!("{call} {number} on a sound card")))
            .chain(idle.map(|call| format!("{} idle", call.name())))
            .collect()
    }

    pub fn table(&self) -> String {
        let mut text = String::new();
        self.rows(&mut text, &FLASH_CALLS, &FLASH);
        self.rows(&mut text, &SLOT_CALLS, &SLOT);
        self.rows(&mut text, &CARD_CALLS, &CARD);
        for (call, number, count) in own_counts(&self.own) {
            writeln!(text, "{call} {number} on a sound card: {count}").unwrap();
        }
        for call in SAVES {
            writeln!(text, "{} 0 with an idle save: {}", call.name(), self.idle[call as usize])
                .unwrap();
        }
        let calls: u64 = self.answers.iter().flatten().sum();
        let Tally { typed, differences, .. } = self;
        writeln!(text, "calls {calls}, {typed} of them also through the typed ones").unwrap();
        writeln!(text, "differences {differences}").unwrap();
        text
    }

    fn rows(&self, text: &mut String, calls: &[Call], numbers: &[u64]) {
        write!(text, "number {:>9}", "total").unwrap();
        for call in calls {
            write!(text, " {:>15}", call.name()).unwrap();
        }
        text.push('\n');
        for &number in numbers {
            write!(text, "{number:>6} {:>9}", self.total(calls, number)).unwrap();
            for &call in calls {
                write!(text, " {:>15}", self.answers[call as usize][number as usize]).unwrap();
            }
            text.push('\n');
        }
        text.push('\n');
    }

    fn total(&self, calls: &[Call], number: u64) -> u64 {
        let answers = calls.iter().map(|&call| self.answers[call as usize][number as usize]);
        answers.sum()
    }
}

/// The counts of [`OWN`], each with the call's name and the number.
fn own_counts(own: &Counts) -> impl Iterator<Item = (&'static str, u64, u64)> + '_ {
    let pairs = OWN.iter().flat_map(|&(call, numbers)| numbers.iter().map(move |&n| (call, n)));
    pairs.map(|(call, number)| (call.name(), number, own[call as usize][number as usize]))
}

#[cfg(test)]
mod tests {
    use super::*;

    fn counted(call: Call) -> Vec<u64> {
        let mut tally = Tally::new();
        (0..=300).chain([u64::MAX]).filter(|&number| tally.count(call, number)).collect()
    }

    #[test]
    fn the_lists_have_what_their_calls_may_give() {
        let families: [(&[Call], &[u64]); 3] =
            [(&FLASH_CALLS, &FLASH), (&SLOT_CALLS, &SLOT), (&CARD_CALLS, &CARD)];
        for (calls, list) in families {
            let given: Vec<u64> = calls.iter().flat_map(|&call| counted(call)).collect();
            assert!(given.iter().all(|number| list.contains(number)));
            assert!(list.iter().all(|number| given.contains(number)));
        }
    }

    #[test]
    fn a_number_of_another_call_is_not_counted() {
        let mut tally = Tally::new();
        let wrong = [
            (Call::FlashCheck, 25),
            (Call::FlashErase, 6),
            (Call::FlashRead, 9),
            (Call::FlashSave, 7),
            (Call::SlotFind, 42),
            (Call::SlotList, 8),
            (Call::SlotClaim, 9),
            (Call::SlotRead, 6),
            (Call::SlotSave, 41),
            (Call::CardCheck, 5),
            (Call::CardList, 32),
            (Call::CardRead, 34),
            (Call::CardWrite, 31),
            (Call::CardDelete, 34),
        ];
        for (call, number) in wrong {
            assert!(!tally.count(call, number), "{} {number}", call.name());
        }
        assert!(tally.table().contains("calls 0,"));
    }

    #[test]
    fn a_slot_call_that_is_never_done_is_missed() {
        let mut tally = Tally::new();
        for call in [Call::SlotFind, Call::SlotList, Call::SlotClaim, Call::SlotRead] {
            assert!(tally.count(call, 0));
        }
        let few = tally.below(1);
        assert!(few.contains(&"slot_save 0".into()) && !few.contains(&"slot 0".into()));
    }

    #[test]
    fn a_save_that_is_never_idle_is_missed() {
        let mut tally = Tally::new();
        tally.count_idle(Call::FlashSave);
        tally.count_idle(Call::SlotClaim);
        let few = tally.below(1);
        assert!(few.contains(&"slot_save idle".into()) && !few.contains(&"flash_save idle".into()));
    }

    #[test]
    fn a_number_given_on_refused_cards_alone_is_missed() {
        let mut tally = Tally::new();
        for (call, numbers) in OWN {
            assert!(numbers.iter().all(|&number| tally.count(call, number)));
        }
        assert_eq!(tally.below(1).iter().filter(|few| few.contains("sound")).count(), 8);
        tally.count_own(Call::CardWrite, 29);
        assert!(!tally.below(1).contains(&"card_write 29 on a sound card".into()));
        assert!(tally.below(2).contains(&"card_write 29 on a sound card".into()));
    }
}
