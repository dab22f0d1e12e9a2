//! Every value of the copy flag, on cards that pass the check and on cards that fail each of its tests: what
//! is answered and left is the same but for the flag itself.

use ::independent::card::{self as independent, NewFile};
use galtuyeg::raw::{self, CardChecked, CardEntry, CardVerdict};
use inputs::answers::Answer;
use inputs::card::{put, Card, File, Name, BLOCK, CARD, DATA, ENTRIES, GAME, LAST, ROOT};
use inputs::Prng;

const FIRST: &Name = b"SAVE_ONE.DAT";
const NEW: &Name = b"NEW_SAVE.DAT";

/// A sound card with a game and two data files. What nobody tests is random.
fn sound() -> Card {
    let mut bytes = vec![0; CARD];
    Prng::new(1, 0).fill(&mut bytes);
    let mut card = Card::formatted(bytes);
    card.add(File { entry: 0, kind: DATA, name: *FIRST, blocks: vec![199, 7] });
    card.add(File { entry: 5, kind: GAME, name: *b"MINIGAME.VMS", blocks: vec![0, 1, 2] });
    card.add(File { entry: 207, kind: DATA, name: *b"SAVE_TWO.DAT", blocks: vec![190] });
    for entry in [0, 207] {
        put(card.entry_mut(entry), 0x1a, 0);
    }
    card.set_link(9, LAST);
    card
}

/// The sound card, and one for each test that it can fail.
fn cards() -> Vec<(u64, Card)> {
    let spoil: [(u64, fn(&mut Card)); 13] = [
        (0, |_| {}),
        (20, |card| card.bytes.truncate(CARD - 1)),
        (21, |card| card.bytes[ROOT] = 0),
        (22, |card| put(&mut card.bytes, ROOT + 0x46, 0)),
        (23, |card| card.set_link(241, 240)),
        (24, |card| card.set_link(200, LAST)),
        (25, |card| card.set_link(9, 200)),
        (26, |card| card.entry_mut(5)[0] = 0xcd),
        (26, |card| put(card.entry_mut(207), 0x1a, 1)),
        (27, |card| put(card.entry_mut(0), 0x18, 3)),
        (28, |card| put(card.entry_mut(207), 0x02, 7)),
        (29, |card| card.entry_mut(207)[0x04..0x10].copy_from_slice(FIRST)),
        (30, |card| card.entry_mut(207)[0] = GAME),
    ];
    let spoiled = |(number, spoil): (u64, fn(&mut Card))| {
        let mut card = sound();
        spoil(&mut card);
        (number, card)
    };
    spoil.into_iter().map(spoiled).collect()
}

/// What the calls answer, and what those that write leave.
#[derive(PartialEq, Debug)]
struct Answers {
    checked: CardChecked,
    entries: Vec<CardEntry>,
    read: (CardVerdict, Vec<u8>),
    written: (CardVerdict, Vec<u8>),
    deleted: (CardVerdict, Vec<u8>),
}

fn proved(card: &[u8], flag: u8, data: &[u8]) -> Answers {
    let (mut block, mut written, mut deleted) = ([0; BLOCK], card.to_vec(), card.to_vec());
    Answers {
        checked: raw::card_check(card),
        entries: [0, 1, 6, 208].map(|from| raw::card_list(card, from)).to_vec(),
        read: (raw::card_read(card, FIRST, 1, &mut block), block.to_vec()),
        written: (raw::card_write(&mut written, NEW, flag, b"19991115", 0, data), written),
        deleted: (raw::card_delete(&mut deleted, FIRST), deleted),
    }
}

fn other(card: &[u8], flag: u8, data: &[u8]) -> Answers {
    let (mut block, mut written, mut deleted) = ([0; BLOCK], card.to_vec(), card.to_vec());
    let file = NewFile { name: NEW, flag, time: b"19991115", offset: 0, data };
    Answers {
        checked: independent::check(card).raw(),
        entries: [0, 1, 6, 208].map(|from| independent::list(card, from).raw()).to_vec(),
        read: (independent::read(card, FIRST, 1, &mut block).raw(), block.to_vec()),
        written: (independent::write(&mut written, &file).raw(), written),
        deleted: (independent::delete(&mut deleted, FIRST).raw(), deleted),
    }
}

/// Gives every entry, used or not, this flag.
fn flag_all(card: &mut Card, flag: u8) {
    if card.bytes.len() == CARD {
        for entry in 0..ENTRIES {
            card.entry_mut(entry)[0x01] = flag;
        }
    }
}

/// The answers where the flags are 00. A listing must say what this flag is.
fn without_flags(mut answers: Answers, flag: u8) -> Answers {
    for entry in answers.entries.iter_mut().filter(|entry| entry.code == 0) {
        assert_eq!((entry.flag, entry.copy_protected), (flag.into(), u64::from(flag == 0xff)));
        (entry.flag, entry.copy_protected) = (0, 0);
    }
    for left in [&mut answers.written.1, &mut answers.deleted.1] {
        let mut card = Card { bytes: std::mem::take(left), files: Vec::new() };
        flag_all(&mut card, 0);
        *left = card.bytes;
    }
    answers
}

#[test]
fn every_flag_is_answered_alike() {
    let data = vec![0x5a; 2 * BLOCK];
    for (number, mut card) in cards() {
        flag_all(&mut card, 0);
        let plain = proved(&card.bytes, 0, &data);
        assert_eq!(plain.checked.code, number);
        let plain = without_flags(plain, 0);
        for flag in 0..=0xff {
            flag_all(&mut card, flag);
            let answers = proved(&card.bytes, flag, &data);
            assert!(answers == other(&card.bytes, flag, &data), "refusal {number}, flag {flag}");
            assert!(without_flags(answers, flag) == plain, "refusal {number}, flag {flag}");
        }
    }
}
