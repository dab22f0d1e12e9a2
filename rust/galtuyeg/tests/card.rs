//! The typed calls on a card.

use galtuyeg::card::{self, Checked, CopyProtection, Entry, Kind, NewFile, Place, Reason, Refusal};
use inputs::card::{put, Card, File, BLOCK, CARD, DATA, FREE, GAME, LAST, ROOT, TABLE};
use inputs::Prng;

const NAME: &[u8; 12] = b"SETTINGS.DAT";

/// A sound card with one file, entry 16, of block 199 and then 7; block 9 is an orphan.
fn sound() -> Vec<u8> {
    let mut card = Card::formatted(vec![0; CARD]);
    card.add(File { entry: 16, kind: DATA, name: *NAME, blocks: vec![199, 7] });
    card.set_link(9, LAST);
    card.bytes[7 * 512..8 * 512].fill(0xaa);
    card.bytes
}

#[test]
fn a_sound_card_is_listed_and_read() {
    let card = sound();
    assert_eq!(card::check(&card), Ok(Checked { orphans: 1 }));
    let entry = Entry {
        entry: 16,
        kind: Kind::Data,
        flag: 0,
        protection: CopyProtection::Copyable,
        first: 199,
        size: 2,
        offset: 0,
        name: *NAME,
        time: [0; 8],
    };
    assert!(card::entries(&card).unwrap().eq([entry]));
    assert_eq!(card::list(&card, 17), Ok(None));
    let mut block = [0; 512];
    card::read(&card, NAME, 1, &mut block).unwrap();
    assert_eq!(block, [0xaa; 512]);
    let late = card::read(&card, NAME, 2, &mut block).unwrap_err();
    assert_eq!((late.number(), late.place), (32, Place::WholeCard));
    let missing = card::read(&card, b"SETTINGS.BAK", 0, &mut block).unwrap_err();
    assert_eq!(missing.reason, Reason::NoFile);
}

#[test]
fn a_file_is_read_whole() {
    let mut card = Card::formatted(vec![0; CARD]);
    Prng::new(1, 0).fill(&mut card.bytes[..200 * BLOCK]);
    let files = [
        (207, GAME, *b"MINIGAME.VMS", (0..128).collect()),
        (3, DATA, *NAME, vec![199, 130, 150, 131]),
        (0, DATA, [0; 12], vec![198]),
    ];
    for (entry, kind, name, blocks) in files {
        card.add(File { entry, kind, name, blocks });
    }
    for file in &card.files {
        let places = file.blocks.iter().map(|&block| usize::from(block) * BLOCK);
        let whole = places.flat_map(|at| &card.bytes[at..at + BLOCK]).copied().collect();
        assert_eq!(card::read_file(&card.bytes, &file.name), Ok(whole));
    }

    let missing = Refusal { reason: Reason::NoFile, place: Place::WholeCard };
    assert_eq!(card::read_file(&card.bytes, b"SETTINGS.BAK"), Err(missing));
    card.bytes[ROOT] = 0;
    let unformatted = Refusal { reason: Reason::Format, place: Place::Block(255) };
    assert_eq!(card::read_file(&card.bytes, NAME), Err(unformatted));
}

#[test]
fn a_name_may_be_lent_from_the_card_itself() {
    let card = sound();
    let name = card[252 * 512 + 4..][..12].try_into().unwrap();
    let mut block = [0; 512];
    card::read(&card, name, 1, &mut block).unwrap();
    assert_eq!(block, [0xaa; 512]);
}

#[test]
fn a_refusal_has_number_and_place() {
    let mut card = sound();
    put(&mut card, TABLE + 2 * 7, 0xfffc);
    let refusal = card::check(&card).unwrap_err();
    let expected = Refusal { reason: Reason::Chain, place: Place::Entry(16) };
    assert_eq!(refusal, expected);
    let text = "refused 27 (directory entry 16): the file's chain does not end at its size";
    assert_eq!(refusal.to_string(), text);
    put(&mut card, TABLE + 2 * 240, 0);
    let place = card::list(&card, 0).unwrap_err().place;
    assert_eq!(place, Place::Block(240));
    assert!(Reason::ALL.iter().map(|reason| reason.number()).eq(20..=34));
}

#[test]
fn each_damage_has_its_reason() {
    let entry = 252 * 512;
    let damages = [
        (ROOT, 0, Reason::Format, Place::Block(255)),
        (ROOT + 0x46, 0, Reason::Root, Place::Block(255)),
        (TABLE + 2 * 241, 0xfffc, Reason::SystemBlock, Place::Block(241)),
        (TABLE + 2 * 200, 0, Reason::HiddenBlock, Place::Block(200)),
        (TABLE, 200, Reason::UserBlock, Place::Block(0)),
        (entry, 0x34, Reason::Entry, Place::Entry(16)),
        (entry + 0x18, 1, Reason::Chain, Place::Entry(16)),
        (entry, 0xcc, Reason::Game, Place::Entry(16)),
    ];
    for (at, value, reason, place) in damages {
        let mut card = sound();
        put(&mut card, at, value);
        assert_eq!(card::check(&card), Err(Refusal { reason, place }));
    }
    let length = card::check(&sound()[1..]).unwrap_err();
    assert_eq!(length, Refusal { reason: Reason::Length, place: Place::WholeCard });
}

#[test]
fn two_files_may_share_neither_blocks_nor_name() {
    let mut card = sound();
    let (one, other) = (252 * 512, 252 * 512 + 32);
    card.copy_within(one..one + 32, other);
    let place = Place::Entry(17);
    let shared = Refusal { reason: Reason::SharedBlock, place };
    assert_eq!(card::check(&card), Err(shared));
    put(&mut card, other + 0x02, 9);
    put(&mut card, other + 0x18, 1);
    let named = Refusal { reason: Reason::SameName, place };
    assert_eq!(card::check(&card), Err(named));
}

/// A file to be written, of this data; its name is free on [`sound`]'s card.
fn new_file(data: &[u8]) -> NewFile<'_> {
    let time = [0x19, 0x99, 0x11, 0x15, 0x23, 0x59, 0x58, 0x00];
    NewFile { name: *b"SETTINGS.BAK", flag: 0xff, time, offset: 0, data }
}

/// So many blocks, no two of them alike.
fn blocks(count: usize) -> Vec<u8> {
    let mut data = vec![0; count * BLOCK];
    Prng::new(1, 0).fill(&mut data);
    data
}

#[test]
fn a_written_file_is_listed_and_read() {
    let mut card = sound();
    let data = blocks(3);
    let file = NewFile { offset: 2, ..new_file(&data) };
    let mut expected = card.clone();
    for (index, block) in [198, 197, 196].into_iter().enumerate() {
        let next = if index < 2 { block as u16 - 1 } else { LAST };
        put(&mut expected, TABLE + 2 * block, next);
        expected[block * BLOCK..][..BLOCK].copy_from_slice(&data[index * BLOCK..][..BLOCK]);
    }
    let entry = Entry {
        entry: 0,
        kind: Kind::Data,
        flag: 0xff,
        protection: CopyProtection::Protected,
        first: 198,
        size: 3,
        offset: 2,
        name: file.name,
        time: file.time,
    };

    card::write(&mut card, &file).unwrap();
    assert_eq!(card::list(&card, 0), Ok(Some(entry)));
    assert_eq!(card::read_file(&card, &file.name), Ok(data));
    assert_eq!(card::check(&card), Ok(Checked { orphans: 1 }));
    expected[253 * BLOCK..][..28].copy_from_slice(&card[253 * BLOCK..][..28]);
    assert!(card == expected);
}

#[test]
fn a_written_flag_is_listed_as_given() {
    let data = blocks(1);
    for flag in 0..=0xff {
        let mut card = sound();
        card::write(&mut card, &NewFile { flag, ..new_file(&data) }).unwrap();
        let entry = card::list(&card, 0).unwrap().unwrap();
        let protection =
            if flag == 0xff { CopyProtection::Protected } else { CopyProtection::Copyable };
        assert_eq!((entry.flag, entry.protection), (flag, protection));
    }
}

#[test]
fn a_refused_write_changes_nothing() {
    let before = sound();
    let (one, long) = (blocks(1), blocks(201));
    let whole = Place::WholeCard;
    let refused = [
        (new_file(&[]), Reason::BufferLength, whole),
        (new_file(&one[1..]), Reason::BufferLength, whole),
        (new_file(&long), Reason::BufferLength, whole),
        (NewFile { offset: 1, ..new_file(&one) }, Reason::Entry, whole),
        (NewFile { offset: 1 << 16, ..new_file(&one) }, Reason::Entry, whole),
        (NewFile { offset: 1 << 32, ..new_file(&one) }, Reason::Entry, whole),
        (NewFile { offset: u64::MAX, ..new_file(&one) }, Reason::Entry, whole),
        (NewFile { name: *NAME, ..new_file(&one) }, Reason::SameName, Place::Entry(16)),
        (new_file(&long[..198 * BLOCK]), Reason::NoRoom, whole),
    ];
    let mut card = before.clone();
    for (file, reason, place) in refused {
        assert_eq!(card::write(&mut card, &file), Err(Refusal { reason, place }));
        assert!(card == before);
    }
    // Of 200 user blocks two are in a file and one is an orphan.
    card::write(&mut card, &new_file(&long[..197 * BLOCK])).unwrap();
    assert_eq!(card::read_file(&card, b"SETTINGS.BAK").unwrap(), long[..197 * BLOCK]);
}

#[test]
fn a_deleted_file_leaves_its_data_alone() {
    let mut card = sound();
    let mut expected = card.clone();
    put(&mut expected, TABLE + 2 * 199, FREE);
    put(&mut expected, TABLE + 2 * 7, FREE);
    expected[252 * BLOCK..][..32].fill(0);

    card::delete(&mut card, NAME).unwrap();
    assert!(card == expected);
    let missing = Refusal { reason: Reason::NoFile, place: Place::WholeCard };
    assert_eq!(card::delete(&mut card, NAME), Err(missing));
    assert!(card == expected);
    assert_eq!(card::check(&card), Ok(Checked { orphans: 1 }));
}

#[test]
fn a_game_is_deleted_as_a_data_file_is() {
    let mut card = Card::formatted(vec![0; CARD]);
    card.add(File { entry: 0, kind: DATA, name: *NAME, blocks: vec![2] });
    let expected = card.bytes.clone();
    card.add(File { entry: 1, kind: GAME, name: *b"MINIGAME.VMS", blocks: vec![0, 1] });
    card::delete(&mut card.bytes, b"MINIGAME.VMS").unwrap();
    assert!(card.bytes == expected);
}
