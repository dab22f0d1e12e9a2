//! Writes and deletes.

use super::*;

const TIME: [u8; 8] = [0x20, 0x01, 0x02, 0x12, 0x20, 0x16, 0x47, 0x00];

/// Blocks that are filled with 0xA0, 0xA1 and so on.
fn content(size: usize) -> Vec<u8> {
    (0..512 * size).map(|at| (0xA0 + at / 512) as u8).collect()
}

fn new_file<'a>(name: &'a [u8], data: &'a [u8]) -> NewFile<'a> {
    NewFile {
        name,
        flag: 0xFF,
        time: &TIME,
        offset: 0,
        data,
    }
}

/// Makes a write that is refused, which must change no byte.
fn refused_write(card: &[u8], file: &NewFile) -> Result<(), Refusal> {
    let mut after = card.to_vec();
    let answer = write(&mut after, file);
    assert!(answer.is_err() && after == card);
    answer
}

/// Makes a delete that is refused, which must change no byte.
fn refused_delete(card: &[u8], name: &[u8]) -> Result<(), Refusal> {
    let mut after = card.to_vec();
    let answer = delete(&mut after, name);
    assert!(answer.is_err() && after == card);
    answer
}

/// Leaves so many of the lowest user blocks free, none above them.
fn leave_free(card: &mut [u8], count: usize) {
    for block in count..200 {
        link(card, block, [DAMAGED, LAST][block % 2]);
    }
}

#[test]
fn a_write_changes_only_what_is_named() {
    let mut card = sample();
    // The sample has files in 199, 198, 197 and 190.
    link(&mut card, 196, DAMAGED);
    link(&mut card, 194, 194);
    link(&mut card, 193, LAST);
    for entry in [0, 1, 2] {
        card[entry_at(entry) + 1..][..31].fill(0xEE);
    }
    let mut expected = card.clone();
    link(&mut expected, 195, 192);
    link(&mut expected, 192, 191);
    link(&mut expected, 191, 189);
    link(&mut expected, 189, LAST);
    for (i, block) in [195, 192, 191, 189].into_iter().enumerate() {
        expected[512 * block..][..512].fill(0xA0 + i as u8);
    }
    let entry =
        b"\x33\x00\xC3\x00NEW_FILE.DAT\x20\x01\x02\x12\x20\x16\x47\x00\x04\x00\x03\x00\0\0\0\0";
    expected[253 * 512..][..32].copy_from_slice(entry);
    let data = content(4);
    let file = NewFile {
        flag: 0,
        offset: 3,
        ..new_file(b"NEW_FILE.DAT", &data)
    };
    assert_eq!(write(&mut card, &file), Ok(()));
    assert!(card == expected);
    assert_eq!(check(&card), Ok(2));
}

#[test]
fn a_file_that_was_written_is_listed_and_read() {
    let mut card = sample();
    let data = content(5);
    let file = new_file(b"NEW_FILE.DAT", &data);
    assert_eq!(write(&mut card, &file), Ok(()));
    let expected = Entry {
        entry: 0,
        kind: DATA,
        flag: 0xFF,
        is_copy_protected: true,
        first: 196,
        size: 5,
        offset: 0,
        name: *b"NEW_FILE.DAT",
        time: TIME,
    };
    assert_eq!(list(&card, 0), Ok(expected));
    for (index, content) in data.chunks(512).enumerate() {
        let mut block = [0; 512];
        assert_eq!(read(&card, file.name, index as u64, &mut block), Ok(()));
        assert_eq!(block, content);
    }
}

#[test]
fn the_lowest_unused_entry_is_filled() {
    let mut card = formatted();
    let data = content(1);
    for entry in 0..20 {
        add(&mut card, entry, DATA, &name(entry), &[entry as u16]);
    }
    for entry in [19, 7, 15, 16] {
        assert_eq!(delete(&mut card, &name(entry)), Ok(()));
    }
    for entry in [7, 15, 16, 19, 20, 21] {
        let new = name(100 + entry);
        assert_eq!(write(&mut card, &new_file(&new, &data)), Ok(()));
        let found = list(&card, entry as u64).unwrap();
        assert_eq!((found.entry, found.name), (entry as u64, new));
    }
}

#[test]
fn the_directory_has_room_for_every_block() {
    let mut card = formatted();
    let data = content(1);
    for number in 0..200 {
        let new = name(number as usize);
        assert_eq!(write(&mut card, &new_file(&new, &data)), Ok(()));
        let found = list(&card, number).unwrap();
        assert_eq!((found.entry, found.first), (number, 199 - number));
    }
    let late = name(200);
    assert_eq!(refused_write(&card, &new_file(&late, &data)), whole(34));
    // The highest entries may be the used ones.
    let mut card = formatted();
    for entry in 9..208 {
        add(&mut card, entry, DATA, &name(entry), &[entry as u16 - 8]);
    }
    assert_eq!(write(&mut card, &new_file(&name(0), &data)), Ok(()));
    let found = list(&card, 0).unwrap();
    assert_eq!((found.entry, found.first), (0, 0));
}

#[test]
fn room_is_what_is_free() {
    for free in [1, 2, 57, 199, 200] {
        let mut card = formatted();
        leave_free(&mut card, free);
        let data = content(200);
        if free < 200 {
            let longer = new_file(b"NEW_FILE.DAT", &data[..512 * (free + 1)]);
            assert_eq!(refused_write(&card, &longer), whole(34));
        }
        let file = new_file(b"NEW_FILE.DAT", &data[..512 * free]);
        assert_eq!(write(&mut card, &file), Ok(()));
        // Hidden blocks are free on this card, and stay so.
        for block in 200..241 {
            assert_eq!(card[254 * 512 + 2 * block..][..2], FREE.to_le_bytes());
        }
        let one = new_file(b"NEXT_ONE.DAT", &data[..512]);
        assert_eq!(refused_write(&card, &one), whole(34));
    }
    let mut card = formatted();
    leave_free(&mut card, 0);
    let data = content(1);
    let one = new_file(b"NEW_FILE.DAT", &data);
    assert_eq!(refused_write(&card, &one), whole(34));
}

#[test]
fn lengths_of_a_new_file() {
    let card = formatted();
    let (data, long) = (vec![7; 512 * 257], [b'F'; 24]);
    let sound = new_file(&long[..12], &data[..512]);
    for length in [0, 1, 11, 13, 24] {
        let name = &long[..length];
        assert_eq!(refused_write(&card, &NewFile { name, ..sound }), whole(33));
    }
    for length in [0, 1, 7, 9, 16] {
        let time = &long[..length];
        assert_eq!(refused_write(&card, &NewFile { time, ..sound }), whole(33));
    }
    // Up to 200 blocks and a byte, 201 and 257 blocks.
    for length in [0, 1, 511, 513, 102_401, 102_912, 131_584] {
        let data = &data[..length];
        assert_eq!(refused_write(&card, &NewFile { data, ..sound }), whole(33));
    }
    for size in [1, 2, 199, 200] {
        let data = &data[..512 * size];
        assert_eq!(write(&mut card.clone(), &NewFile { data, ..sound }), Ok(()));
    }
}

#[test]
fn flag_and_offset_of_a_new_file() {
    let card = formatted();
    let data = content(200);
    for flag in 0..=255 {
        let file = NewFile {
            flag,
            ..new_file(b"NEW_FILE.DAT", &data)
        };
        let mut taken = card.clone();
        assert_eq!(write(&mut taken, &file), Ok(()));
        assert_eq!(list(&taken, 0).unwrap().flag, flag);
    }
    for size in [1, 2, 200] {
        let file = new_file(b"NEW_FILE.DAT", &data[..512 * size as usize]);
        let mut taken = card.clone();
        let offset = size - 1;
        assert_eq!(write(&mut taken, &NewFile { offset, ..file }), Ok(()));
        assert_eq!(list(&taken, 0).unwrap().offset, offset);
        // Low bits alone would be in range.
        for offset in [size, 1 << 8, 0xFFFF, 1 << 16, 1 << 32, u64::MAX] {
            assert_eq!(refused_write(&card, &NewFile { offset, ..file }), whole(26));
        }
    }
}

#[test]
fn a_name_in_use_is_refused_with_its_entry() {
    let card = sample();
    let data = content(1);
    for entry in [3, 16, 207] {
        let used = name(entry as usize);
        let file = new_file(&used, &data);
        assert_eq!(refused_write(&card, &file), at_entry(29, entry));
    }
    // A name of an unused entry doesn't count, one other byte is enough.
    let mut card = sample();
    let unused = name(4);
    card[entry_at(4) + 4..][..12].copy_from_slice(&unused);
    assert_eq!(write(&mut card, &new_file(&unused, &data)), Ok(()));
    for at in 0..12 {
        let mut other = name(3);
        other[at] ^= 0x80;
        let file = new_file(&other, &data);
        assert_eq!(write(&mut sample(), &file), Ok(()));
    }
}

#[test]
fn writes_test_in_order() {
    let mut card = sample();
    leave_free(&mut card, 0);
    add(&mut card, 3, DATA, &name(3), &[199, 198, 190]);
    add(&mut card, 16, GAME, &name(16), &[0, 1, 2, 3]);
    add(&mut card, 207, DATA, &name(207), &[197]);
    let data = content(2);
    let mut file = NewFile {
        flag: 1,
        offset: 2,
        ..new_file(b"SHORT", &data)
    };
    assert_eq!(refused_write(&card[1..], &file), whole(20));
    let mut damaged = card.clone();
    damaged[entry_at(207)] = 1;
    assert_eq!(refused_write(&damaged, &file), at_entry(26, 207));
    damaged[entry_at(207)] = GAME;
    assert_eq!(refused_write(&damaged, &file), at_entry(30, 207));
    assert_eq!(refused_write(&card, &file), whole(33));
    let (used, unused) = (name(3), name(4));
    file.name = &used;
    assert_eq!(refused_write(&card, &file), whole(26));
    file.offset = 1;
    assert_eq!(refused_write(&card, &file), at_entry(29, 3));
    file.name = &unused;
    assert_eq!(refused_write(&card, &file), whole(34));
    link(&mut card, 10, FREE);
    link(&mut card, 4, FREE);
    assert_eq!(write(&mut card, &file), Ok(()));
}

#[test]
fn a_delete_changes_only_what_is_named() {
    let files = [
        (3, &[199, 198, 190][..]),
        (16, &[0, 1, 2, 3]),
        (207, &[197]),
    ];
    for (entry, blocks) in files {
        let mut card = sample();
        // Orphans that lead into the file stay.
        link(&mut card, 50, blocks[0] as u16);
        link(&mut card, 51, blocks[blocks.len() - 1] as u16);
        card[entry_at(entry) + 0x1C..][..4].fill(0xEE);
        let mut expected = card.clone();
        for &block in blocks {
            link(&mut expected, block, FREE);
        }
        expected[entry_at(entry)..][..32].fill(0);
        assert_eq!(delete(&mut card, &name(entry)), Ok(()));
        assert!(card == expected);
        assert_eq!(check(&card), Ok(2));
        assert_eq!(refused_delete(&card, &name(entry)), whole(31));
    }
}

#[test]
fn a_file_as_long_as_the_card_is_written_and_deleted() {
    let mut card = formatted();
    let empty = card.clone();
    let data = content(200);
    assert_eq!(write(&mut card, &new_file(&name(0), &data)), Ok(()));
    assert_eq!(check(&card), Ok(0));
    assert_eq!(delete(&mut card, &name(0)), Ok(()));
    assert!(card[200 * 512..] == empty[200 * 512..]);
    for (block, content) in card[..200 * 512].chunks(512).zip(data.chunks(512).rev()) {
        assert_eq!(block, content);
    }
}

#[test]
fn deletes_test_in_order() {
    let mut card = sample();
    for length in [0, 11, 13] {
        let long = [b'F'; 13];
        assert_eq!(refused_delete(&card, &long[..length]), whole(33));
        assert_eq!(refused_delete(&card[1..], &long[..length]), whole(20));
    }
    assert_eq!(refused_delete(&card, &name(4)), whole(31));
    // The start of a name isn't the name.
    assert_eq!(refused_delete(&card, b"FILE_____00\0"), whole(31));
    card[entry_at(4) + 4..][..12].copy_from_slice(&name(4));
    assert_eq!(refused_delete(&card, &name(4)), whole(31));
    card[entry_at(207)] = 1;
    assert_eq!(refused_delete(&card, &[]), at_entry(26, 207));
    assert_eq!(refused_delete(&card, &name(3)), at_entry(26, 207));
}

/// What a run of calls brings, right or nearly so.
struct Asked {
    name: Vec<u8>,
    flag: u8,
    time: Vec<u8>,
    offset: u64,
    data: Vec<u8>,
}

impl Asked {
    fn any(random: &mut Random) -> Asked {
        let size = match random.below(4) {
            0 => random.below(202),
            _ => 1 + random.below(12),
        };
        let mut asked = Asked {
            name: name(random.below(40)).to_vec(),
            flag: random.below(256) as u8,
            time: vec![random.below(256) as u8; 8],
            offset: random.below(size.max(1)) as u64,
            data: vec![random.below(256) as u8; 512 * size],
        };
        match random.below(16) {
            0 => asked.name.truncate(random.below(12)),
            1 => asked.time.push(0),
            2 => asked.data.push(0),
            3 => asked.offset += [size as u64, 1 << 16][random.below(2)],
            _ => {}
        }
        asked
    }

    fn file(&self) -> NewFile<'_> {
        NewFile {
            name: &self.name,
            flag: self.flag,
            time: &self.time,
            offset: self.offset,
            data: &self.data,
        }
    }
}

/// Makes a call and compares its answer, and the card it leaves, with the
/// model's. Gives the number answered.
fn change(card: &mut Vec<u8>, random: &mut Random) -> usize {
    let (asked, before) = (Asked::any(random), card.clone());
    let (expected, answer) = if random.below(3) == 0 {
        let expected = model::deleted(&before, &asked.name);
        (expected, delete(card, &asked.name))
    } else {
        let expected = model::written(&before, &asked.file());
        (expected, write(card, &asked.file()))
    };
    let refused = answer.err().map(|refusal| (refusal.number, refusal.place));
    assert_eq!(refused, expected.as_ref().err().copied());
    assert!(*card == expected.unwrap_or(before));
    refused.map_or(0, |(number, _)| number as usize)
}

#[test]
fn runs_of_changes_agree_with_the_model() {
    let mut random = Random(0x2468_ACE0_1357_9BDF);
    let mut seen = [0; 35];
    for _ in 0..200 {
        let mut card = random_card(&mut random);
        for _ in 0..random.below(3) {
            disturb(&mut card, &mut random);
        }
        for _ in 0..20 {
            seen[change(&mut card, &mut random)] += 1;
        }
    }
    for number in [0, 26, 29, 31, 33, 34] {
        assert!(seen[number] > 20, "{number}: {} times", seen[number]);
    }
}
