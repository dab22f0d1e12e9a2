mod changes;

use super::*;

const FREE: u16 = 0xFFFC;
const DAMAGED: u16 = 0xFFFF;
const LAST: u16 = 0xFFFA;
const DATA: u8 = 0x33;
const GAME: u8 = 0xCC;

/// An empty card, as a formatter leaves it. Each block is filled with its
/// own number where nothing else stands.
fn formatted() -> Vec<u8> {
    let mut card: Vec<u8> = (0..CARD).map(|at| (at / 512) as u8).collect();
    card[241 * 512..254 * 512].fill(0);
    let root = 255 * 512;
    card[root..root + 512].fill(0);
    card[root..root + 16].fill(0x55);
    for (at, value) in [(0x46, 254), (0x48, 1), (0x4A, 253), (0x4C, 13), (0x50, 200)] {
        put(&mut card, root + at, value);
    }
    for block in 0..241 {
        link(&mut card, block, FREE);
    }
    for block in 242..254 {
        link(&mut card, block, block as u16 - 1);
    }
    for block in [241, 254, 255] {
        link(&mut card, block, LAST);
    }
    card
}

fn put(card: &mut [u8], at: usize, value: u16) {
    card[at..at + 2].copy_from_slice(&value.to_le_bytes());
}

fn link(card: &mut [u8], block: usize, value: u16) {
    put(card, 254 * 512 + 2 * block, value);
}

fn entry_at(entry: usize) -> usize {
    (253 - entry / 16) * 512 + 32 * (entry % 16)
}

/// Writes a directory entry and links the blocks of its file.
fn add(card: &mut [u8], entry: usize, kind: u8, name: &[u8; 12], blocks: &[u16]) {
    let at = entry_at(entry);
    card[at] = kind;
    card[at + 1] = 0xFF;
    put(card, at + 2, blocks[0]);
    card[at + 4..at + 16].copy_from_slice(name);
    card[at + 16..at + 24].copy_from_slice(&[0x19, 0x99, 0x09, 0x09, 1, 2, 3, entry as u8]);
    put(card, at + 0x18, blocks.len() as u16);
    for pair in blocks.windows(2) {
        link(card, pair[0].into(), pair[1]);
    }
    link(card, blocks[blocks.len() - 1].into(), LAST);
}

fn name(number: usize) -> [u8; 12] {
    let text = format!("FILE_____{number:03}");
    text.as_bytes().try_into().unwrap()
}

fn sample() -> Vec<u8> {
    let mut card = formatted();
    add(&mut card, 3, DATA, &name(3), &[199, 198, 190]);
    add(&mut card, 16, GAME, &name(16), &[0, 1, 2, 3]);
    add(&mut card, 207, DATA, &name(207), &[197]);
    card
}

fn at_block<T>(number: u32, block: u64) -> Result<T, Refusal> {
    let place = Place::Block(block);
    Err(Refusal { number, place })
}

fn at_entry<T>(number: u32, entry: u64) -> Result<T, Refusal> {
    let place = Place::Entry(entry);
    Err(Refusal { number, place })
}

fn whole<T>(number: u32) -> Result<T, Refusal> {
    let place = Place::Whole;
    Err(Refusal { number, place })
}

#[test]
fn sound_cards() {
    assert_eq!(check(&formatted()), Ok(0));
    assert_eq!(check(&sample()), Ok(0));
}

#[test]
fn sample_j_place_of_an_entry() {
    assert_eq!(entry_at(16), 252 * 512);
    let mut card = formatted();
    card[252 * 512] = 1;
    assert_eq!(check(&card), at_entry(26, 16));
    for entry in 0..208 {
        let mut card = formatted();
        card[entry_at(entry)] = 1;
        assert_eq!(check(&card), at_entry(26, entry as u64));
    }
}

#[test]
fn sample_k_place_of_a_table_entry() {
    let mut card = formatted();
    assert_eq!(card[130_554..130_556], [252, 0]);
    card[130_554] = 251;
    assert_eq!(check(&card), at_block(23, 253));
}

#[test]
fn sample_l_chain_and_size() {
    let mut card = formatted();
    add(&mut card, 0, DATA, &name(0), &[199, 198]);
    assert_eq!(check(&card), Ok(0));
    for size in [1, 3] {
        put(&mut card, entry_at(0) + 0x18, size);
        assert_eq!(check(&card), at_entry(27, 0));
    }
    let table = Table::decode(block_of(card[..].try_into().unwrap(), TABLE_BLOCK));
    assert_eq!(table.last_block(199, 1), None);
    assert_eq!(table.last_block(199, 2), Some(198));
    assert_eq!(table.last_block(199, 3), None);
}

#[test]
fn length_is_tested_first() {
    for length in [0, 1, 512, 131_071, 131_073, 262_144] {
        let card = vec![0; length];
        assert_eq!(check(&card), whole(20));
        assert_eq!(list(&card, 0), whole(20));
        assert_eq!(read(&card, &[], 0, &mut []), whole(20));
    }
    assert_eq!(check(&vec![0; CARD]), at_block(21, 255));
}

#[test]
fn root_letters_and_fields() {
    let root = 255 * 512;
    for at in 0..16 {
        let mut card = sample();
        card[root + at] = 0x54;
        card[root + 0x46] = 0;
        assert_eq!(check(&card), at_block(21, 255));
    }
    let tested = [0x46, 0x47, 0x48, 0x49, 0x4A, 0x4B, 0x4C, 0x4D, 0x50, 0x51];
    for at in 16..512 {
        let mut card = sample();
        card[root + at] ^= 0x10;
        if tested.contains(&at) {
            link(&mut card, 241, FREE);
            assert_eq!(check(&card), at_block(22, 255), "{at}");
        } else {
            assert_eq!(check(&card), Ok(0), "{at}");
        }
    }
}

#[test]
fn system_blocks() {
    for block in 241..256 {
        for value in [FREE, DAMAGED, LAST, 0, block as u16 - 1, block as u16] {
            let mut card = sample();
            let at = 254 * 512 + 2 * block;
            if card[at..at + 2] != value.to_le_bytes() {
                link(&mut card, block, value);
                link(&mut card, 200, LAST);
                assert_eq!(check(&card), at_block(23, block as u64));
            }
        }
    }
    let mut card = sample();
    link(&mut card, 250, 0);
    link(&mut card, 245, 0);
    assert_eq!(check(&card), at_block(23, 245));
}

#[test]
fn hidden_blocks() {
    for block in 200..241 {
        let mut card = sample();
        link(&mut card, block, DAMAGED);
        assert_eq!(check(&card), Ok(0));
        for value in [LAST, 0, 199, 0xFFFB, 0xFFFD, 0xFFFE] {
            link(&mut card, block, value);
            link(&mut card, 0, 200);
            assert_eq!(check(&card), at_block(24, block as u64));
        }
    }
}

#[test]
fn user_blocks() {
    for block in 0..200 {
        let mut card = formatted();
        for value in [DAMAGED, FREE] {
            link(&mut card, block, value);
            assert_eq!(check(&card), Ok(0));
        }
        for value in [LAST, 0, 199, block as u16] {
            link(&mut card, block, value);
            assert_eq!(check(&card), Ok(1));
        }
        for value in [200, 255, 256, 0xFFF9, 0xFFFB, 0xFFFD, 0xFFFE] {
            link(&mut card, block, value);
            card[entry_at(0)] = 1;
            assert_eq!(check(&card), at_block(25, block as u64));
        }
    }
}

#[test]
fn orphans() {
    let mut card = sample();
    link(&mut card, 100, LAST);
    link(&mut card, 101, 100);
    link(&mut card, 102, 199);
    link(&mut card, 103, 103);
    link(&mut card, 104, DAMAGED);
    assert_eq!(check(&card), Ok(4));
}

#[test]
fn unused_entries_may_hold_anything() {
    let mut card = sample();
    let expected = list(&card, 4);
    card[entry_at(4) + 1..][..31].fill(0xEE);
    assert_eq!(check(&card), Ok(0));
    assert_eq!(list(&card, 4), expected);
}

#[test]
fn fields_of_an_entry() {
    let cases: [(usize, u16, bool); 16] = [
        (0x00, 0xFF33, true),
        (0x00, 0xFF34, false),
        (0x00, 0xFFFF, false),
        (0x00, 0x0033, true),
        (0x00, 0x0133, true),
        (0x00, 0xFE33, true),
        (0x02, 200, false),
        (0x02, 0x100 + 199, false),
        (0x02, LAST, false),
        (0x18, 0, false),
        (0x18, 201, false),
        (0x18, 0x103, false),
        (0x1A, 2, true),
        (0x1A, 3, false),
        (0x1A, 0x100, false),
        (0x1C, 0xFFFF, true),
    ];
    for (at, value, sound) in cases {
        let mut card = sample();
        put(&mut card, entry_at(3) + at, value);
        let expected = if sound { Ok(0) } else { at_entry(26, 3) };
        assert_eq!(check(&card), expected, "{at:#x} {value:#x}");
    }
    // In range, yet the chain doesn't agree.
    for (at, value) in [(0x18, 200), (0x18, 1), (0x02, 198), (0x02, 100)] {
        let mut card = sample();
        put(&mut card, entry_at(3) + at, value);
        assert_eq!(check(&card), at_entry(27, 3));
    }
}

#[test]
fn offset_of_a_game_is_not_tested() {
    let mut card = sample();
    put(&mut card, entry_at(16) + 0x1A, 0xFFFF);
    assert_eq!(check(&card), Ok(0));
    assert_eq!(list(&card, 16).unwrap().offset, 0xFFFF);
    // An offset of 0 isn't below a size of 0 either; 26 whatever comes first.
    put(&mut card, entry_at(207) + 0x18, 0);
    assert_eq!(check(&card), at_entry(26, 207));
}

#[test]
fn chains_end_where_the_size_says() {
    // Through a free or damaged block, into a circle, past the end.
    for value in [FREE, DAMAGED, 199, 198, LAST] {
        let mut card = sample();
        link(&mut card, 198, value);
        assert_eq!(check(&card), at_entry(27, 3));
    }
    for value in [FREE, DAMAGED, 197, 190, 5] {
        let mut card = sample();
        link(&mut card, 190, value);
        assert_eq!(check(&card), at_entry(27, 3));
    }
    let mut card = formatted();
    let blocks: Vec<u16> = (0..200).rev().collect();
    add(&mut card, 0, DATA, &name(0), &blocks);
    assert_eq!(check(&card), Ok(0));
    link(&mut card, 0, 199);
    assert_eq!(check(&card), at_entry(27, 0));
}

#[test]
fn shared_blocks() {
    // The whole file, its tail, and its last block alone.
    for shared in [
        &[199, 198, 190][..],
        &[100, 198, 190],
        &[100, 101, 102, 190],
        &[190],
    ] {
        let mut card = sample();
        add(&mut card, 5, DATA, &name(5), shared);
        add(&mut card, 6, DATA, &name(5), shared);
        assert_eq!(check(&card), at_entry(28, 5));
        // A bad chain anywhere comes first.
        link(&mut card, 197, 197);
        assert_eq!(check(&card), at_entry(27, 207));
    }
}

#[test]
fn repeated_names() {
    let mut card = sample();
    add(&mut card, 20, DATA, &name(207), &[100]);
    add(&mut card, 30, DATA, &name(3), &[101]);
    add(&mut card, 40, DATA, &name(3), &[102]);
    put(&mut card, entry_at(16) + 2, 1);
    put(&mut card, entry_at(16) + 0x18, 3);
    assert_eq!(check(&card), at_entry(29, 30));
    card[entry_at(30)] = 0;
    assert_eq!(check(&card), at_entry(29, 40));
    card[entry_at(40)] = 0;
    assert_eq!(check(&card), at_entry(29, 207));
    // The game rule comes after the names.
    card[entry_at(20)] = 0;
    assert_eq!(check(&card), at_entry(30, 16));
    // A name of an unused entry doesn't count, one other byte is enough.
    let mut card = sample();
    card[entry_at(4) + 4..][..12].copy_from_slice(&name(3));
    assert_eq!(check(&card), Ok(0));
    for at in 0..12 {
        let mut card = sample();
        let mut other = name(3);
        other[at] ^= 0x80;
        add(&mut card, 20, DATA, &other, &[100]);
        assert_eq!(check(&card), Ok(0));
        add(&mut card, 20, DATA, &name(3), &[100]);
        assert_eq!(check(&card), at_entry(29, 20));
    }
}

#[test]
fn game_rules() {
    let game = |blocks: &[u16]| {
        let mut card = formatted();
        add(&mut card, 9, GAME, &name(9), blocks);
        card
    };
    let rising = |size| (0..size).collect::<Vec<u16>>();
    assert_eq!(check(&game(&[0])), Ok(0));
    assert_eq!(check(&game(&rising(128))), Ok(0));
    assert_eq!(check(&game(&rising(129))), at_entry(30, 9));
    assert_eq!(check(&game(&rising(200))), at_entry(30, 9));
    assert_eq!(check(&game(&[1])), at_entry(30, 9));
    assert_eq!(check(&game(&[1, 2, 3])), at_entry(30, 9));
    assert_eq!(check(&game(&[0, 2, 1])), at_entry(30, 9));
    assert_eq!(check(&game(&[0, 1, 3])), at_entry(30, 9));
    assert_eq!(check(&game(&[1, 0])), at_entry(30, 9));
    // A second game is the one refused, wherever it lies.
    let mut card = game(&[0, 1]);
    add(&mut card, 10, GAME, &name(10), &[2]);
    assert_eq!(check(&card), at_entry(30, 10));
    // Two games that break the rule: the lower one.
    let mut card = game(&[1]);
    add(&mut card, 10, GAME, &name(10), &[0]);
    assert_eq!(check(&card), at_entry(30, 9));
}

#[test]
fn list_takes_any_start() {
    let card = sample();
    for (from, entry) in [(0, 3), (3, 3), (4, 16), (16, 16), (17, 207), (207, 207)] {
        assert_eq!(list(&card, from).map(|e| e.entry), Ok(entry));
    }
    for from in [208, 256, 1 << 32, u64::MAX] {
        assert_eq!(list(&card, from), whole(31));
    }
    assert_eq!(list(&formatted(), 0), whole(31));
    let mut card = card;
    put(&mut card, entry_at(3) + 0x1A, 2);
    let expected = Entry {
        entry: 3,
        kind: DATA,
        flag: 0xFF,
        is_copy_protected: true,
        first: 199,
        size: 3,
        offset: 2,
        name: *b"FILE_____003",
        time: [0x19, 0x99, 0x09, 0x09, 1, 2, 3, 3],
    };
    assert_eq!(list(&card, 1), Ok(expected));
    card[entry_at(16)] = 1;
    assert_eq!(list(&card, 0), at_entry(26, 16));
}

#[test]
fn a_flag_of_ff_alone_is_protected() {
    let card = sample();
    for flag in 0..=255 {
        let mut flagged = card.clone();
        flagged[entry_at(3) + 1] = flag;
        let expected = Entry {
            flag,
            is_copy_protected: flag == 0xFF,
            ..list(&card, 0).unwrap()
        };
        assert_eq!(list(&flagged, 0), Ok(expected));
        assert_eq!(list(&flagged, 4), list(&card, 4));
        assert_eq!(check(&flagged), Ok(0));
    }
}

#[test]
fn read_finds_blocks_by_name_and_index() {
    let card = sample();
    let files = [
        (3, &[199, 198, 190][..]),
        (16, &[0, 1, 2, 3]),
        (207, &[197]),
    ];
    for (number, blocks) in files {
        for (index, &expected) in blocks.iter().enumerate() {
            let mut block = [0xA5; 512];
            assert_eq!(read(&card, &name(number), index as u64, &mut block), Ok(()));
            assert_eq!(block, [expected; 512]);
        }
        let past = blocks.len() as u64;
        for index in [past, past + 1, 256, 1 << 32, u64::MAX] {
            let mut block = [0xA5; 512];
            assert_eq!(read(&card, &name(number), index, &mut block), whole(32));
            assert_eq!(block, [0xA5; 512]);
        }
    }
}

#[test]
fn read_tests_in_order() {
    let mut card = sample();
    let mut block = [0xA5; 512];
    for length in [0, 11, 13] {
        let long = [b'F'; 13];
        assert_eq!(read(&card, &long[..length], 9, &mut block), whole(33));
    }
    for length in [0, 511] {
        assert_eq!(read(&card, &name(3), 9, &mut block[..length]), whole(33));
        assert_eq!(read(&card, &name(4), 9, &mut block[..length]), whole(33));
    }
    assert_eq!(read(&card, &name(3), 0, &mut [0; 513]), whole(33));
    assert_eq!(read(&card, &name(4), u64::MAX, &mut block), whole(31));
    card[entry_at(4) + 4..][..12].copy_from_slice(&name(4));
    assert_eq!(read(&card, &name(4), 0, &mut block), whole(31));
    card[entry_at(207)] = 1;
    assert_eq!(read(&card, &[], 0, &mut block), at_entry(26, 207));
    assert_eq!(block, [0xA5; 512]);
}

/// The tests of the description one after the other, without any care for
/// speed, and what a call that changes a card leaves.
mod model {
    use super::super::Place::{self, Block, Entry, Whole};
    use super::{add, entry_at, put, NewFile, DAMAGED, DATA, FREE, GAME, LAST};

    fn word(card: &[u8], at: usize) -> u16 {
        u16::from(card[at]) + 256 * u16::from(card[at + 1])
    }

    fn link(card: &[u8], block: u16) -> u16 {
        word(card, 254 * 512 + 2 * usize::from(block))
    }

    fn chain(card: &[u8], entry: usize) -> Option<Vec<u16>> {
        let mut block = word(card, entry_at(entry) + 2);
        let mut blocks = vec![block];
        for _ in 1..word(card, entry_at(entry) + 0x18) {
            block = link(card, block);
            if block > 199 {
                return None;
            }
            blocks.push(block);
        }
        (link(card, block) == LAST).then_some(blocks)
    }

    fn field_error(card: &[u8], entry: usize) -> bool {
        let at = entry_at(entry);
        let size = word(card, at + 0x18);
        !(card[at] == DATA || card[at] == GAME)
            || word(card, at + 2) >= 200
            || !(1..=200).contains(&size)
            || (card[at] == DATA && word(card, at + 0x1A) >= size)
    }

    pub type Verdict<T> = Result<T, (u32, Place)>;

    pub fn check(card: &[u8]) -> Verdict<u64> {
        root(card)?;
        table(card)?;
        let used: Vec<usize> = (0..208).filter(|&e| card[entry_at(e)] != 0).collect();
        first(26, &used, |e| field_error(card, e))?;
        first(27, &used, |e| chain(card, e).is_none())?;
        files(card, &used)?;
        Ok(orphans(card, &used))
    }

    /// 20 to 22.
    fn root(card: &[u8]) -> Verdict<()> {
        if card.len() != 131_072 {
            return Err((20, Whole));
        }
        let root = 255 * 512;
        if (0..16).any(|i| card[root + i] != 0x55) {
            return Err((21, Block(255)));
        }
        let fields = [(0x46, 254), (0x48, 1), (0x4A, 253), (0x4C, 13), (0x50, 200)];
        if fields.iter().any(|&(at, v)| word(card, root + at) != v) {
            return Err((22, Block(255)));
        }
        Ok(())
    }

    /// 23 to 25.
    fn table(card: &[u8]) -> Verdict<()> {
        for b in 241..256u16 {
            let right = if [241, 254, 255].contains(&b) {
                LAST
            } else {
                b - 1
            };
            if link(card, b) != right {
                return Err((23, Block(b.into())));
            }
        }
        for b in 200..241u16 {
            if ![FREE, DAMAGED].contains(&link(card, b)) {
                return Err((24, Block(b.into())));
            }
        }
        for b in 0..200u16 {
            if link(card, b) > 199 && ![FREE, DAMAGED, LAST].contains(&link(card, b)) {
                return Err((25, Block(b.into())));
            }
        }
        Ok(())
    }

    /// 28 to 30, where every chain is sound.
    fn files(card: &[u8], used: &[usize]) -> Verdict<()> {
        let earlier = |e: usize| used.iter().copied().filter(move |&f| f < e);
        let blocks = |e| chain(card, e).unwrap();
        first(28, used, |e| {
            earlier(e).any(|f| blocks(f).iter().any(|b| blocks(e).contains(b)))
        })?;
        let name = |e| &card[entry_at(e) + 4..entry_at(e) + 16];
        first(29, used, |e| earlier(e).any(|f| name(f) == name(e)))?;
        let game = |e| card[entry_at(e)] == GAME;
        first(30, used, |e| {
            let rising = (0..).zip(blocks(e)).all(|(i, b)| i == b);
            game(e) && (earlier(e).any(game) || !rising || blocks(e).len() > 128)
        })
    }

    fn orphans(card: &[u8], used: &[usize]) -> u64 {
        let in_files: Vec<u16> = used.iter().flat_map(|&e| chain(card, e).unwrap()).collect();
        let orphans = (0..200)
            .filter(|&b| ![FREE, DAMAGED].contains(&link(card, b)))
            .filter(|b| !in_files.contains(b));
        orphans.count() as u64
    }

    /// The card with the file on it.
    pub fn written(card: &[u8], file: &NewFile) -> Verdict<Vec<u8>> {
        check(card)?;
        let size = file.data.len() / 512;
        let is_whole = (1..=200).contains(&size) && file.data.len() == 512 * size;
        let has_lengths = file.name.len() == 12 && file.time.len() == 8 && is_whole;
        refuse(33, !has_lengths)?;
        refuse(26, file.offset >= size as u64)?;
        if let Some(entry) = named(card, file.name) {
            return Err((29, Entry(entry as u64)));
        }
        let free = (0..200).rev().filter(|&b| link(card, b) == FREE);
        let blocks: Vec<u16> = free.take(size).collect();
        refuse(34, blocks.len() < size)?;
        let mut card = card.to_vec();
        let entry = (0..208).find(|&e| card[entry_at(e)] == 0).unwrap();
        let (at, name) = (entry_at(entry), file.name.try_into().unwrap());
        card[at..at + 32].fill(0);
        add(&mut card, entry, DATA, name, &blocks);
        card[at + 1] = file.flag;
        card[at + 0x10..at + 0x18].copy_from_slice(file.time);
        put(&mut card, at + 0x1A, file.offset as u16);
        for (&block, content) in blocks.iter().zip(file.data.chunks(512)) {
            card[512 * usize::from(block)..][..512].copy_from_slice(content);
        }
        Ok(card)
    }

    /// The card without the file of this name.
    pub fn deleted(card: &[u8], name: &[u8]) -> Verdict<Vec<u8>> {
        check(card)?;
        refuse(33, name.len() != 12)?;
        let entry = named(card, name).ok_or((31, Whole))?;
        let blocks = chain(card, entry).unwrap();
        let mut card = card.to_vec();
        for block in blocks {
            super::link(&mut card, block.into(), FREE);
        }
        card[entry_at(entry)..][..32].fill(0);
        Ok(card)
    }

    fn refuse(number: u32, when: bool) -> Verdict<()> {
        if when {
            Err((number, Whole))
        } else {
            Ok(())
        }
    }

    fn named(card: &[u8], name: &[u8]) -> Option<usize> {
        let has_name = |at: usize| card[at] != 0 && &card[at + 4..at + 16] == name;
        (0..208).find(|&e| has_name(entry_at(e)))
    }

    /// Refuses the lowest of the entries that is bad.
    fn first(number: u32, used: &[usize], bad: impl Fn(usize) -> bool) -> Verdict<()> {
        match used.iter().find(|&&e| bad(e)) {
            Some(&e) => Err((number, Entry(e as u64))),
            None => Ok(()),
        }
    }
}

struct Random(u64);

impl Random {
    fn below(&mut self, limit: usize) -> usize {
        self.0 ^= self.0 << 13;
        self.0 ^= self.0 >> 7;
        self.0 ^= self.0 << 17;
        ((self.0 >> 11) % limit as u64) as usize
    }
}

/// A card with files at random entries and blocks, mostly sound.
fn random_card(random: &mut Random) -> Vec<u8> {
    let mut card = formatted();
    let mut free: Vec<u16> = (0..200).collect();
    let entries = [3, 20, 208][random.below(3)];
    let has_game = random.below(2) == 0;
    for entry in 0..entries {
        if random.below(3) == 0 || free.is_empty() {
            continue;
        }
        let size = 1 + random.below(free.len().min(200 / entries + 4));
        let is_game = has_game && entry == 2 && free[0] == 0;
        let blocks: Vec<u16> = (0..size)
            .map(|_| free.remove(if is_game { 0 } else { random.below(free.len()) }))
            .collect();
        let kind = if is_game { GAME } else { DATA };
        add(&mut card, entry, kind, &name(entry), &blocks);
    }
    card
}

/// Disturbs one place of the directory, the table or the root.
fn disturb(card: &mut [u8], random: &mut Random) {
    let entry = random.below(30);
    match random.below(6) {
        0 => {
            let values = [FREE, DAMAGED, LAST, 0, 1, 199, 200];
            link(card, random.below(200), values[random.below(7)]);
        }
        1 => link(card, random.below(200), random.below(200) as u16),
        2 => card[entry_at(entry)] = [0, DATA, GAME, GAME][random.below(4)],
        3 => {
            let from = entry_at(random.below(30)) + 4;
            let copy = card[from..from + 12].to_vec();
            card[entry_at(entry) + 4..][..12].copy_from_slice(&copy);
        }
        4 => {
            let value = card[entry_at(random.below(30)) + 2];
            card[entry_at(entry) + 2] = value;
        }
        _ => {
            let at = 241 * 512 + random.below(15 * 512);
            card[at] = random.below(256) as u8;
        }
    }
}

#[test]
fn agrees_with_the_model() {
    let mut random = Random(0x1357_9BDF_0246_8ACE);
    let mut seen = [0; 31];
    for _ in 0..6_000 {
        let mut card = random_card(&mut random);
        for _ in 0..random.below(4) {
            disturb(&mut card, &mut random);
        }
        let expected = model::check(&card);
        let answer = check(&card).map_err(|refusal| (refusal.number, refusal.place));
        assert_eq!(answer, expected);
        seen[expected.map_or_else(|(number, _)| number as usize, |_| 0)] += 1;
    }
    for number in [0, 22, 23, 24, 25, 26, 27, 28, 29, 30] {
        assert!(seen[number] > 0, "no card was refused {number}");
    }
}
