use super::*;

/// An empty partition 3, as a formatter leaves it.
fn formatted() -> Vec<u8> {
    let mut image = vec![0xFF; 32_768];
    image[..16].copy_from_slice(b"KATANA_FLASH____");
    image[16] = 3;
    image[17] = 1;
    image
}

/// The two blocks of a right header whose other bytes are all `rest`.
fn header(product: &[u8; 10], rest: u8) -> [Page; 2] {
    let mut bytes = [rest; 120];
    bytes[..2].copy_from_slice(&[0x01, 0xFF]);
    bytes[2..12].copy_from_slice(product);
    let sum = checksum(&bytes[2..0x70]);
    bytes[0x70..0x72].copy_from_slice(&sum.to_le_bytes());
    [
        bytes[..60].try_into().unwrap(),
        bytes[60..].try_into().unwrap(),
    ]
}

fn product(number: u8) -> [u8; 10] {
    let mut product = *b"T-00000D00";
    product[9] = number;
    product
}

/// Saves by the plain call, over whatever is there.
fn put(image: &mut [u8], number: u64, page: &Page) {
    let seen = contents(image, number).map_or(vec![], |seen| seen.to_vec());
    assert_eq!(flash::save(image, 3, number, &seen, page), 0);
}

fn contents(image: &[u8], number: u64) -> Option<Page> {
    let mut page = [0; 60];
    match flash::read(image, 3, number, &mut page) {
        0 => Some(page),
        refusal => {
            assert_eq!(refusal, 7);
            None
        }
    }
}

fn claimed(image: &mut [u8], [first, second]: &[Page; 2]) -> Result<u64, u32> {
    claim(image, 3, first, second)
}

/// The order's words, by plain reads and saves of whole numbers.
mod model {
    use super::*;

    pub fn valid(image: &[u8], slot: u64) -> Option<[u8; 120]> {
        let mut bytes = [0; 120];
        bytes[..60].copy_from_slice(&contents(image, 24 + 4 * slot)?);
        bytes[60..].copy_from_slice(&contents(image, 25 + 4 * slot)?);
        is_right(&bytes).then_some(bytes)
    }

    pub fn is_right(bytes: &[u8; 120]) -> bool {
        let sum = u16::from(bytes[0x70]) + 256 * u16::from(bytes[0x71]);
        bytes[0] == 1 && bytes[1] == 0xFF && checksum(&bytes[0x02..=0x6F]) == sum
    }

    pub fn find(image: &[u8], product: &[u8]) -> Result<u64, u32> {
        let has_it =
            |&slot: &u64| valid(image, slot).is_some_and(|header| header[2..12] == *product);
        (0..100).find(has_it).ok_or(7)
    }

    pub fn list(image: &[u8], from: u64) -> Result<u64, u32> {
        let counts = |&slot: &u64| slot >= from && valid(image, slot).is_some();
        (0..100).find(counts).ok_or(7)
    }

    pub fn claim(image: &mut [u8], [first, second]: &[Page; 2]) -> Result<u64, u32> {
        let bytes: [u8; 120] = [*first, *second].as_flattened().try_into().unwrap();
        if !is_right(&bytes) {
            return Err(41);
        }
        if let Ok(slot) = find(image, &bytes[2..12]) {
            return Ok(slot);
        }
        let slot = (0..100)
            .find(|&slot| valid(image, slot).is_none())
            .ok_or(40u32)?;
        put(image, 24 + 4 * slot, first);
        put(image, 25 + 4 * slot, second);
        Ok(slot)
    }
}

#[test]
fn a_claim_saves_the_header_and_is_found_again() {
    let mut image = formatted();
    let [first, second] = header(&product(1), 0);
    assert_eq!(find(&image, 3, &product(1)), Err(7));
    assert_eq!(claim(&mut image, 3, &first, &second), Ok(0));
    assert_eq!(contents(&image, 24), Some(first));
    assert_eq!(contents(&image, 25), Some(second));
    assert_eq!(flash::report(&image, 3).unwrap().used, 2);
    assert_eq!(find(&image, 3, &product(1)), Ok(0));
    assert_eq!(claimed(&mut image, &header(&product(2), 0)), Ok(1));
    assert_eq!(find(&image, 3, &product(2)), Ok(1));
    // The product alone decides: another header of it changes nothing.
    let before = image.clone();
    assert_eq!(claimed(&mut image, &header(&product(1), 9)), Ok(0));
    assert_eq!(image, before);
}

#[test]
fn a_claim_leaves_a_header_block_that_is_there_already() {
    let header = header(&product(1), 9);
    for there in [0, 1] {
        let mut image = formatted();
        put(&mut image, 24 + there as u64, &header[there]);
        let before = image.clone();
        assert_eq!(claimed(&mut image, &header), Ok(0));
        assert_eq!(contents(&image, 25 - there as u64), Some(header[1 - there]));
        assert_eq!(image[..2 * 64], before[..2 * 64]);
        let counts = flash::report(&image, 3).map(|report| (report.used, report.live));
        assert_eq!(counts, Ok((2, 2)));
    }
}

#[test]
fn the_hundred_and_first_is_refused() {
    let mut image = formatted();
    for slot in 0..100 {
        let claimed = claimed(&mut image, &header(&product(slot), slot));
        assert_eq!(claimed, Ok(slot.into()));
    }
    let before = image.clone();
    assert_eq!(claimed(&mut image, &header(&product(100), 0)), Err(40));
    assert_eq!(claimed(&mut image, &header(&product(99), 0)), Ok(99));
    assert_eq!(image, before);
    let wrong = [[0; 60]; 2];
    assert_eq!(claimed(&mut image, &wrong), Err(41));
    put(&mut image, 25 + 4 * 41, &[0; 60]);
    assert_eq!(find(&image, 3, &product(41)), Err(7));
    assert_eq!(claimed(&mut image, &header(&product(100), 0)), Ok(41));
}

#[test]
fn every_byte_of_the_checksum_and_the_start_counts() {
    let [first, second] = header(&product(1), 0x55);
    for at in 0..120 {
        let mut bytes = [first, second];
        bytes.as_flattened_mut()[at] ^= 0x10;
        let mut image = formatted();
        let answer = claimed(&mut image, &bytes);
        let counts = at <= 0x71;
        assert_eq!(answer, if counts { Err(41) } else { Ok(0) }, "{at}");
        assert_eq!(image == formatted(), counts);
        put(&mut image, 28, &bytes[0]);
        put(&mut image, 29, &bytes[1]);
        let listed = list(&image, 3, 1);
        assert_eq!(listed, if counts { Err(7) } else { Ok(1) }, "{at}");
    }
}

#[test]
fn a_slot_needs_both_blocks() {
    let [first, second] = header(&product(1), 0);
    for (number, page) in [(24, &first), (25, &second)] {
        let mut image = formatted();
        put(&mut image, number, page);
        assert_eq!(list(&image, 3, 0), Err(7));
        put(
            &mut image,
            49 - number,
            if number == 24 { &second } else { &first },
        );
        assert_eq!(list(&image, 3, 0), Ok(0));
    }
}

#[test]
fn listing_takes_any_start() {
    let mut image = formatted();
    let [first, second] = header(&product(1), 0);
    for slot in [3, 99] {
        put(&mut image, 24 + 4 * slot, &first);
        put(&mut image, 25 + 4 * slot, &second);
    }
    let answers = [0, 3, 4, 99, 100, 1 << 32, u64::MAX].map(|from| list(&image, 3, from));
    let expected = [Ok(3), Ok(3), Ok(99), Ok(99), Err(7), Err(7), Err(7)];
    assert_eq!(answers, expected);
    assert_eq!(find(&image, 3, &product(1)), Ok(3));
}

#[test]
fn data_blocks_are_read_and_saved_by_their_numbers() {
    let mut image = formatted();
    for slot in 0..8 {
        claimed(&mut image, &header(&product(slot), 0)).unwrap();
    }
    let mut page = [7; 60];
    for (block, number) in [(0, 26 + 4 * 7), (1, 27 + 4 * 7)] {
        let at = DataBlock { slot: 7, block };
        assert_eq!(read(&image, 3, at, &mut page), 7);
        assert_eq!(page, [7; 60]);
        assert_eq!(save(&mut image, 3, at, &[2; 60], &[1; 60]), 9);
        assert_eq!(save(&mut image, 3, at, &[], &[block as u8; 60]), 0);
        assert_eq!(contents(&image, number), Some([block as u8; 60]));
        assert_eq!(save(&mut image, 3, at, &[], &[1; 60]), 9);
        assert_eq!(save(&mut image, 3, at, &[block as u8; 60], &[9; 60]), 0);
        assert_eq!(read(&image, 3, at, &mut page), 0);
        assert_eq!(page, [9; 60]);
        page = [7; 60];
    }
}

#[test]
fn refusals_come_in_their_order() {
    let mut image = formatted();
    let at = |slot, block| DataBlock { slot, block };
    let mut short = [0; 59];
    assert_eq!(claimed(&mut image, &header(&product(1), 0)), Ok(0));
    let before = image.clone();
    assert_eq!(read(&image, 3, at(100, 2), &mut short), 8);
    assert_eq!(save(&mut image, 3, at(100, 2), &short, &[0; 60]), 8);
    assert_eq!(save(&mut image, 3, at(100, 2), &[], &short), 8);
    for slot in [1, 99, 100, 1 << 32, u64::MAX] {
        assert_eq!(read(&image, 3, at(slot, 2), &mut [0; 60]), 42);
        assert_eq!(save(&mut image, 3, at(slot, 2), &[1; 60], &[0; 60]), 42);
    }
    for block in [2, 3, 1 << 32, u64::MAX] {
        assert_eq!(read(&image, 3, at(0, block), &mut [0; 60]), 43);
        assert_eq!(save(&mut image, 3, at(0, block), &[1; 60], &[0; 60]), 43);
    }
    assert_eq!(find(&image, 3, &short[..9]), Err(8));
    assert_eq!(find(&image, 3, &short[..11]), Err(8));
    assert_eq!(claim(&mut image, 3, &[0; 60], &short), Err(8));
    assert_eq!(claim(&mut image, 3, &short, &[0; 60]), Err(8));
    assert_eq!(image, before);
}

#[test]
fn only_partition_3_of_its_length_has_slots() {
    let asked = |image: &[u8], named| {
        let at = DataBlock { slot: 0, block: 0 };
        let mut copy = image.to_vec();
        let answers = [
            find(image, named, &[]).unwrap_err(),
            list(image, named, 0).unwrap_err(),
            claim(&mut copy, named, &[], &[]).unwrap_err(),
            read(image, named, at, &mut []),
            save(&mut copy, named, at, &[], &[]),
        ];
        assert_eq!(copy, image);
        answers
    };
    let mut image = formatted();
    assert_eq!(asked(&image, 3), [8, 7, 8, 8, 8]);
    for length in [0, 16_384, 32_767, 32_769, 65_536] {
        let mut other = image.clone();
        other.resize(length, 0xFF);
        assert_eq!(asked(&other, 3), [1; 5]);
    }
    image[32_768 - 64] = 0xBF;
    assert_eq!(asked(&image, 3), [5; 5]);
    image[17] = 2;
    assert_eq!(asked(&image, 3), [4; 5]);
    assert_eq!(asked(&image, 2), [3; 5]);
    image[16] = 2;
    assert_eq!(asked(&image, 2), [3; 5]);
    assert_eq!(asked(&image, 3), [3; 5]);
    image[0] = 0;
    assert_eq!(asked(&image, 2), [2; 5]);
}

/// Claims among old copies, damaged blocks and full partitions.
#[test]
fn agrees_with_the_model() {
    let mut state = 1u64;
    let mut below = |limit: u64| {
        state ^= state << 13;
        state ^= state >> 7;
        state ^= state << 17;
        (state >> 11) % limit
    };
    for round in 0..20 {
        let mut image = formatted();
        for _ in 0..300 {
            let mut pages = header(&product(below(120) as u8), below(3) as u8);
            match below(12) {
                0 => pages.as_flattened_mut()[below(120) as usize] ^= 1,
                1 => put(&mut image, 24 + below(40), &pages[below(2) as usize]),
                2 => image[64 + below(32_000) as usize / 64 * 64 + 20] ^= 1,
                _ => {}
            }
            let mut other = image.clone();
            let claimed = claimed(&mut image, &pages);
            assert_eq!(claimed, model::claim(&mut other, &pages), "{round}");
            assert!(image == other);
            let (product, from) = (product(below(120) as u8), below(110));
            assert_eq!(find(&image, 3, &product), model::find(&image, &product));
            assert_eq!(list(&image, 3, from), model::list(&image, from));
        }
    }
}
