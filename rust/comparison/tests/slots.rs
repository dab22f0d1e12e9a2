//! Slots that the rounds' random ones seldom are: a header with any one bit turned, each slot the lowest that
//! is not valid, each free block that a claim's two saves look at spoilt or not, either of these idle.

use ::independent::slots::{self as independent, DataBlock};
use galtuyeg::raw;
use inputs::answers::{Answer, SlotAnswer};
use inputs::flash::{block_mut, Partition, PAGE};
use inputs::slots::{blocks, number, right_header, Header, HEADER, PARTITION, SIZE, SLOTS};
use inputs::Prng;

fn header(last: u8) -> Header {
    let mut product = *b"T-40502D01";
    product[9] = last;
    right_header(&product, &Prng::new(1, last.into()).array::<HEADER>())
}

fn formatted() -> Partition {
    Partition::formatted(SIZE, PARTITION, 1)
}

fn add(made: &mut Partition, slot: u16, header: &Header) {
    for (part, page) in (0..).zip(blocks(header)) {
        made.append(number(slot, part), page);
    }
}

/// All slots valid, each with a product number of its own, but for one of which only some blocks are there.
fn all_but(missing: u16, parts: &[u16]) -> Partition {
    let mut made = formatted();
    for slot in 0..SLOTS {
        let header = header(slot as u8);
        let pages = (0..).zip(blocks(&header));
        for (part, page) in pages.filter(|(part, _)| slot != missing || parts.contains(part)) {
            made.append(number(slot, part), page);
        }
    }
    made
}

/// Both sides' answer; the images that they leave are the same.
fn same_claim(image: &mut [u8], header: &Header) -> Result<u64, u32> {
    let [first, second] = blocks(header);
    let mut other = image.to_vec();
    let proved = raw::slot_claim(image, PARTITION, first, second);
    let answer = independent::claim(&mut other, PARTITION, first, second);
    assert_eq!(proved, SlotAnswer(answer).raw());
    assert!(image == other);
    answer
}

fn same_list(image: &[u8], from: u64) -> Result<u64, u32> {
    let answer = independent::list(image, PARTITION, from);
    assert_eq!(raw::slot_list(image, PARTITION, from), SlotAnswer(answer).raw());
    answer
}

#[test]
fn every_bit_of_a_header_is_tested_or_not_alike() {
    let mut tested = 0;
    for bit in 0..8 * HEADER {
        let mut header = header(7);
        header[bit / 8] ^= 1 << (bit % 8);
        let refused = same_claim(&mut formatted().bytes, &header) == Err(41);
        let mut made = formatted();
        add(&mut made, 50, &header);
        assert_eq!(same_list(&made.bytes, 0).is_err(), refused);
        tested += u32::from(refused);
    }
    assert_eq!(tested, 8 * 0x72);
}

#[test]
fn each_slot_is_claimed_where_it_is_the_lowest_not_valid() {
    for slot in 0..SLOTS {
        for parts in [&[][..], &[0], &[1]] {
            let mut image = all_but(slot, parts).bytes;
            assert_eq!(same_claim(&mut image, &header(200)), Ok(slot.into()));
            assert_eq!(same_claim(&mut image, &header(slot as u8)), Err(40));
            assert_eq!(same_claim(&mut image, &header(200)), Ok(slot.into()));
        }
    }
}

#[test]
fn a_header_block_that_is_there_is_not_saved_again() {
    let header = header(50);
    for there in [0, 1] {
        let mut made = all_but(50, &[there]);
        let mut image = made.bytes.clone();
        assert_eq!(same_claim(&mut image, &header), Ok(50));
        let missing = 1 - there;
        made.append(number(50, missing), blocks(&header)[usize::from(missing)]);
        assert!(image == made.bytes);
    }
}

/// Up to four blocks free, each of them FF or not: appends and compactions of both saves.
#[test]
fn both_saves_of_a_claim_go_their_ways() {
    for free in 0..=4 {
        for spoilt in 0..1 << free {
            let mut made = all_but(3, &[]);
            while made.used < SIZE.capacity() - free {
                made.append([5, 500][made.used % 2], &[made.used as u8; PAGE]);
            }
            for place in (0..free).filter(|place| spoilt >> place & 1 != 0) {
                block_mut(&mut made.bytes, made.used + 1 + place)[9] = 0xfe;
            }
            assert_eq!(same_claim(&mut made.bytes, &header(200)), Ok(3));
            assert_eq!(same_claim(&mut made.bytes, &header(3)), Err(40));
        }
    }
}

#[test]
fn each_data_block_is_saved_and_read() {
    let made = all_but(SLOTS, &[]);
    for (slot, block) in (0..u64::from(SLOTS)).flat_map(|slot| [(slot, 0), (slot, 1)]) {
        let (mut image, mut other) = (made.bytes.clone(), made.bytes.clone());
        let asked = DataBlock { slot, block };
        for (expected, page) in [(&[][..], [1; PAGE]), (&[1; PAGE], [2; PAGE])] {
            assert_eq!(raw::slot_save(&mut image, PARTITION, slot, block, expected, &page), 0);
            assert_eq!(independent::save(&mut other, PARTITION, asked, expected, &page), 0);
            assert!(image == other);
            let mut read = [0; PAGE];
            assert_eq!(raw::slot_read(&image, PARTITION, slot, block, &mut read), 0);
            assert_eq!(read, page);
        }
        let mut read = [0; PAGE];
        assert_eq!(raw::slot_read(&image, PARTITION, slot, 1 - block, &mut read), 7);
    }
}
