//! The typed calls on game slots.

use galtuyeg::flash::{self, Refusal};
use galtuyeg::slots::{self, DataBlock, HeaderFields, ProductNumber, SlotHeader};

/// A formatted partition 3.
fn formatted() -> Vec<u8> {
    let mut image = vec![0xff; 32_768];
    image[..16].copy_from_slice(b"KATANA_FLASH____");
    image[16] = 3;
    image[17] = 1;
    image
}

fn fields(product: ProductNumber) -> HeaderFields {
    let (mut software_name, mut file_name) = ([b' '; 48], [b' '; 44]);
    software_name[..15].copy_from_slice(b"GALTUYEG SAMPLE");
    file_name[..8].copy_from_slice(b"SETTINGS");
    let created = [0x12, 0x34, 0x56, 0x78];
    HeaderFields { product, software_name, file_name, unknown: [0; 4], created }
}

fn header(number: u8) -> SlotHeader {
    SlotHeader::new(&fields([b'T', b'-', b'4', b'0', b'5', b'0', b'2', b'D', b'0', number]))
}

/// Made by `tests/vectors/slots.py`.
#[test]
fn a_header_has_the_checksum_of_an_outside_program() {
    let made = header(b'1');
    assert_eq!(made.first[..16], *b"\x01\xffT-40502D01GALT");
    assert_eq!(made.second[..8], *b"SETTINGS");
    assert_eq!(made.second[48..], *b"\x12\x34\x56\x78\x31\x80\xff\xff\xff\xff\xff\xff");
    assert_eq!(made.product(), *b"T-40502D01");
    let bytes: Vec<u8> = made.first.into_iter().chain(made.second).collect();
    assert_eq!(SlotHeader::from_bytes(&bytes.try_into().unwrap()), made);
}

#[test]
fn slots_are_claimed_found_and_listed() {
    let mut image = formatted();
    assert_eq!(slots::find(&image, 3, &header(0).product()), Ok(None));
    for number in 0..100 {
        assert_eq!(slots::claim(&mut image, 3, &header(number)), Ok(number));
    }
    let before = image.clone();
    assert_eq!(slots::claim(&mut image, 3, &header(100)), Err(Refusal::NoFreeSlot));
    assert_eq!(slots::claim(&mut image, 3, &header(41)), Ok(41));
    assert!(image == before);
    assert_eq!(slots::find(&image, 3, &header(41).product()), Ok(Some(41)));
    assert_eq!(slots::find(&image, 3, &header(100).product()), Ok(None));
    assert!(slots::valid_slots(&image, 3).unwrap().eq(0..100));
    assert_eq!(slots::list(&image, 3, 99), Ok(Some(99)));
    assert_eq!(slots::list(&image, 3, 1 << 32), Ok(None));
    assert_eq!(flash::read(&image, 3, 24 + 4 * 41), Ok(header(41).first));
    assert_eq!(flash::read(&image, 3, 25 + 4 * 41), Ok(header(41).second));
}

#[test]
fn data_blocks_are_saved_with_what_was_seen() {
    let mut image = formatted();
    let slot = slots::claim(&mut image, 3, &header(7)).unwrap();
    for (block, number) in [(DataBlock::First, 26), (DataBlock::Second, 27)] {
        assert_eq!(slots::read(&image, 3, slot, block), Err(Refusal::NothingThere));
        let late = slots::save(&mut image, 3, slot, block, Some(&[0; 60]), &[1; 60]);
        assert_eq!(late, Err(Refusal::Changed));
        slots::save(&mut image, 3, slot, block, None, &[1; 60]).unwrap();
        slots::save(&mut image, 3, slot, block, Some(&[1; 60]), &[number; 60]).unwrap();
        assert_eq!(slots::read(&image, 3, slot, block), Ok([number; 60]));
        assert_eq!(flash::read(&image, 3, number.into()), Ok([number; 60]));
    }
    assert_eq!(slots::read(&image, 3, 1, DataBlock::First), Err(Refusal::Slot));
    let refused = slots::save(&mut image, 3, 255, DataBlock::First, None, &[1; 60]);
    assert_eq!(refused, Err(Refusal::Slot));
}

#[test]
fn only_a_right_header_of_partition_3_is_claimed() {
    let mut image = formatted();
    let mut wrong = header(1);
    wrong.second[51] ^= 1;
    assert_eq!(slots::claim(&mut image, 3, &wrong), Err(Refusal::SlotHeader));
    assert_eq!(slots::claim(&mut image, 2, &header(1)), Err(Refusal::PartitionNumber));
    image[16] = 2;
    assert_eq!(slots::valid_slots(&image, 2).err(), Some(Refusal::PartitionNumber));
    assert_eq!(slots::list(&image[..16_384], 2, 0), Err(Refusal::Length));
    let text = "refused 42: the slot is above 99 or not valid";
    assert_eq!(Refusal::Slot.to_string(), text);
}
