//! The calls as they are: the numbers and buffers that the wrapper hands on, and shared slices that
//! overlap.

use galtuyeg::raw::{self, CardChecked, CardEntry, CardVerdict, NextLive, Report, Slot};
use inputs::card::{Card, CARD};

/// A formatted partition 3: header, and a bitmap of free blocks.
fn formatted() -> Vec<u8> {
    let mut image = vec![0xff; 32_768];
    image[..16].copy_from_slice(b"KATANA_FLASH____");
    image[16] = 3;
    image[17] = 1;
    image
}

#[test]
fn the_library_has_the_interface_that_is_declared() {
    assert_eq!(raw::version(), raw::VERSION);
}

#[test]
fn a_page_saved_is_read_and_reported() {
    let mut image = formatted();
    assert_eq!(raw::flash_check(&image, 3), 0);
    assert_eq!(raw::flash_save(&mut image, 3, 24, &[], &[1; 60]), 0);
    assert_eq!(raw::flash_save(&mut image, 3, 24, &[1; 60], &[2; 60]), 0);
    let mut page = [0; 60];
    assert_eq!(raw::flash_read(&image, 3, 24, &mut page), 0);
    assert_eq!(page, [2; 60]);
    let report = raw::flash_report(&image, 3);
    let expected = Report { code: 0, version: 1, capacity: 510, used: 2, live: 1 };
    assert_eq!(report, expected);
    let next = raw::flash_next_live(&image, 3, 3);
    assert_eq!(next, NextLive { code: 0, number: 24 });
    assert_eq!(raw::flash_erase(&mut image, 3), 0);
    assert_eq!(raw::flash_report(&image, 3).used, 1);
}

#[test]
fn a_refusal_leaves_the_buffers_and_zeros() {
    let mut image = formatted();
    let mut page = [7; 60];
    assert_eq!(raw::flash_read(&image, 3, 510, &mut page), 6);
    assert_eq!(raw::flash_read(&image, 3, 24, &mut page[..59]), 8);
    assert_eq!(raw::flash_read(&image, 3, u64::MAX, &mut page), 6);
    assert_eq!(raw::flash_save(&mut image, 3, 24, &[1; 60], &page), 9);
    assert_eq!(raw::flash_erase(&mut image, 2), 3);
    assert_eq!(image, formatted());
    assert_eq!(page, [7; 60]);
    let next = raw::flash_next_live(&image, 3, u64::MAX);
    assert_eq!(next, NextLive { code: 7, number: 0 });
}

#[test]
fn empty_slices_are_refused_by_length() {
    assert_eq!(raw::flash_check(&[], 3), 1);
    assert_eq!(raw::flash_save(&mut [], 3, 0, &[], &[]), 1);
    assert_eq!(raw::slot_find(&[], 3, &[]), Slot { code: 1, slot: 0 });
    assert_eq!(raw::slot_claim(&mut [], 3, &[], &[]), Slot { code: 1, slot: 0 });
    assert_eq!(raw::slot_save(&mut [], 3, 0, 0, &[], &[]), 1);
    let checked = raw::card_check(&[]);
    let refused = CardChecked { code: 20, place_kind: 0, place: 0, orphans: 0 };
    assert_eq!(checked, refused);
    let CardEntry { code, name, .. } = raw::card_list(&[], u64::MAX);
    assert_eq!((code, name), (20, [0; 12]));
    let CardVerdict { code, .. } = raw::card_read(&[], &[], 0, &mut []);
    assert_eq!(code, 20);
    let refused = CardVerdict { code: 20, place_kind: 0, place: 0 };
    assert_eq!(raw::card_write(&mut [], &[], 0, &[], 0, &[]), refused);
    assert_eq!(raw::card_delete(&mut [], &[]), refused);
}

/// The blocks of a right header, made by `tests/vectors/slots.py`.
fn slot_header() -> ([u8; 60], [u8; 60]) {
    let (mut first, mut second) = ([b' '; 60], [b' '; 60]);
    first[..27].copy_from_slice(b"\x01\xffT-40502D01GALTUYEG SAMPLE");
    second[..8].copy_from_slice(b"SETTINGS");
    second[44..].copy_from_slice(b"\0\0\0\0\x12\x34\x56\x78\x31\x80\xff\xff\xff\xff\xff\xff");
    (first, second)
}

#[test]
fn a_slot_is_claimed_read_and_saved() {
    let mut image = formatted();
    let (first, second) = slot_header();
    let product = &first[2..12];
    let slot_0 = Slot { code: 0, slot: 0 };
    assert_eq!(raw::slot_list(&image, 3, 0), Slot { code: 7, slot: 0 });
    assert_eq!(raw::slot_claim(&mut image, 3, &second, &first), Slot { code: 41, slot: 0 });
    assert_eq!(image, formatted());
    assert_eq!(raw::slot_claim(&mut image, 3, &first, &second), slot_0);
    assert_eq!(raw::slot_find(&image, 3, product), slot_0);
    assert_eq!(raw::slot_list(&image, 3, 0), slot_0);
    assert_eq!(raw::slot_save(&mut image, 3, 0, 1, &[], &[5; 60]), 0);
    let mut page = [7; 60];
    assert_eq!(raw::slot_read(&image, 3, 0, 0, &mut page), 7);
    assert_eq!(page, [7; 60]);
    assert_eq!(raw::slot_read(&image, 3, 0, 1, &mut page), 0);
    assert_eq!(page, [5; 60]);

    let before = image.clone();
    assert_eq!(raw::slot_read(&image, 3, 1, 2, &mut page[..59]), 8);
    assert_eq!(raw::slot_read(&image, 3, 1, 2, &mut page), 42);
    assert_eq!(raw::slot_read(&image, 3, 0, 1 << 32, &mut page), 43);
    assert_eq!(raw::slot_save(&mut image, 3, 1 << 32, 0, &[], &page), 42);
    assert_eq!(raw::slot_save(&mut image, 3, 0, 2, &[], &page), 43);
    assert_eq!(raw::slot_save(&mut image, 3, 0, 1, &[], &page), 9);
    assert_eq!(raw::slot_claim(&mut image, 3, &first, &second[..59]).code, 8);
    assert_eq!(raw::slot_find(&image, 3, &product[..9]).code, 8);
    assert_eq!(raw::slot_find(&image, 2, &[]).code, 3);
    assert_eq!((image, page), (before, [5; 60]));
}

#[test]
fn a_card_is_written_and_refused_by_length() {
    let mut card = Card::formatted(vec![0; CARD]).bytes;
    let (name, time, data) = (&[b'A'; 13], &[0x20; 9], &[7; 1024]);
    let done = CardVerdict { code: 0, place_kind: 0, place: 0 };
    let written = raw::card_write(&mut card, &name[..12], 0xff, &time[..8], 1, data);
    assert_eq!(written, done);
    let mut block = [0; 512];
    assert_eq!(raw::card_read(&card, &name[..12], 1, &mut block), done);
    assert_eq!(block, [7; 512]);

    let before = card.clone();
    let refused = CardVerdict { code: 33, place_kind: 0, place: 0 };
    for (name_len, time_len, data_len) in
        [(11, 8, 512), (13, 8, 512), (12, 7, 512), (12, 9, 512), (12, 8, 0), (12, 8, 511)]
    {
        let (name, time, data) = (&name[..name_len], &time[..time_len], &data[..data_len]);
        assert_eq!(raw::card_write(&mut card, name, 0, time, 0, data), refused);
    }
    assert_eq!(raw::card_delete(&mut card, name), refused);
    let named = CardVerdict { code: 29, place_kind: 2, place: 0 };
    assert_eq!(raw::card_write(&mut card, &name[..12], 0, &time[..8], 0, data), named);
    assert!(card == before);
    assert_eq!(raw::card_delete(&mut card, &name[..12]), done);
    assert_eq!(raw::card_list(&card, 0).code, 31);
}

#[test]
fn shared_slices_may_overlap() {
    let mut image = formatted();
    let bytes: Vec<u8> = (0..=255).collect();
    assert_eq!(raw::flash_save(&mut image, 3, 0, &[], &bytes[..60]), 0);
    let saved = raw::flash_save(&mut image, 3, 0, &bytes[..60], &bytes[..60]);
    assert_eq!(saved, 0);
    let saved = raw::flash_save(&mut image, 3, 0, &bytes[..60], &bytes[30..90]);
    assert_eq!(saved, 0);
    let mut page = [0; 60];
    assert_eq!(raw::flash_read(&image, 3, 0, &mut page), 0);
    assert_eq!(page, bytes[30..90]);
    for long in [1, 59, 61, 62, 256] {
        let saved = raw::flash_save(&mut image, 3, 0, &bytes[..long], &bytes[..60]);
        assert_eq!(saved, 8);
    }
}

#[test]
fn name_time_and_data_may_overlap() {
    let mut card = Card::formatted(vec![0; CARD]).bytes;
    let bytes: Vec<u8> = (0..=255).chain(0..=255).collect();
    let written = raw::card_write(&mut card, &bytes[1..13], 0, &bytes[5..13], 0, &bytes);
    assert_eq!(written.code, 0);
    let CardEntry { name, time, .. } = raw::card_list(&card, 0);
    assert_eq!((&name[..], &time[..]), (&bytes[1..13], &bytes[5..13]));
    assert_eq!(card[199 * 512..][..512], bytes);
}
