//! The typed calls on a partition.

use galtuyeg::flash::{self, Refusal, Report};

fn formatted(length: usize) -> Vec<u8> {
    let mut image = vec![0xff; length];
    image[..16].copy_from_slice(b"KATANA_FLASH____");
    image[16] = 2;
    image[17] = 0;
    image
}

#[test]
fn saves_are_found_again_after_an_erase() {
    let mut image = formatted(16_384);
    flash::save(&mut image, 2, 253, None, &[1; 60]).unwrap();
    flash::save(&mut image, 2, 0, None, &[2; 60]).unwrap();
    flash::save(&mut image, 2, 253, Some(&[1; 60]), &[3; 60]).unwrap();
    flash::erase(&mut image, 2).unwrap();
    assert_eq!(flash::read(&image, 2, 253), Ok([3; 60]));
    let numbers: Vec<u64> = flash::live_numbers(&image, 2).unwrap().collect();
    assert_eq!(numbers, [0, 253]);
    let report = Report { version: 0, capacity: 254, used: 2, live: 2 };
    assert_eq!(flash::report(&image, 2), Ok(report));
}

#[test]
fn each_refusal_has_its_number() {
    let mut image = formatted(65_536);
    assert_eq!(flash::check(&image[1..], 2), Err(Refusal::Length));
    assert_eq!(flash::report(&image, 3), Err(Refusal::PartitionNumber));
    let high = flash::read(&image, 2, 1_021);
    assert_eq!(high, Err(Refusal::LogicalNumber));
    assert_eq!(flash::read(&image, 2, 1_020), Err(Refusal::NothingThere));
    assert_eq!(flash::next_live(&image, 2, u64::MAX), Ok(None));
    let changed = flash::save(&mut image, 2, 0, Some(&[0; 60]), &[0; 60]);
    assert_eq!(changed, Err(Refusal::Changed));
    image[65_536 - 128] = 0xbf;
    assert_eq!(flash::erase(&mut image, 2), Err(Refusal::Sequence));
    image[17] = 2;
    assert_eq!(flash::check(&image, 2), Err(Refusal::Version));
    image[0] = 0;
    assert_eq!(flash::live_numbers(&image, 2).err(), Some(Refusal::Magic));
    assert!(Refusal::ALL.iter().map(|refusal| refusal.number()).eq((1..=9).chain(40..=43)));
    assert_eq!(Refusal::from_number(0), None);
    let text = "refused 7: nothing is there";
    assert_eq!(Refusal::NothingThere.to_string(), text);
}
