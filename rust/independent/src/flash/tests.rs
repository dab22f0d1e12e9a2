use super::*;

const LENGTHS: [usize; 3] = [16_384, 32_768, 65_536];

/// An empty partition, as a formatter leaves it.
fn formatted(length: usize, partition: u8, version: u8) -> Vec<u8> {
    let mut image = vec![0xFF; length];
    image[..16].copy_from_slice(b"KATANA_FLASH____");
    image[16] = partition;
    image[17] = version;
    image
}

fn capacity_of(image: &[u8]) -> usize {
    capacity(image.len()).unwrap()
}

fn bitmap(image: &mut [u8]) -> &mut [u8] {
    let at = (capacity_of(image) + 1) * 64;
    &mut image[at..]
}

fn set_allocated(image: &mut [u8], block: usize, allocated: bool) {
    let bit = 0x80 >> ((block - 1) % 8);
    let byte = &mut bitmap(image)[(block - 1) / 8];
    if allocated {
        *byte &= !bit;
    } else {
        *byte |= bit;
    }
}

/// Writes an allocated block with a right checksum.
fn put(image: &mut [u8], block: usize, number: u16, page: &[u8; 60]) {
    image[block * 64..][..64].copy_from_slice(&build_block(number, page));
    set_allocated(image, block, true);
}

fn contents(image: &[u8], number: u64) -> Option<[u8; 60]> {
    let mut page = [0xA5; 60];
    match read(image, image[16], number, &mut page) {
        0 => Some(page),
        7 => {
            assert_eq!(page, [0xA5; 60]);
            None
        }
        refusal => panic!("refused {refusal}"),
    }
}

/// The descriptions, word by word and without any care for speed.
mod model {
    pub fn crc(data: &[u8]) -> u16 {
        let mut n = 0xFFFFu32;
        for &byte in data {
            n ^= u32::from(byte) << 8;
            for _ in 0..8 {
                n = if n & 0x8000 != 0 {
                    (n << 1) ^ 4129
                } else {
                    n << 1
                };
            }
        }
        !n as u16
    }

    pub fn first_bitmap_block(image: &[u8]) -> usize {
        image.len() / 64 - image.len().div_ceil(32_768)
    }

    pub fn is_allocated(image: &[u8], k: usize) -> bool {
        let byte = image[first_bitmap_block(image) * 64 + (k - 1) / 8];
        byte & (128 >> ((k - 1) % 8)) == 0
    }

    pub fn holds(image: &[u8], k: usize, number: usize) -> bool {
        let block = &image[k * 64..][..64];
        is_allocated(image, k)
            && usize::from(block[0]) + 256 * usize::from(block[1]) == number
            && usize::from(block[62]) + 256 * usize::from(block[63])
                == usize::from(crc(&block[..62]))
    }

    /// The physical block with the contents of a logical one.
    pub fn place(image: &[u8], number: usize) -> Option<usize> {
        (1..first_bitmap_block(image))
            .filter(|&k| holds(image, k, number))
            .max()
    }

    pub fn compacted(image: &[u8], new: Option<(usize, &[u8])>) -> Vec<u8> {
        let m = first_bitmap_block(image);
        let mut kept: Vec<usize> = (0..m - 1)
            .filter(|&n| new.is_none_or(|(saved, _)| saved != n))
            .filter_map(|n| place(image, n))
            .collect();
        kept.sort();
        let mut out = vec![0xFF; image.len()];
        out[..64].copy_from_slice(&image[..64]);
        let mut next = 1;
        let mut push = |block: &[u8]| {
            out[next * 64..][..64].copy_from_slice(block);
            out[m * 64 + (next - 1) / 8] &= !(128 >> ((next - 1) % 8));
            next += 1;
        };
        for k in kept {
            push(&image[k * 64..][..64]);
        }
        if let Some((number, page)) = new {
            push(&block(number, page));
        }
        out
    }

    pub fn saved(image: &[u8], number: usize, page: &[u8]) -> Vec<u8> {
        let m = first_bitmap_block(image);
        let free = (1..m).find(|&k| !is_allocated(image, k));
        match free {
            Some(k) if image[k * 64..][..64].iter().all(|&byte| byte == 0xFF) => {
                let mut out = image.to_vec();
                out[k * 64..][..64].copy_from_slice(&block(number, page));
                out[m * 64 + (k - 1) / 8] &= !(128 >> ((k - 1) % 8));
                out
            }
            _ => compacted(image, Some((number, page))),
        }
    }

    fn block(number: usize, page: &[u8]) -> Vec<u8> {
        let mut block = (number as u16).to_le_bytes().to_vec();
        block.extend_from_slice(page);
        let sum = crc(&block);
        block.extend_from_slice(&sum.to_le_bytes());
        block
    }
}

struct Random(u64);

impl Random {
    fn next(&mut self) -> u64 {
        self.0 ^= self.0 << 13;
        self.0 ^= self.0 >> 7;
        self.0 ^= self.0 << 17;
        self.0 >> 11
    }

    fn below(&mut self, limit: usize) -> usize {
        (self.next() % limit as u64) as usize
    }

    fn page(&mut self) -> [u8; 60] {
        std::array::from_fn(|_| self.next() as u8)
    }
}

#[test]
fn samples_d_e_f_measures() {
    for (length, m) in [(16_384, 255), (32_768, 511), (65_536, 1022)] {
        let image = formatted(length, 2, 0);
        let layout = open(&image, 2).unwrap();
        assert_eq!(layout.first_bitmap_block(), m);
        assert_eq!(layout.capacity, m - 1);
        assert_eq!(layout.logical_number(m as u64 - 2), Ok(m as u16 - 2));
        assert_eq!(layout.logical_number(m as u64 - 1), Err(6));
    }
}

#[test]
fn samples_g_h_nine_allocated_blocks() {
    let mut image = formatted(32_768, 3, 1);
    for number in 0..9 {
        assert_eq!(save(&mut image, 3, number, &[], &[1; 60]), 0);
    }
    assert_eq!(bitmap(&mut image)[..3], [0x00, 0x7F, 0xFF]);
    assert_eq!(image[10 * 64..11 * 64], [0xFF; 64]);
    assert_eq!(save(&mut image, 3, 9, &[], &[2; 60]), 0);
    assert_eq!(image[10 * 64..11 * 64], build_block(9, &[2; 60]));

    let mut bits = [0xFF; 64];
    mark_allocated(&mut bits, 9);
    assert_eq!(bits[..2], [0x00, 0x7F]);
}

#[test]
fn sample_i_gap_in_the_bitmap() {
    for length in LENGTHS {
        let mut image = formatted(length, 3, 1);
        bitmap(&mut image)[0] = 0xBF;
        assert_eq!(check(&image, 3), 5);
        bitmap(&mut image)[0] = 0x7F;
        assert_eq!(check(&image, 3), 0);
    }
}

#[test]
fn every_gap_is_refused_and_no_bit_past_the_end() {
    for length in LENGTHS {
        let mut image = formatted(length, 9, 0);
        let capacity = capacity_of(&image);
        // The bits past the last user block are ignored.
        for block in capacity + 1..=bitmap(&mut image).len() * 8 {
            let bit = 0x80 >> ((block - 1) % 8);
            bitmap(&mut image)[(block - 1) / 8] &= !bit;
        }
        for used in 0..=capacity {
            if used > 0 {
                set_allocated(&mut image, used, true);
            }
            assert_eq!(open(&image, 9), Ok(Layout { capacity, used }));
            // One more allocated block beyond the first free one.
            for block in [
                used + 2,
                used + 3,
                used + 63,
                used + 65,
                used + 66,
                capacity,
            ] {
                if used + 1 < block && block <= capacity {
                    set_allocated(&mut image, block, true);
                    assert_eq!(check(&image, 9), 5, "{length} {used} {block}");
                    set_allocated(&mut image, block, false);
                }
            }
        }
    }
}

#[test]
fn lengths() {
    for length in [
        0, 1, 17, 63, 64, 16_320, 16_383, 16_385, 32_767, 32_769, 65_535, 65_537, 131_072,
    ] {
        let mut image = vec![0xFF; length];
        if length >= 18 {
            image = formatted(length, 2, 0);
        }
        let before = image.clone();
        assert_eq!(check(&image, 2), 1);
        assert_eq!(report(&image, 2), Err(1));
        assert_eq!(next_live(&image, 2, 0), Err(1));
        assert_eq!(read(&image, 2, u64::MAX, &mut []), 1);
        assert_eq!(save(&mut image, 2, u64::MAX, &[1], &[]), 1);
        assert_eq!(erase(&mut image, 2), 1);
        assert_eq!(image, before);
    }
    for length in LENGTHS {
        assert_eq!(check(&formatted(length, 2, 0), 2), 0);
    }
}

#[test]
fn header_tests_in_order() {
    let mut image = formatted(16_384, 7, 2);
    bitmap(&mut image)[0] = 0xBF;
    image[15] = b' ';
    assert_eq!(check(&image, 8), 2);
    image[15] = b'_';
    assert_eq!(check(&image, 8), 3);
    assert_eq!(check(&image, 7), 4);
    image[17] = 255;
    assert_eq!(check(&image, 7), 4);
    image[17] = 1;
    assert_eq!(check(&image, 7), 5);
    bitmap(&mut image)[0] = 0xFF;
    assert_eq!(check(&image, 7), 0);
    image[17] = 0;
    assert_eq!(check(&image, 7), 0);
    // The reserved bytes aren't tested.
    image[18..64].fill(0);
    assert_eq!(check(&image, 7), 0);
    for at in 0..16 {
        image[at] ^= 1;
        assert_eq!(check(&image, 7), 2);
        image[at] ^= 1;
    }
    for partition in 0..=255 {
        image[16] = partition;
        assert_eq!(check(&image, partition), 0);
        assert_eq!(check(&image, partition.wrapping_add(1)), 3);
    }
}

#[test]
fn version_is_reported() {
    for version in [0, 1] {
        let image = formatted(65_536, 4, version);
        let expected = Report {
            version,
            capacity: 1021,
            used: 0,
            live: 0,
        };
        assert_eq!(report(&image, 4), Ok(expected));
    }
}

#[test]
fn logical_numbers_and_buffers_in_order() {
    let mut image = formatted(32_768, 3, 1);
    assert_eq!(save(&mut image, 3, 509, &[], &[5; 60]), 0);
    let before = image.clone();
    for number in [510, 511, 512, 65_536, 65_536 + 509, u64::MAX] {
        assert_eq!(read(&image, 3, number, &mut [0; 59]), 6);
        assert_eq!(save(&mut image, 3, number, &[1], &[5; 60]), 6);
    }
    for length in [0, 1, 59, 61, 64] {
        let mut page = vec![0xA5; length];
        assert_eq!(read(&image, 3, 509, &mut page), 8);
        assert_eq!(read(&image, 3, 0, &mut page), 8);
        assert!(page.iter().all(|&byte| byte == 0xA5));
        assert_eq!(save(&mut image, 3, 509, &[5; 60], &page), 8);
        assert_eq!(save(&mut image, 3, 509, &[], &page), 8);
        if length > 0 {
            assert_eq!(save(&mut image, 3, 0, &page, &[5; 60]), 8);
        }
    }
    let mut page = [0xA5; 60];
    assert_eq!(read(&image, 3, 508, &mut page), 7);
    assert_eq!(page, [0xA5; 60]);
    assert_eq!(read(&image, 3, 509, &mut page), 0);
    assert_eq!(page, [5; 60]);
    assert_eq!(image, before);
}

#[test]
fn save_compares_with_the_expected_page() {
    let mut image = formatted(16_384, 2, 0);
    assert_eq!(save(&mut image, 2, 0, &[0; 60], &[1; 60]), 9);
    assert_eq!(save(&mut image, 2, 0, &[0xFF; 60], &[1; 60]), 9);
    assert_eq!(image, formatted(16_384, 2, 0));
    assert_eq!(save(&mut image, 2, 0, &[], &[1; 60]), 0);
    let before = image.clone();
    assert_eq!(save(&mut image, 2, 0, &[], &[2; 60]), 9);
    for at in [0, 30, 59] {
        let mut expected = [1; 60];
        expected[at] ^= 0x80;
        assert_eq!(save(&mut image, 2, 0, &expected, &[2; 60]), 9);
    }
    assert_eq!(image, before);
}

#[test]
fn the_bytes_already_there_change_nothing() {
    let mut image = formatted(16_384, 2, 0);
    for page in [[1; 60], [2; 60]] {
        let expected = contents(&image, 0);
        let expected = expected.as_ref().map_or(&[][..], |page| page);
        assert_eq!(save(&mut image, 2, 0, expected, &page), 0);
    }
    // With a block to append to, and with none, where another page compacts.
    for full in [false, true] {
        if full {
            image[3 * 64] = 0;
        }
        let before = image.clone();
        assert_eq!(save(&mut image, 2, 0, &[2; 60], &[2; 60]), 0);
        // It is refused as any other save is.
        assert_eq!(save(&mut image, 2, 0, &[1; 60], &[2; 60]), 9);
        assert_eq!(save(&mut image, 2, 0, &[], &[2; 60]), 9);
        assert_eq!(save(&mut image, 2, 254, &[2; 60], &[2; 60]), 6);
        assert_eq!(save(&mut image, 2, 0, &[2; 59], &[2; 59]), 8);
        assert_eq!(image, before);
    }
    assert_eq!(save(&mut image, 2, 0, &[2; 60], &[1; 60]), 0);
    assert_eq!(report(&image, 2).map(|r| (r.used, r.live)), Ok((1, 1)));
}

#[test]
fn an_old_page_is_saved_again_and_so_are_zeros_where_nothing_is() {
    let mut image = formatted(16_384, 2, 0);
    for (expected, page) in [(&[][..], [1; 60]), (&[1; 60], [2; 60]), (&[2; 60], [1; 60])] {
        assert_eq!(save(&mut image, 2, 0, expected, &page), 0);
    }
    assert_eq!(report(&image, 2).map(|r| (r.used, r.live)), Ok((3, 1)));
    for (number, byte) in [(1, 0), (2, 0xFF)] {
        assert_eq!(save(&mut image, 2, number, &[], &[byte; 60]), 0);
        assert_eq!(contents(&image, number), Some([byte; 60]));
    }
    assert_eq!(report(&image, 2).map(|r| (r.used, r.live)), Ok((5, 3)));
}

#[test]
fn the_highest_good_copy_counts() {
    let mut image = formatted(16_384, 2, 0);
    put(&mut image, 1, 7, &[1; 60]);
    put(&mut image, 2, 7, &[2; 60]);
    put(&mut image, 3, 7, &[3; 60]);
    put(&mut image, 4, 254, &[4; 60]);
    put(&mut image, 5, 0xFFFF, &[5; 60]);
    assert_eq!(contents(&image, 7), Some([3; 60]));
    image[3 * 64 + 63] ^= 1;
    assert_eq!(contents(&image, 7), Some([2; 60]));
    // A good copy in a free block isn't there.
    put(&mut image, 6, 7, &[6; 60]);
    set_allocated(&mut image, 6, false);
    assert_eq!(contents(&image, 7), Some([2; 60]));
    assert_eq!(report(&image, 2).map(|r| (r.used, r.live)), Ok((5, 1)));
    assert_eq!(next_live(&image, 2, 0), Ok(7));
    assert_eq!(next_live(&image, 2, 8), Err(7));
}

#[test]
fn next_live_takes_any_start() {
    let mut image = formatted(32_768, 3, 0);
    for from in [0, 509, 510, u64::MAX] {
        assert_eq!(next_live(&image, 3, from), Err(7));
    }
    for number in [400, 3, 509, 3, 90] {
        let expected = contents(&image, number);
        let expected = expected.as_ref().map_or(&[][..], |page| page);
        assert_eq!(save(&mut image.clone(), 3, number, expected, &[9; 60]), 0);
        assert_eq!(save(&mut image, 3, number, expected, &[9; 60]), 0);
    }
    for (from, next) in [(0, 3), (3, 3), (4, 90), (91, 400), (401, 509), (509, 509)] {
        assert_eq!(next_live(&image, 3, from), Ok(next));
    }
    for from in [510, 511, 65_536 + 3, u64::MAX] {
        assert_eq!(next_live(&image, 3, from), Err(7));
    }
}

#[test]
fn append_changes_one_block_and_one_bit() {
    for length in LENGTHS {
        let mut image = formatted(length, 4, 1);
        let capacity = capacity_of(&image);
        for used in 0..capacity {
            let page = [used as u8; 60];
            let mut expected = image.clone();
            put(&mut expected, used + 1, used as u16, &page);
            assert_eq!(save(&mut image, 4, used as u64, &[], &page), 0);
            assert!(image == expected, "{length} {used}");
        }
        let all = report(&image, 4).unwrap();
        assert_eq!((all.used, all.live), (capacity as u64, capacity as u64));
    }
}

#[test]
fn full_partition_takes_a_new_page() {
    for length in LENGTHS {
        let mut image = formatted(length, 3, 1);
        let capacity = capacity_of(&image);
        for number in 0..capacity {
            put(&mut image, number + 1, number as u16, &[number as u8; 60]);
        }
        // Bits past the end are set by a compaction.
        *bitmap(&mut image).last_mut().unwrap() = 0;
        let expected = model::compacted(&image, Some((200, &[0xEE; 60])));
        assert_eq!(save(&mut image, 3, 200, &[200; 60], &[0xEE; 60]), 0);
        assert!(image == expected);
        assert_eq!(image[capacity * 64..][..64], build_block(200, &[0xEE; 60]));
        assert_eq!(image[201 * 64..][..64], build_block(201, &[201; 60]));
        let after = report(&image, 3).unwrap();
        assert_eq!((after.used, after.live), (capacity as u64, capacity as u64));
    }
}

#[test]
fn full_partition_without_live_blocks_takes_a_page() {
    let mut image = formatted(16_384, 3, 1);
    for block in 1..=254 {
        set_allocated(&mut image, block, true);
    }
    assert_eq!(report(&image, 3).map(|r| (r.used, r.live)), Ok((254, 0)));
    assert_eq!(save(&mut image, 3, 253, &[], &[3; 60]), 0);
    let mut expected = formatted(16_384, 3, 1);
    put(&mut expected, 1, 253, &[3; 60]);
    assert!(image == expected);
}

#[test]
fn dirty_free_block_forces_a_compaction() {
    for at in [0, 31, 63] {
        let mut image = formatted(32_768, 3, 1);
        image[40] = 0x12;
        put(&mut image, 1, 5, &[1; 60]);
        put(&mut image, 2, 6, &[2; 60]);
        put(&mut image, 3, 5, &[3; 60]);
        let mut expected = image.clone();
        image[4 * 64 + at] = 0xFE;
        image[300 * 64] = 0;
        assert_eq!(save(&mut image, 3, 6, &[2; 60], &[4; 60]), 0);
        put(&mut expected, 1, 5, &[3; 60]);
        put(&mut expected, 2, 6, &[4; 60]);
        expected[3 * 64..4 * 64].fill(0xFF);
        set_allocated(&mut expected, 3, false);
        assert!(image == expected);
        // The next save finds an erased block again.
        assert_eq!(save(&mut image, 3, 6, &[4; 60], &[5; 60]), 0);
        assert_eq!(report(&image, 3).map(|r| r.used), Ok(3));
    }
}

#[test]
fn a_dirty_block_above_the_lowest_free_one_is_left_alone() {
    let mut image = formatted(32_768, 3, 1);
    image[2 * 64 + 5] = 0;
    let mut expected = image.clone();
    put(&mut expected, 1, 5, &[1; 60]);
    assert_eq!(save(&mut image, 3, 5, &[], &[1; 60]), 0);
    assert!(image == expected);
}

#[test]
fn erase_of_an_empty_partition() {
    for length in LENGTHS {
        let mut image = formatted(length, 0, 0);
        image[18] = 0;
        let mut expected = image.clone();
        assert_eq!(erase(&mut image, 0), 0);
        assert!(image == expected);
        // What lies in free blocks and past the end of the bitmap goes.
        image[64] = 0;
        *bitmap(&mut image).last_mut().unwrap() = 0xFC;
        assert_eq!(erase(&mut image, 0), 0);
        assert!(image == expected);
        // A dirty first block makes even the first save a compaction.
        image[64] = 0;
        put(&mut expected, 1, 9, &[9; 60]);
        assert_eq!(save(&mut image, 0, 9, &[], &[9; 60]), 0);
        assert!(image == expected);
    }
}

#[test]
fn erase_keeps_every_live_number() {
    let mut image = formatted(65_536, 4, 0);
    put(&mut image, 1, 5, &[1; 60]);
    put(&mut image, 2, 1020, &[2; 60]);
    put(&mut image, 3, 5, &[3; 60]);
    put(&mut image, 4, 1021, &[4; 60]);
    put(&mut image, 5, 0, &[5; 60]);
    put(&mut image, 6, 5, &[6; 60]);
    image[6 * 64 + 10] ^= 1;
    let mut expected = formatted(65_536, 4, 0);
    put(&mut expected, 1, 1020, &[2; 60]);
    put(&mut expected, 2, 5, &[3; 60]);
    put(&mut expected, 3, 0, &[5; 60]);
    assert_eq!(erase(&mut image, 4), 0);
    assert!(image == expected);
    assert_eq!(erase(&mut image, 4), 0);
    assert!(image == expected);
    assert_eq!(erase(&mut image, 3), 3);
    assert!(image == expected);
}

#[test]
fn sample_report() {
    let mut image = formatted(32_768, 3, 1);
    assert_eq!(save(&mut image, 3, 24, &[], &[1; 60]), 0);
    assert_eq!(save(&mut image, 3, 24, &[1; 60], &[2; 60]), 0);
    let expected = Report {
        version: 1,
        capacity: 510,
        used: 2,
        live: 1,
    };
    assert_eq!(report(&image, 3), Ok(expected));
    assert_eq!(next_live(&image, 3, 0), Ok(24));
    assert_eq!(next_live(&image, 3, 25), Err(7));
}

/// A sound image full of stale copies, bad checksums, numbers out of range
/// and dirty free blocks.
fn scrambled(random: &mut Random, length: usize) -> Vec<u8> {
    let mut image = formatted(length, 3, random.below(2) as u8);
    let capacity = capacity_of(&image);
    let used = random.below(capacity + 1);
    let numbers = 1 + random.below(capacity + 20);
    for block in 1..=used {
        let number = random.below(numbers) as u16;
        put(&mut image, block, number, &random.page());
        if random.below(5) == 0 {
            image[block * 64 + random.below(64)] ^= 1 << random.below(8);
        }
    }
    if random.below(2) == 0 && used < capacity {
        image[(used + 1) * 64 + random.below(64)] = 0;
    }
    image
}

#[test]
fn agrees_with_the_model_on_scrambled_images() {
    let mut random = Random(0x1234_5678_9ABC_DEF1);
    for round in 0..24 {
        let image = scrambled(&mut random, LENGTHS[round % 3]);
        let capacity = capacity_of(&image);
        let places: Vec<_> = (0..capacity).map(|n| model::place(&image, n)).collect();
        let live = places.iter().flatten().count() as u64;
        let used = (1..=capacity)
            .filter(|&k| model::is_allocated(&image, k))
            .count() as u64;
        assert_eq!(
            report(&image, 3).map(|r| (r.used, r.live)),
            Ok((used, live))
        );
        for number in 0..capacity {
            let page = places[number].map(|k| image[k * 64 + 2..k * 64 + 62].to_vec());
            assert_eq!(contents(&image, number as u64).map(Vec::from), page);
            let next = (number..capacity).find(|&n| places[n].is_some());
            let next = next.map(|n| n as u64).ok_or(7);
            assert_eq!(next_live(&image, 3, number as u64), next);
        }
        let mut erased = image.clone();
        assert_eq!(erase(&mut erased, 3), 0);
        assert!(erased == model::compacted(&image, None));
        for _ in 0..4 {
            let number = random.below(capacity);
            let expected = contents(&image, number as u64);
            let expected = expected.as_ref().map_or(&[][..], |page| page);
            let page = random.page();
            let mut saved = image.clone();
            assert_eq!(save(&mut saved, 3, number as u64, expected, &page), 0);
            assert!(saved == model::saved(&image, number, &page));
        }
    }
}

/// Any list of calls gives what a plain array of pages gives.
#[test]
fn runs_agree_with_an_array_of_pages() {
    let mut random = Random(0x0FED_CBA9_8765_4321);
    for round in 0..6 {
        let mut image = scrambled(&mut random, LENGTHS[round % 3]);
        let capacity = capacity_of(&image);
        let mut pages: Vec<_> = (0..capacity).map(|n| contents(&image, n as u64)).collect();
        for _ in 0..2_000 {
            let limit = [capacity, 40, 40][random.below(3)];
            let number = random.below(limit);
            let before = image.clone();
            match random.below(8) {
                0 => assert_eq!(contents(&image, number as u64), pages[number]),
                1 => assert_eq!(save(&mut image, 4, number as u64, &[], &[0; 60]), 3),
                2 => {
                    let expected = random.page();
                    assert_eq!(save(&mut image, 3, number as u64, &expected, &[0; 60]), 9);
                    assert!(image == before);
                }
                3 if random.below(20) == 0 => assert_eq!(erase(&mut image, 3), 0),
                _ => {
                    let page = random.page();
                    let expected = pages[number].replace(page);
                    let expected = expected.as_ref().map_or(&[][..], |page| page);
                    assert_eq!(save(&mut image, 3, number as u64, expected, &page), 0);
                }
            }
            assert_eq!(check(&image, 3), 0);
        }
        for (number, page) in pages.iter().enumerate() {
            assert_eq!(contents(&image, number as u64), *page);
        }
    }
}

/// Any bytes at all may be handed in.
#[test]
fn refusals_change_nothing() {
    let mut random = Random(0x5555_1234_AAAA_4321);
    for round in 0..300 {
        let mut image: Vec<u8> = match round % 2 {
            0 => (0..LENGTHS[round / 2 % 3])
                .map(|_| random.next() as u8)
                .collect(),
            _ => scrambled(&mut random, LENGTHS[round / 2 % 3]),
        };
        if round % 4 != 0 {
            image[..17].copy_from_slice(b"KATANA_FLASH____\x03");
        }
        let before = image.clone();
        let mut page = vec![0x77; 58 + random.below(4)];
        let expected = vec![0x77; [0, 1, 59, 60, 61][random.below(5)]];
        let number = random.next() >> random.below(64);
        if read(&image, 3, number, &mut page) != 0 {
            assert!(page.iter().all(|&byte| byte == 0x77));
        }
        if save(&mut image, 3, number, &expected, &page) != 0 {
            assert!(image == before);
        }
        let sound = check(&image, 3);
        assert_eq!(report(&image, 3).err().unwrap_or(0), sound);
        let before = image.clone();
        assert_eq!(erase(&mut image, 3), sound);
        if sound != 0 {
            assert!(image == before);
        }
    }
}
