//! What calls on a card bring: starts, names, and files to be written.

use independent::card::NewFile;
use inputs::card::{Listed, Name, BLOCK, USER};
use inputs::Prng;

/// A directory entry to begin a list with.
pub fn any_from(prng: &mut Prng) -> u64 {
    match prng.below(6) {
        0 => prng.pick(&[206, 207, 208, 209, 255, 256, 1 << 16, 1 << 32, u64::MAX]),
        1 => prng.draw() >> prng.below(64),
        _ => prng.below(208) as u64,
    }
}

/// Few letters, so that names are alike but for a byte.
pub fn any_name(prng: &mut Prng) -> Name {
    std::array::from_fn(|_| prng.pick(b"AAAAAB_\0"))
}

/// One of the files, or one that there is not.
pub fn any_file(prng: &mut Prng, files: &[Listed]) -> Listed {
    match files.len() {
        0 => Listed { name: any_name(prng), size: 1 },
        count => files[prng.below(count)],
    }
}

/// A file's name, now and then a byte off, all off, or of another length.
pub fn nearly(prng: &mut Prng, name: Name) -> Vec<u8> {
    let mut name = name.to_vec();
    match prng.below(12) {
        0 => prng.flip_bit(&mut name),
        1 => prng.fill(&mut name),
        2 => name.resize(prng.pick(&[0, 1, 11, 13, 24]), b'A'),
        _ => {}
    }
    name
}

/// A copy flag: all values are met, and those that a test may take for others often.
pub fn any_flag(prng: &mut Prng) -> u8 {
    prng.pick_or_byte(&[0x00, 0x00, 0x01, 0x7f, 0x80, 0xfe, 0xff, 0xff])
}

/// A file that is to be written.
pub struct Draft {
    name: Vec<u8>,
    flag: u8,
    time: Vec<u8>,
    offset: u64,
    data: Vec<u8>,
}

impl Draft {
    /// A proper file, or now and then one that is refused for one reason or for two.
    pub fn any(prng: &mut Prng, name: Name, size: usize) -> Draft {
        let mut draft = Draft {
            name: name.to_vec(),
            flag: any_flag(prng),
            time: prng.array::<8>().to_vec(),
            offset: prng.below(size) as u64,
            data: vec![0; BLOCK * size],
        };
        prng.fill(&mut draft.data);
        let reasons = prng.pick(&[0, 0, 0, 0, 0, 0, 1, 2]);
        for _ in 0..reasons {
            draft.spoil(prng, size);
        }
        draft
    }

    pub fn file(&self) -> NewFile<'_> {
        let Draft { name, flag, time, offset, data } = self;
        NewFile { name, flag: *flag, time, offset: *offset, data }
    }

    fn spoil(&mut self, prng: &mut Prng, size: usize) {
        match prng.below(4) {
            0 => self.name.resize(prng.pick(&[0, 1, 11, 13, 24]), b'A'),
            1 => self.time.resize(prng.pick(&[0, 1, 7, 9, 16]), 0),
            2 => self.data.resize(any_length(prng, size), 0),
            _ => self.offset = any_offset(prng, size as u64),
        }
    }
}

/// Not whole blocks, none, or too many; so many that a size of one byte would hide it too.
fn any_length(prng: &mut Prng, size: usize) -> usize {
    let most = BLOCK * usize::from(USER);
    let edges = [0, 1, BLOCK - 1, BLOCK + 1, most - 1, most, most + 1, most + BLOCK];
    match prng.below(4) {
        0 => BLOCK * size - 1,
        1 => BLOCK * size + 1,
        2 => BLOCK * (size + 256),
        _ => prng.pick(&edges),
    }
}

/// At the size, and what is below it again once cut to fewer bits.
fn any_offset(prng: &mut Prng, size: u64) -> u64 {
    let below = prng.draw() % size;
    match prng.below(3) {
        0 => prng.pick(&[size - 1, size, size + 1, 0xffff, 0x1_0000, u64::MAX]),
        1 => below + prng.pick(&[1 << 8, 1 << 16, 1 << 32, 1 << 63]),
        _ => prng.draw() >> prng.below(64),
    }
}
