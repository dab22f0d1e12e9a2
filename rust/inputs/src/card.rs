//! Card images, byte by byte.

pub const CARD: usize = 131_072;
pub const BLOCK: usize = 512;
pub const ROOT: usize = 255 * BLOCK;
pub const TABLE: usize = 254 * BLOCK;
pub const USER: u16 = 200;
pub const ENTRIES: usize = 208;
pub const FREE: u16 = 0xfffc;
pub const DAMAGED: u16 = 0xffff;
pub const LAST: u16 = 0xfffa;
pub const DATA: u8 = 0x33;
pub const GAME: u8 = 0xcc;

/// The root's tested fields and their values.
pub const ROOT_FIELDS: [(usize, u16); 5] =
    [(0x46, 254), (0x48, 1), (0x4a, 253), (0x4c, 13), (0x50, USER)];

pub type Name = [u8; 12];

pub struct File {
    pub entry: usize,
    pub kind: u8,
    pub name: Name,
    pub blocks: Vec<u16>,
}

/// A file's name and how many blocks it has.
#[derive(Clone, Copy)]
pub struct Listed {
    pub name: Name,
    pub size: usize,
}

/// A card's image, and its files in the order of their making.
pub struct Card {
    pub bytes: Vec<u8>,
    pub files: Vec<File>,
}

impl Card {
    /// No files and no block in use. The bytes, of a card's length, stay as they are elsewhere.
    pub fn formatted(bytes: Vec<u8>) -> Card {
        let mut card = Card { bytes, files: Vec::new() };
        card.bytes[ROOT..ROOT + 16].fill(0x55);
        for (at, value) in ROOT_FIELDS {
            put(&mut card.bytes, ROOT + at, value);
        }
        for block in 0..=255 {
            let link = match block {
                241 | 254 | 255 => LAST,
                242..=253 => block - 1,
                _ => FREE,
            };
            card.set_link(block, link);
        }
        for entry in 0..ENTRIES {
            card.entry_mut(entry)[0] = 0;
        }
        card
    }

    /// Links the file's blocks and fills its entry but for flag, time and offset.
    pub fn add(&mut self, file: File) {
        self.chain(&file.blocks);
        let entry = self.entry_mut(file.entry);
        entry[0] = file.kind;
        put(entry, 0x02, file.blocks[0]);
        entry[0x04..0x10].copy_from_slice(&file.name);
        put(entry, 0x18, file.blocks.len() as u16);
        self.files.push(file);
    }

    /// What is known of the files, whatever became of the bytes.
    pub fn listed(&self) -> Vec<Listed> {
        let listed = |file: &File| Listed { name: file.name, size: file.blocks.len() };
        self.files.iter().map(listed).collect()
    }

    /// Links the blocks into one chain.
    pub fn chain(&mut self, blocks: &[u16]) {
        let nexts = blocks.iter().skip(1).copied().chain([LAST]);
        for (&block, next) in blocks.iter().zip(nexts) {
            self.set_link(block, next);
        }
    }

    pub fn set_link(&mut self, block: u16, link: u16) {
        put(&mut self.bytes, TABLE + 2 * usize::from(block), link);
    }

    pub fn entry_mut(&mut self, entry: usize) -> &mut [u8] {
        &mut self.bytes[entry_at(entry)..][..32]
    }
}

/// The files of a sound card.
pub fn listed(bytes: &[u8]) -> Vec<Listed> {
    let used = (0..ENTRIES).filter(|&entry| bytes[entry_at(entry)] != 0);
    let size = |entry| get(bytes, entry_at(entry) + 0x18).into();
    used.map(|entry| Listed { name: name_at(bytes, entry), size: size(entry) }).collect()
}

/// The name in an entry, used or not.
pub fn name_at(bytes: &[u8], entry: usize) -> Name {
    std::array::from_fn(|at| bytes[entry_at(entry) + 0x04 + at])
}

/// How many user blocks of a card are free.
pub fn count_free(bytes: &[u8]) -> usize {
    let links = (0..USER.into()).map(|block| get(bytes, TABLE + 2 * block));
    links.filter(|&link| link == FREE).count()
}

fn entry_at(entry: usize) -> usize {
    (253 - entry / 16) * BLOCK + 32 * (entry % 16)
}

fn get(bytes: &[u8], at: usize) -> u16 {
    u16::from_le_bytes([bytes[at], bytes[at + 1]])
}

pub fn put(bytes: &mut [u8], at: usize, value: u16) {
    bytes[at..at + 2].copy_from_slice(&value.to_le_bytes());
}

#[cfg(test)]
mod tests {
    use super::*;

    #[test]
    fn what_is_added_is_listed() {
        let mut card = Card::formatted(vec![0; CARD]);
        let name = *b"SETTINGS.DAT";
        card.add(File { entry: 207, kind: DATA, name, blocks: vec![199, 7] });
        assert_eq!(independent::card::check(&card.bytes), Ok(0));
        let found = independent::card::list(&card.bytes, 0).unwrap();
        assert_eq!((found.entry, found.kind, found.name), (207, DATA, name));
        assert_eq!((found.first, found.size), (199, 2));
        for listed in [listed(&card.bytes), card.listed()] {
            assert!(matches!(listed[..], [Listed { size: 2, name: own }] if own == name));
        }
        assert_eq!(count_free(&card.bytes), 198);
    }
}
