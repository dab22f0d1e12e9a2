//! Cards: sound ones with few or many files, and refused ones.

use inputs::card::{Card, File, CARD, DAMAGED, DATA, ENTRIES, GAME, LAST, USER};
use inputs::Prng;

const GAME_BLOCKS: u16 = 100;

/// A card and what it is called in the table.
pub struct Sample {
    pub name: String,
    /// What a check answers: 0, or the refusal's number.
    pub code: u32,
    /// The sizes of files that are written onto it, and deleted again.
    pub writes: &'static [usize],
    pub card: Card,
}

impl Sample {
    pub fn empty() -> Sample {
        Sample { writes: &[1, 20, 200], ..Sample::named("empty") }
    }

    /// Every second block is free; the others are files', damaged or orphans.
    pub fn scattered() -> Sample {
        let mut made = Sample { writes: &[1, 20, 100], ..Sample::named("scattered") };
        let mut taken: Vec<u16> = (0..USER).step_by(2).collect();
        Prng::new(8, 0).shuffle(&mut taken);
        let (others, in_files) = taken.split_at(20);
        for (at, &block) in others.iter().enumerate() {
            made.card.set_link(block, [DAMAGED, LAST][at % 2]);
        }
        made.add_by_tens(in_files);
        made
    }

    pub fn of_short_files() -> Sample {
        let mut made = Sample::named("200 files of 1 block");
        for block in 0..USER {
            made.add(DATA, vec![block]);
        }
        made
    }

    /// Its blocks go down, as they do on a card that was empty.
    pub fn of_one_file() -> Sample {
        let mut made = Sample::named("1 file of 200 blocks");
        made.add(DATA, (0..USER).rev().collect());
        made
    }

    pub fn with_game() -> Sample {
        let mut made = Sample::named("a game and 10 shuffled files");
        made.add(GAME, (0..GAME_BLOCKS).collect());
        let mut rest: Vec<u16> = (GAME_BLOCKS..USER).collect();
        Prng::new(4, 0).shuffle(&mut rest);
        made.add_by_tens(&rest);
        made
    }

    pub fn cut() -> Sample {
        let mut made = Sample::with_game().refused(20, "one byte short");
        made.card.bytes.pop();
        made
    }

    pub fn with_wrong_link() -> Sample {
        let mut made = Sample::with_game().refused(25, "block 199");
        made.card.set_link(USER - 1, USER);
        made
    }

    pub fn with_shared_block() -> Sample {
        let mut made = Sample::of_short_files().refused(28, "file 201 has file 200's block");
        made.add(DATA, vec![USER - 1]);
        made
    }

    /// The longest walks that a card can ask for.
    pub fn with_all_shared() -> Sample {
        let mut made = Sample::of_one_file().refused(28, "208 files share 200 blocks");
        for _ in 1..ENTRIES {
            made.add(DATA, (0..USER).rev().collect());
        }
        made
    }

    pub fn with_same_name() -> Sample {
        let mut made = Sample::of_short_files().refused(29, "file 200 is named as file 1");
        let card = &mut made.card;
        let (first, last) = (card.files[0].name, card.files.len() - 1);
        card.entry_mut(last)[0x04..0x10].copy_from_slice(&first);
        made
    }

    pub fn with_stirred_game() -> Sample {
        let mut made = Sample::with_game().refused(30, "the game's last blocks swapped");
        let mut blocks: Vec<u16> = (0..GAME_BLOCKS).collect();
        blocks.swap(usize::from(GAME_BLOCKS) - 2, usize::from(GAME_BLOCKS) - 1);
        made.card.chain(&blocks);
        made
    }

    fn named(name: &str) -> Sample {
        let card = Card::formatted(vec![0; CARD]);
        Sample { name: name.into(), code: 0, writes: &[], card }
    }

    fn refused(self, code: u32, why: &str) -> Sample {
        Sample { name: format!("refused {code}: {why}"), code, ..self }
    }

    /// Files of ten blocks each.
    fn add_by_tens(&mut self, blocks: &[u16]) {
        for blocks in blocks.chunks(10) {
            self.add(DATA, blocks.to_vec());
        }
    }

    /// A file at the next entry. Names are alike but for the count.
    fn add(&mut self, kind: u8, blocks: Vec<u16>) {
        let entry = self.card.files.len();
        let mut name = *b"SAVE_000.DAT";
        name[5..8].copy_from_slice(format!("{entry:03}").as_bytes());
        self.card.add(File { entry, kind, name, blocks });
    }
}

#[cfg(test)]
mod tests {
    use super::*;
    use inputs::card::count_free;

    #[test]
    fn every_second_block_of_a_scattered_card_is_free() {
        let card = Sample::scattered().card;
        assert_eq!(independent::card::check(&card.bytes), Ok(10));
        assert_eq!(count_free(&card.bytes), 100);
        assert_eq!((card.files.len(), card.files[7].blocks.len()), (8, 10));
    }
}
