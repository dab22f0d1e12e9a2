//! Sound partitions of the three lengths, more or less full, and the worst that they can hold.

use inputs::flash::{block_mut, Partition, Size, BLOCK, PAGE};
use inputs::Prng;

pub const NUMBER: u8 = 2;

/// What a partition holds, as the table calls it.
#[derive(Clone, Copy, PartialEq)]
pub enum Filling {
    /// One block, with a number from the middle.
    Sparse,
    /// Every second number live, in any order, and older copies of every eighth of these.
    HalfUsed,
    /// Every number live, in any order, and so every user block in use.
    Full,
    /// Every user block a copy of one number.
    Stale,
    /// Full, but a quarter of the blocks have a bit turned.
    Damaged,
}

impl Filling {
    pub fn name(self) -> &'static str {
        match self {
            Filling::Sparse => "sparse",
            Filling::HalfUsed => "half used",
            Filling::Full => "full",
            Filling::Stale => "copies of one number",
            Filling::Damaged => "full, a quarter damaged",
        }
    }

    /// The numbers of the used blocks.
    fn numbers(self, size: Size) -> Vec<u16> {
        let capacity = size.capacity() as u16;
        let mut numbers: Vec<u16> = match self {
            Filling::Sparse => vec![capacity / 2],
            Filling::HalfUsed => {
                let live = (0..capacity).step_by(2);
                live.clone().chain(live.step_by(8)).collect()
            }
            Filling::Full | Filling::Damaged => (0..capacity).collect(),
            Filling::Stale => vec![capacity / 2; capacity.into()],
        };
        Prng::new(1, 0).shuffle(&mut numbers);
        numbers
    }
}

pub struct Sample {
    pub filling: Filling,
    pub partition: Partition,
    /// The blocks that hold contents.
    holders: Vec<usize>,
}

impl Sample {
    pub fn new(filling: Filling, size: Size) -> Sample {
        let mut partition = Partition::formatted(size, NUMBER, 1);
        let mut prng = Prng::new(3, 0);
        let mut holders: Vec<usize> = Vec::new();
        let numbers = filling.numbers(size);
        for (at, &number) in numbers.iter().enumerate() {
            partition.append(number, &prng.array());
            let place = partition.used;
            if filling == Filling::Damaged && prng.one_in(4) {
                prng.flip_bit(&mut block_mut(&mut partition.bytes, place)[2..2 + PAGE]);
            } else if !numbers[at + 1..].contains(&number) {
                holders.push(place);
            }
        }
        Sample { filling, partition, holders }
    }

    pub fn kib(&self) -> usize {
        self.partition.size.length / 1024
    }

    /// The image with its lowest free block not FF, if it has one, so that a save compacts.
    pub fn spoilt(&self) -> Vec<u8> {
        let mut bytes = self.partition.bytes.clone();
        if self.has_room() {
            bytes[(self.partition.used + 1) * BLOCK] = 0;
        }
        bytes
    }

    pub fn has_room(&self) -> bool {
        self.partition.used < self.partition.size.capacity()
    }

    /// So many numbers with contents, spread evenly over their places, and their pages.
    pub fn spread(&self, count: usize) -> impl Iterator<Item = (u64, &[u8])> {
        let among = move |at| (2 * at + 1) * self.holders.len() / (2 * count);
        (0..count).map(move |at| self.block(self.holders[among(at)]))
    }

    fn block(&self, place: usize) -> (u64, &[u8]) {
        let block = &self.partition.bytes[place * BLOCK..][..BLOCK];
        (u16::from_le_bytes([block[0], block[1]]).into(), &block[2..2 + PAGE])
    }
}
