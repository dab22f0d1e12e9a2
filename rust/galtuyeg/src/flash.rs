//! System flash partitions: images of 16,384, 32,768 or 65,536 bytes.
//!
//! `partition` is always the number that the header must have. The contents of a logical number are the
//! 60 bytes of the highest allocated block with that number and a right checksum.

use std::error::Error;
use std::fmt;
use std::iter::FusedIterator;

use crate::contract::{broken, byte, word};
use crate::raw;

/// Bytes in a page, the contents of a logical number.
pub const PAGE_BYTES: usize = 60;

/// Why a call of this module or of [`slots`](crate::slots) was refused. The calls test in the order of the
/// numbers, save that 7, 9 and 40 come last.
#[derive(Clone, Copy, Debug, PartialEq, Eq, Hash)]
#[non_exhaustive]
pub enum Refusal {
    /// 1: the image's length isn't one of the three; of a slot's call, isn't 32,768.
    Length,
    /// 2: the header's 16 letters are wrong.
    Magic,
    /// 3: the header's partition number isn't the one named; of a slot's call, isn't 3.
    PartitionNumber,
    /// 4: the version is above 1.
    Version,
    /// 5: an allocated user block follows a free one.
    Sequence,
    /// 6: the logical number is above the partition's top one.
    LogicalNumber,
    /// 7: the number or the slot's data block has no contents.
    NothingThere,
    /// 8: a buffer of the wrong length. No typed function is refused so, since its types have the length;
    /// [`raw`]'s are.
    BufferLength,
    /// 9: the contents aren't what the writer last saw.
    Changed,
    /// 40: all hundred slots are valid, and none has the product number claimed.
    NoFreeSlot,
    /// 41: the header claimed wouldn't make a slot valid.
    SlotHeader,
    /// 42: the slot is above 99 or not valid.
    Slot,
    /// 43: the slot's data block is neither 0 nor 1. No typed function is refused so; [`raw`]'s are.
    DataBlock,
}

impl Refusal {
    /// All refusals, in the order of their numbers.
    pub const ALL: &'static [Refusal] = &[
        Refusal::Length,
        Refusal::Magic,
        Refusal::PartitionNumber,
        Refusal::Version,
        Refusal::Sequence,
        Refusal::LogicalNumber,
        Refusal::NothingThere,
        Refusal::BufferLength,
        Refusal::Changed,
        Refusal::NoFreeSlot,
        Refusal::SlotHeader,
        Refusal::Slot,
        Refusal::DataBlock,
    ];

    /// The paper's number, 1 to 9 or 40 to 43.
    pub fn number(self) -> u32 {
        match self {
            Refusal::Length => 1,
            Refusal::Magic => 2,
            Refusal::PartitionNumber => 3,
            Refusal::Version => 4,
            Refusal::Sequence => 5,
            Refusal::LogicalNumber => 6,
            Refusal::NothingThere => 7,
            Refusal::BufferLength => 8,
            Refusal::Changed => 9,
            Refusal::NoFreeSlot => 40,
            Refusal::SlotHeader => 41,
            Refusal::Slot => 42,
            Refusal::DataBlock => 43,
        }
    }

    /// The refusal of this number, if there is one.
    pub fn from_number(number: u32) -> Option<Refusal> {
        Refusal::ALL.iter().copied().find(|refusal| refusal.number() == number)
    }
}

impl fmt::Display for Refusal {
    fn fmt(&self, f: &mut fmt::Formatter<'_>) -> fmt::Result {
        let text = match self {
            Refusal::Length => {
                "the image is not 16,384, 32,768 or 65,536 bytes long, or for slots not 32,768"
            }
            Refusal::Magic => "the header's letters are wrong",
            Refusal::PartitionNumber => {
                "the header has another partition number, or for slots it is not 3"
            }
            Refusal::Version => "the version is above 1",
            Refusal::Sequence => "an allocated block follows a free one",
            Refusal::LogicalNumber => "the logical number is too high",
            Refusal::NothingThere => "nothing is there",
            Refusal::BufferLength => "a buffer has the wrong length",
            Refusal::Changed => "the contents are not what the writer last saw",
            Refusal::NoFreeSlot => "all slots are taken by other product numbers",
            Refusal::SlotHeader => "the header would not make a slot valid",
            Refusal::Slot => "the slot is above 99 or not valid",
            Refusal::DataBlock => "the data block is neither 0 nor 1",
        };
        write!(f, "refused {}: {text}", self.number())
    }
}

impl Error for Refusal {}

/// What a partition holds.
#[derive(Clone, Copy, Debug, PartialEq, Eq, Hash)]
pub struct Report {
    /// The header's version, 0 or 1.
    pub version: u8,
    /// User blocks. Logical numbers run from 0 to one below.
    pub capacity: u16,
    /// Allocated user blocks.
    pub used: u16,
    /// Logical numbers with contents.
    pub live: u16,
}

/// Whether the image is a sound partition of this number.
///
/// # Errors
/// [`Refusal`] 1 to 5.
pub fn check(image: &[u8], partition: u8) -> Result<(), Refusal> {
    answered(raw::flash_check(image, partition).into())
}

/// Version, capacity, used and live.
///
/// # Errors
/// [`Refusal`] 1 to 5.
pub fn report(image: &[u8], partition: u8) -> Result<Report, Refusal> {
    let report = raw::flash_report(image, partition);
    answered(report.code)?;
    Ok(Report {
        version: byte("the version", report.version),
        capacity: word("the capacity", report.capacity),
        used: word("a number of used blocks", report.used),
        live: word("a number of live blocks", report.live),
    })
}

/// The lowest live number not below `from`, which may be any number; `None` where there is none.
///
/// # Errors
/// [`Refusal`] 1 to 5.
pub fn next_live(image: &[u8], partition: u8, from: u64) -> Result<Option<u64>, Refusal> {
    let next = raw::flash_next_live(image, partition, from);
    match answered(next.code) {
        Ok(()) => Ok(Some(next.number)),
        Err(Refusal::NothingThere) => Ok(None),
        Err(refusal) => Err(refusal),
    }
}

/// All live numbers, rising. Each one takes a [`next_live`], which looks at every used block.
///
/// # Errors
/// [`Refusal`] 1 to 5.
pub fn live_numbers(image: &[u8], partition: u8) -> Result<LiveNumbers<'_>, Refusal> {
    check(image, partition)?;
    Ok(LiveNumbers { image, partition, from: 0 })
}

/// The live numbers of a sound partition, rising; [`live_numbers`] gives it.
#[derive(Clone, Debug)]
pub struct LiveNumbers<'a> {
    image: &'a [u8],
    partition: u8,
    from: u64,
}

impl Iterator for LiveNumbers<'_> {
    type Item = u64;

    fn next(&mut self) -> Option<u64> {
        // No refusal is met: the partition is sound, and borrowed since.
        let number = next_live(self.image, self.partition, self.from).ok()??;
        self.from = number.saturating_add(1);
        Some(number)
    }
}

impl FusedIterator for LiveNumbers<'_> {}

/// The contents of a number.
///
/// # Errors
/// [`Refusal`] 1 to 7.
pub fn read(image: &[u8], partition: u8, number: u64) -> Result<[u8; PAGE_BYTES], Refusal> {
    let mut page = [0; PAGE_BYTES];
    answered(raw::flash_read(image, partition, number, &mut page).into())?;
    Ok(page)
}

/// Saves a page as the contents of a number, if these are still `expected`, what the writer last saw
/// there: a page, or `None` for nothing. All other numbers keep their contents. A page that is there already
/// changes no byte.
///
/// # Errors
/// [`Refusal`] 1 to 6 and 9. The image is then as it was.
pub fn save(
    image: &mut [u8],
    partition: u8,
    number: u64,
    expected: Option<&[u8; PAGE_BYTES]>,
    page: &[u8; PAGE_BYTES],
) -> Result<(), Refusal> {
    let expected = expected.map_or(&[][..], |seen| &seen[..]);
    answered(raw::flash_save(image, partition, number, expected, page).into())
}

/// Compacts the partition: one block for each live number is kept, all others become free.
///
/// # Errors
/// [`Refusal`] 1 to 5. The image is then as it was.
pub fn erase(image: &mut [u8], partition: u8) -> Result<(), Refusal> {
    answered(raw::flash_erase(image, partition).into())
}

pub(crate) fn answered(code: u64) -> Result<(), Refusal> {
    if code == 0 {
        return Ok(());
    }
    let refusal = u32::try_from(code).ok().and_then(Refusal::from_number);
    Err(refusal.unwrap_or_else(|| broken("the number", code)))
}
