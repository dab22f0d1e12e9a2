//! The plain implementations' answers as the C interface gives them.

use galtuyeg::raw::{self, CardVerdict};
use independent::card::{Entry, Place, Refusal};
use independent::flash;

/// An answer of the plain implementations.
pub trait Answer {
    /// What the C interface answers to the same call.
    type Raw: PartialEq;

    /// 0 for done, else the refusal's number.
    fn number(&self) -> u32;

    fn raw(self) -> Self::Raw;
}

impl Answer for u32 {
    type Raw = u32;

    fn number(&self) -> u32 {
        *self
    }

    fn raw(self) -> u32 {
        self
    }
}

/// A checksum, which is never refused.
impl Answer for u16 {
    type Raw = u16;

    fn number(&self) -> u32 {
        0
    }

    fn raw(self) -> u16 {
        self
    }
}

impl Answer for Result<flash::Report, u32> {
    type Raw = raw::Report;

    fn number(&self) -> u32 {
        self.err().unwrap_or(0)
    }

    fn raw(self) -> raw::Report {
        match self {
            Ok(flash::Report { version, capacity, used, live }) => {
                raw::Report { code: 0, version: version.into(), capacity, used, live }
            }
            Err(number) => no_report(number),
        }
    }
}

impl Answer for Result<u64, u32> {
    type Raw = raw::NextLive;

    fn number(&self) -> u32 {
        self.err().unwrap_or(0)
    }

    fn raw(self) -> raw::NextLive {
        match self {
            Ok(number) => raw::NextLive { code: 0, number },
            Err(number) => no_live(number),
        }
    }
}

/// A slot, which the C interface tells apart from a live number.
pub struct SlotAnswer(pub Result<u64, u32>);

impl Answer for SlotAnswer {
    type Raw = raw::Slot;

    fn number(&self) -> u32 {
        self.0.number()
    }

    fn raw(self) -> raw::Slot {
        match self.0 {
            Ok(slot) => raw::Slot { code: 0, slot },
            Err(number) => no_slot(number),
        }
    }
}

impl Answer for Result<u64, Refusal> {
    type Raw = raw::CardChecked;

    fn number(&self) -> u32 {
        self.map_or_else(|refusal| refusal.number, |_| 0)
    }

    fn raw(self) -> raw::CardChecked {
        self.map_or_else(|refusal| checked(verdict(refusal), 0), |orphans| checked(DONE, orphans))
    }
}

impl Answer for Result<(), Refusal> {
    type Raw = CardVerdict;

    fn number(&self) -> u32 {
        self.map_or_else(|refusal| refusal.number, |()| 0)
    }

    fn raw(self) -> CardVerdict {
        self.map_or_else(verdict, |()| DONE)
    }
}

impl Answer for Result<Entry, Refusal> {
    type Raw = raw::CardEntry;

    fn number(&self) -> u32 {
        self.map_or_else(|refusal| refusal.number, |_| 0)
    }

    fn raw(self) -> raw::CardEntry {
        match self {
            Ok(entry) => raw::CardEntry {
                entry: entry.entry,
                kind: entry.kind.into(),
                flag: entry.flag.into(),
                copy_protected: entry.is_copy_protected.into(),
                first: entry.first,
                size: entry.size,
                offset: entry.offset,
                name: entry.name,
                time: entry.time,
                ..no_entry(DONE)
            },
            Err(refusal) => no_entry(verdict(refusal)),
        }
    }
}

fn verdict(refusal: Refusal) -> CardVerdict {
    let (place_kind, place) = match refusal.place {
        Place::Whole => (0, 0),
        Place::Block(block) => (1, block),
        Place::Entry(entry) => (2, entry),
    };
    CardVerdict { code: refusal.number.into(), place_kind, place }
}

/// What stands for no refusal.
pub const DONE: CardVerdict = CardVerdict { code: 0, place_kind: 0, place: 0 };

/// What stands beside a refusal's number.
pub fn no_report(number: u32) -> raw::Report {
    raw::Report { code: number.into(), version: 0, capacity: 0, used: 0, live: 0 }
}

/// What stands beside a refusal's number.
pub fn no_live(number: u32) -> raw::NextLive {
    raw::NextLive { code: number.into(), number: 0 }
}

/// What stands beside a refusal's number.
pub fn no_slot(number: u32) -> raw::Slot {
    raw::Slot { code: number.into(), slot: 0 }
}

pub fn checked(verdict: CardVerdict, orphans: u64) -> raw::CardChecked {
    let CardVerdict { code, place_kind, place } = verdict;
    raw::CardChecked { code, place_kind, place, orphans }
}

/// What stands beside a refusal.
pub fn no_entry(verdict: CardVerdict) -> raw::CardEntry {
    let CardVerdict { code, place_kind, place } = verdict;
    raw::CardEntry {
        code,
        place_kind,
        place,
        entry: 0,
        kind: 0,
        flag: 0,
        copy_protected: 0,
        first: 0,
        size: 0,
        offset: 0,
        name: [0; 12],
        time: [0; 8],
    }
}
