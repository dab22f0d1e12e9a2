//! Two console storage formats, worked on in place in memory lent by the
//! caller: block-allocated system flash partitions and 128 KiB memory cards.
//!
//! Every call tests its own input. A refused call changes no byte.

pub mod card;
mod checksum;
pub mod flash;
pub mod slots;
