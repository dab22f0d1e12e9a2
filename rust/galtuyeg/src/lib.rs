//! Dreamcast system flash partitions, their game slots, and VMU memory cards, on images that the caller lends.
//!
//! A safe wrapper over a proved library. Any bytes may be handed in: every call ends, tests its own
//! input, and answers a refusal with the image and every other buffer as they came in.
//!
//! [`flash`], [`slots`] and [`card`] have the calls with Rust's types. [`raw`] has them as the library gives them,
//! for buffers of any length.
//!
//! ```
//! use galtuyeg::flash::{self, Refusal};
//!
//! // A partition as a formatter leaves it: the header, and FF for free blocks and their bitmap.
//! let mut image = vec![0xff; 32_768];
//! image[..16].copy_from_slice(b"KATANA_FLASH____");
//! image[16] = 3;
//! image[17] = 1;
//!
//! // Both benches see nothing at number 24. The first one to save is served, the other one told.
//! let (day, night) = ([1; 60], [2; 60]);
//! flash::save(&mut image, 3, 24, None, &day)?;
//! let late = flash::save(&mut image, 3, 24, None, &night);
//! assert_eq!(late, Err(Refusal::Changed));
//!
//! // It looks, and saves with what it saw.
//! let seen = flash::read(&image, 3, 24)?;
//! flash::save(&mut image, 3, 24, Some(&seen), &night)?;
//! assert_eq!(flash::read(&image, 3, 24)?, night);
//! # Ok::<(), Refusal>(())
//! ```
#![deny(missing_docs)]

pub mod card;
mod contract;
mod ffi;
pub mod flash;
pub mod raw;
pub mod slots;
