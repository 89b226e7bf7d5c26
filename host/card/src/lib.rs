//! The proved card, safe to use from Rust.
//!
//! [`Card`] owns its image and its pool and is what most programs want;
//! [`lent`] has the same five calls on buffers of the caller's, sound or not.
//! Everything that decides is the proved library; here bytes are handed to it,
//! and its numbers get names. No input makes a function of this crate panic.
//!
//! ```
//! use card::{Card, Kind, Rule, State};
//!
//! let mut card = Card::make(8, Kind::VERSION_1, 448, Rule::OPEN)?;
//! let select_root = [0x00, 0xA4, 0x00, 0x04, 0x02, 0x3F, 0x00, 0x00];
//! let reply = card.command(&select_root, &State::FULL)?;
//! assert_eq!(format!("{}: {}", reply.word, reply.word.meaning()), "9000: done");
//! assert_eq!(reply.data[..6], [0x62, 25, 0x82, 2, 0x38, 0x21]);
//! assert_eq!(card.report()?.room, 448);
//! # Ok::<(), Box<dyn std::error::Error>>(())
//! ```
//!
//! | what | where |
//! |---|---|
//! | a card that owns its image and its pool | [`Card`] |
//! | the calls on lent buffers | [`lent`] |
//! | the same with the library's bare numbers | [`ffi`] |
//! | what card it is, its root's rule | [`Kind`]; [`Rule`], [`Form`] |
//! | what the caller has authenticated | [`State`] |
//! | status words and their meaning | [`Word`] |
//! | what a security refusal lacks | [`Security`] |
//! | where the rule that decides on a file stands | [`Place`] |
//! | a word with all that came with it | [`Reply`] |
//! | what goes wrong | [`MakeError`], [`CommandError`], [`PlaceError`], [`Damaged`], [`RefusedParts`] |

#![deny(unsafe_code)]
#![warn(missing_docs)]
#![deny(
    clippy::indexing_slicing,
    clippy::unwrap_used,
    clippy::expect_used,
    clippy::panic,
    clippy::unreachable
)]

use std::ops::Range;

mod errors;
#[allow(unsafe_code)]
pub mod ffi;
mod kind;
pub mod lent;
mod owned;
mod place;
mod security;
mod state;
mod word;

pub use errors::{CommandError, Damaged, MakeError, PlaceError, RefusedParts};
pub use kind::{Form, Kind, Rule, REFERENCE_BYTES};
pub use lent::{Answer, Report};
pub use owned::{Card, Reply};
pub use place::Place;
pub use security::Security;
pub use state::State;
pub use word::Word;

/// Bytes of an image before its first record.
pub const HEADER_BYTES: usize = 16;
/// Bytes of a record, which is what a file itself takes of its directory.
pub const RECORD_BYTES: usize = 64;
/// Fewest slots of a card.
pub const FEWEST_SLOTS: usize = 2;
/// Most slots of a card.
pub const MOST_SLOTS: usize = 1023;
/// The most bytes of data that a command answers: a READ with Le 00. A template
/// has at most 67.
pub const LONGEST_RESPONSE: usize = 256;

/// The length of the image of a card with so many slots.
pub const fn image_length(slots: usize) -> usize {
    RECORD_BYTES.saturating_mul(slots).saturating_add(HEADER_BYTES)
}

/// The largest total that the root of a card with so many slots may have; 0
/// where there is no such card.
pub fn largest_total(slots: usize) -> u32 {
    if !(FEWEST_SLOTS..=MOST_SLOTS).contains(&slots) {
        return 0;
    }
    u32::try_from(RECORD_BYTES * (slots - 1)).unwrap_or(0)
}

/// Where the root's total stands in an image, 32 bits.
const ROOT_TOTAL_AT: Range<usize> = HEADER_BYTES + 12..HEADER_BYTES + 16;

/// How long the pool of an image must be: as long as the root's total. Nothing
/// where there are no bodies and a pool of any length does, and nothing where no
/// sound image has this total.
pub fn pool_length(image: &[u8]) -> Option<usize> {
    let bytes = image.get(ROOT_TOTAL_AT)?.try_into().ok()?;
    let total = u32::from_be_bytes(bytes);
    let known = Kind::of_image(image).has_bodies() && total <= largest_total(MOST_SLOTS);
    usize::try_from(total).ok().filter(|_| known)
}
