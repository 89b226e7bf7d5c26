//! Pools (02, Ticket 4): as long as the root's total, one byte shorter or longer,
//! none at all; of any length where there are no bodies. What they hold before
//! is random, so that every byte that is written shows.

use model::bytes::{byte, number32};
use model::edition::Version;

use crate::random::Random;

/// No total is larger.
const LONGEST: u32 = 64 * 1022;

/// A pool of the right length for an image: as long as the root's total where
/// there are bodies, else mostly none.
pub fn right(random: &mut Random, image: &[u8]) -> Vec<u8> {
    let length = if has_bodies(image) { total(image) } else { any_length(random, image) };
    random.bytes(length)
}

/// A pool for an image, at times of a wrong length.
pub fn lent(random: &mut Random, image: &[u8]) -> Vec<u8> {
    if has_bodies(image) && random.chance(8) {
        wrong(random, image)
    } else {
        right(random, image)
    }
}

/// A pool that an image with bodies does not take; of any length where there
/// are none.
pub fn wrong(random: &mut Random, image: &[u8]) -> Vec<u8> {
    let length = wrong_length(random, image);
    random.bytes(length)
}

/// A length near the right one, or far from it.
fn wrong_length(random: &mut Random, image: &[u8]) -> usize {
    let (total, of_slots) = (total(image), image.len().saturating_sub(16 + 64));
    let length = match random.below(7) {
        0 | 1 => total.saturating_sub(1),
        2 | 3 => total + 1,
        4 => 0,
        _ if of_slots != total => of_slots,
        _ => random.pick([total / 2, total + 64]),
    };
    if length == total {
        length + 1
    } else {
        length
    }
}

/// Any length, mostly 0, so that lines stay short.
fn any_length(random: &mut Random, image: &[u8]) -> usize {
    match random.below(8) {
        0 => random.range(1, 40) as usize,
        1 => total(image).min(1000) + random.below(2),
        _ => 0,
    }
}

/// Whether an image has bodies by its header, sound or not.
fn has_bodies(image: &[u8]) -> bool {
    u16::from(byte(image, 4)) == Version::Three.number()
}

/// The root's total, as an image has it where it can be one.
fn total(image: &[u8]) -> usize {
    number32(image, 16 + 12).min(LONGEST) as usize
}
