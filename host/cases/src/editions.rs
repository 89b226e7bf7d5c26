//! Versions of images: those that the model knows, and numbers that are none
//! (01, "Image"; 02, Tickets 3, 4 and 7).

use model::edition::{Edition, Version};
use model::Card;

use crate::random::Random;

/// The highest version of which cases are made. Lower it here to compare with
/// the model a card that knows only older ones.
pub const HIGHEST: Version = Version::Three;

/// The edition of the highest version.
pub const NEWEST: Edition = Edition::of(HIGHEST);

/// How often cases are of each version, the newer more often.
const SHARES: [(Version, usize); 3] = [(Version::One, 2), (Version::Two, 2), (Version::Three, 3)];

/// All versions of which cases are made.
pub fn all() -> Vec<Version> {
    Version::ALL.into_iter().filter(|version| is_made(*version)).collect()
}

fn is_made(version: Version) -> bool {
    version.number() <= HIGHEST.number()
}

/// Any edition.
pub fn any(random: &mut Random) -> Edition {
    let shares = SHARES.map(|(version, share)| (version, if is_made(version) { share } else { 0 }));
    random.weighted(&shares).map_or(Edition::BASE, Edition::of)
}

/// A number that the maker knows no version by: the neighbours of those that it
/// knows, and such as are one of those when bytes are left out.
pub fn unknown(random: &mut Random) -> u32 {
    random.pick([
        0,
        4,
        4,
        5,
        0x0100,
        0x0101,
        0x0103,
        0x0200,
        0x0300,
        0x0001_0001,
        0x0001_0003,
        0x0100_0000,
        0x8000_0002,
        u32::MAX,
    ])
}

/// A number that the header of a card must not have: of no version; more seldom
/// of another than the card's, which by its rules or bodies it cannot have.
pub fn wrong_for(random: &mut Random, card: &Card) -> u16 {
    let mut image = card.encode();
    let mut unsound_as = |number: &u16| {
        image.splice(3..5, number.to_be_bytes());
        !model::sound(&image)
    };
    let others = all().into_iter().map(Version::number);
    let others: Vec<_> = others.filter(|number| unsound_as(number)).collect();
    match random.choose(&others) {
        Some(&other) if random.chance(50) => other,
        _ => random.pick([0, 4, 5, 0x0100, 0x0101, 0x0103, 0x0200, 0x0300, 0xFFFF]),
    }
}

/// A number of a rule's form, known or not.
pub fn any_form(random: &mut Random) -> u32 {
    random.pick([0, 1, 2, 3, 3, 0x0100, 0x0101, 0x0001_0001, 0x0100_0000, u32::MAX])
}
