//! Choices among the files of a card at hand: children, directories above and
//! beside, identifiers taken and free.

use model::Card;

use crate::random::Random;

/// The identifier of a child of the current DF.
pub fn a_child(random: &mut Random, card: &Card) -> Option<u16> {
    let children: Vec<_> = card.children(card.current_df).collect();
    let slot = *random.choose(&children)?;
    Some(card.record(slot).identifier)
}

/// The identifier of the parent, more seldom of the current DF or the root.
pub fn upwards(random: &mut Random, card: &Card) -> u16 {
    let parent = card.parent(card.current_df);
    let slot = random.pick([parent, parent, parent, card.current_df, 0]);
    card.record(slot).identifier
}

/// The identifier of a DF beside the current one.
pub fn beside(random: &mut Random, card: &Card) -> Option<u16> {
    let siblings: Vec<_> = card
        .children(card.parent(card.current_df))
        .filter(|&slot| card.record(slot).is_df())
        .collect();
    let slot = *random.choose(&siblings)?;
    Some(card.record(slot).identifier)
}

/// An identifier of any file on the card, or one that looks like it.
pub fn some_identifier(random: &mut Random, card: &Card) -> u16 {
    let slot = random.below(card.records.len());
    match random.below(4) {
        0 => random.number16(),
        1 => random.pick([0x3FFF, 0x7FFF, 0xFFFF, 0x3F00, 0x0000]),
        _ => card.record(slot).identifier,
    }
}

/// A name on the card, now and then with a zero more.
pub fn a_name(random: &mut Random, card: &Card) -> Option<Vec<u8>> {
    let names: Vec<_> = card
        .records
        .iter()
        .filter(|record| !record.name.is_empty())
        .map(|record| record.name.clone())
        .collect();
    let mut name = random.choose(&names)?.clone();
    if name.len() < 16 && random.chance(20) {
        name.push(0);
    }
    Some(name)
}

/// Identifiers that a new child of a directory may not have.
pub fn taken_identifiers(card: &Card, df: usize) -> Vec<u16> {
    card.children(df)
        .chain([df])
        .chain(card.above(df))
        .map(|slot| card.record(slot).identifier)
        .collect()
}

/// An identifier that a new child of a directory may have; mostly from a
/// small store, so that identifiers come again in other directories.
pub fn free_identifier(random: &mut Random, card: &Card, df: usize) -> u16 {
    let taken = taken_identifiers(card, df);
    let fits = |identifier: &u16| {
        ![0x3FFF, 0x7FFF, 0xFFFF].contains(identifier) && !taken.contains(identifier)
    };
    let mut store = vec![0x6F07, 0x6F08, 0x7F10, 0x7F20, 0x2F06, 0x5F3A, 0x0000, 0xBFFF];
    store.extend((0..4).map(|_| random.number16()));
    store.rotate_left(random.below(8));
    let found = store.into_iter().find(fits);
    found.or_else(|| (0x6000..=0x6FFF).find(fits)).unwrap_or(0x6F07)
}
