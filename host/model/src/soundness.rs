//! Soundness: 01, "Image", the paragraph after the table; 02, Ticket 4 (bodies).
//! The layout's part (mark, version, length, padding, zero bytes) is checked by
//! decoding. No pool is asked for: where bodies lie, the records say.

use std::collections::BTreeSet;

use crate::card::{largest_total, Card, RESERVED_IDENTIFIERS, ROOT, ROOT_IDENTIFIER};
use crate::descriptor::{class, measures_fit, Class};
use crate::record::{Kind, Record};
use crate::{bodies, life_cycle, rule};

/// Whether an image is sound.
pub fn sound(image: &[u8]) -> bool {
    sound_card(image).is_some()
}

/// The decoded card, if the image is sound.
pub fn sound_card(image: &[u8]) -> Option<Card> {
    Card::decode(image).filter(card_is_sound)
}

/// Whether a decoded card is sound.
pub fn card_is_sound(card: &Card) -> bool {
    root_is_good(card)
        && card.used_slots().all(|slot| fields_are_good(card, card.record(slot)))
        && card.used_slots().all(|slot| place_is_good(card, slot))
        && siblings_differ(card)
        && names_differ(card)
        && card.used_slots().all(|slot| children_fit(card, slot))
        && bodies::lie_apart(card)
        && current_files_are_good(card)
}

/// Slot 0 is a DF, 3F00, parent 0, level 0, total 1 to 64 (N - 1).
fn root_is_good(card: &Card) -> bool {
    let root = card.record(ROOT);
    root.is_df()
        && root.identifier == ROOT_IDENTIFIER
        && root.parent == 0
        && root.level == 0
        && (1..=largest_total(card.records.len())).contains(&u64::from(root.size))
}

/// What holds for every used record by itself: kind agrees with descriptor;
/// life cycle, rule, size and record length obey their sections; an EF has
/// no name, a DF no body.
fn fields_are_good(card: &Card, record: &Record) -> bool {
    let descriptor_class = class(record.descriptor);
    let kind_agrees = match descriptor_class {
        Class::Df => record.kind == Kind::Df,
        Class::Ef(_) => record.kind == Kind::Ef,
        Class::Neither => false,
    };
    kind_agrees
        && life_cycle::known(record.life_cycle)
        && rule::fit(card.edition, record.form, &record.rule)
        && measures_fit(descriptor_class, record.size, record.record_length)
        && (record.is_df() || record.name.is_empty())
        && (record.is_ef() || record.start == 0)
}

/// What holds for every used record but the root: its parent is a DF with
/// level one less; its identifier is not reserved and differs from every
/// directory's above it.
fn place_is_good(card: &Card, slot: usize) -> bool {
    if slot == ROOT {
        return true;
    }
    let record = card.record(slot);
    let parent = card.record(card.parent(slot));
    parent.is_df()
        && u32::from(parent.level) + 1 == u32::from(record.level)
        && !RESERVED_IDENTIFIERS.contains(&record.identifier)
        && card.above(slot).into_iter().all(|df| card.record(df).identifier != record.identifier)
}

/// No two children of one directory have one identifier. The root is
/// nobody's sibling.
fn siblings_differ(card: &Card) -> bool {
    let mut seen = BTreeSet::new();
    card.used_slots()
        .filter(|&slot| slot != ROOT)
        .map(|slot| card.record(slot))
        .all(|record| seen.insert((record.parent, record.identifier)))
}

/// No two names on the card are equal, in length and bytes.
fn names_differ(card: &Card) -> bool {
    let mut seen = BTreeSet::new();
    card.used_slots()
        .map(|slot| &card.record(slot).name)
        .filter(|name| !name.is_empty())
        .all(|name| seen.insert(name))
}

/// For a DF, the sum over direct children of (size + 64) is at most its
/// total.
fn children_fit(card: &Card, slot: usize) -> bool {
    let record = card.record(slot);
    !record.is_df() || card.charged(slot) <= u64::from(record.size)
}

/// The current DF slot holds a DF; the current EF, if any, is its child EF.
fn current_files_are_good(card: &Card) -> bool {
    let ef_is_good = match card.current_ef {
        None => true,
        Some(ef) => card.record(ef).is_ef() && card.parent(ef) == card.current_df,
    };
    card.record(card.current_df).is_df() && ef_is_good
}
