//! Cards of version 3: their bodies lie apart in the pool, in the reverse order of
//! their slots, with gaps too small for a body of 200 bytes, for which they must
//! all be moved.

use cases::worst::{df, MOST_SLOTS};
use cases::Lent;
use model::edition::{Edition, Version};
use model::{bodies, Card, Kind, Record};

use crate::shapes::Shape;
use crate::work::Task;

/// The largest body of a card of many, and of the one that CREATE makes: as many
/// bytes as are read and written.
pub const BYTES: u32 = 200;
/// What a file costs its directory beside its size.
pub const FILE_COST: u32 = 64;
/// What the pool holds outside all bodies.
const FREE: u8 = 0xA5;

/// The cards of a size.
pub fn shapes(slots: usize) -> Vec<Shape> {
    let shape = |title, card: Card| Shape {
        title,
        start: with_pool(&card),
        wanted: None,
        tasks: &Task::BODIED,
        own: None,
    };
    vec![
        shape("version 3: 900 files, 800 with bodies", many(slots)),
        shape("version 3: few large bodies", large(slots)),
    ]
}

/// The same files on a card of version 2, where they have no bodies.
pub fn without_bodies(start: &Lent) -> Option<Lent> {
    let mut card = Card::decode(&start.image).filter(|card| card.edition.has_bodies())?;
    card.edition = Edition::of(Version::Two);
    card.records.iter_mut().for_each(|record| record.start = 0);
    Some(Lent { image: card.encode(), pool: Vec::new() })
}

fn with_pool(card: &Card) -> Lent {
    let mut pool = vec![FREE; bodies::pool_length(card).unwrap_or(0)];
    for (number, slot) in bodies::in_order(card).into_iter().enumerate() {
        let body = pool.get_mut(bodies::body(card.record(slot)));
        body.into_iter().for_each(|body| body.fill(number as u8));
    }
    Lent { image: card.encode(), pool }
}

/// A root and nothing else.
pub fn empty(slots: usize) -> Card {
    let records = vec![Record::FREE; slots];
    let edition = Edition::of(Version::Three);
    let mut card = Card { edition, current_df: 0, current_ef: None, records };
    card.put(0, df(0x3F00, 64 * (slots as u32).saturating_sub(1)));
    card
}

/// Adds a file in the lowest free slot, and gives that.
pub fn add(card: &mut Card, parent: usize, file: Record) -> usize {
    let slot = card.lowest_free_slot().unwrap_or(0);
    let level = card.record(parent).level + 1;
    card.put(slot, Record { parent: parent as u16, level, ..file });
    slot
}

fn add_ef(card: &mut Card, parent: usize, identifier: u16, size: u32) {
    let file = Record { kind: Kind::Ef, descriptor: 0x41, ..df(identifier, size) };
    add(card, parent, file);
}

/// The size of an EF: 1 to 15 bytes, 8 on average; the last one's is the largest.
fn size(number: usize, files: usize) -> u32 {
    if number + 1 == files {
        BYTES
    } else {
        1 + number as u32 % 15
    }
}

/// Of 1,023 slots 40 directories with 20 EFs each, in turn, and 60 empty ones; of
/// fewer slots as many in proportion, if there is room. The last EF's directory,
/// which is current, has just room for another of its size.
fn many(slots: usize) -> Card {
    let share = |of_the_largest: usize| (of_the_largest * slots / MOST_SLOTS).max(1);
    let (full, others) = (share(40), share(60));
    let cost = |files: usize| {
        let sizes: u32 = (0..files).map(|number| size(number, files) + FILE_COST).sum();
        let directories = FILE_COST * (full + others) as u32 + others as u32;
        sizes + directories + BYTES + FILE_COST
    };
    let mut card = empty(slots);
    let total = card.record(0).size;
    let files = (1..=share(800)).rev().find(|&files| cost(files) <= total).unwrap_or(1);
    let last = (files - 1) % full;
    let totals = (0..full).map(|directory| {
        let held = (directory..files).step_by(full).map(|n| size(n, files) + FILE_COST).sum();
        let more = if directory == last { BYTES + FILE_COST } else { 0 };
        u32::max(held, 1) + more
    });
    let totals: Vec<_> = totals.collect();
    let directories: Vec<_> = totals
        .into_iter()
        .zip(0x7F00..)
        .map(|(total, identifier)| add(&mut card, 0, df(identifier, total)))
        .collect();
    for number in 0..others {
        add(&mut card, 0, df(0x7000 + number as u16, 1));
    }
    for number in 0..files {
        let parent = directories.get(number % full).copied().unwrap_or(0);
        add_ef(&mut card, parent, 0x6000 + (number / full) as u16, size(number, files));
    }
    card.make_current(directories.get(last).copied().unwrap_or(0));
    apart(card)
}

/// Eight EFs in the root, on a small card two, as large as it can pay, with room
/// for one more.
fn large(slots: usize) -> Card {
    let mut card = empty(slots);
    let files = if slots < 64 { 2 } else { 8 };
    let taken = FILE_COST * (files + 1) + BYTES;
    let size = card.record(0).size.saturating_sub(taken) / files;
    (0..files).for_each(|number| add_ef(&mut card, 0, 0x6000 + number as u16, size));
    apart(card)
}

/// The card with its bodies in the reverse order of their slots, and as many free
/// bytes below each as above the last.
fn apart(mut card: Card) -> Card {
    let mut slots = bodies::in_order(&card);
    slots.sort_by_key(|&slot| std::cmp::Reverse(slot));
    let sizes: u32 = slots.iter().map(|&slot| card.record(slot).size).sum();
    let free = card.record(0).size.saturating_sub(sizes) as usize;
    let mut bodies_below = 0;
    let parts = slots.len() + 1;
    for (number, slot) in slots.into_iter().enumerate() {
        let start = free * (number + 1) / parts + bodies_below;
        card.set_start(slot, u16::try_from(start).unwrap_or(u16::MAX));
        bodies_below += card.record(slot).size as usize;
    }
    card
}

#[cfg(test)]
mod tests {
    use super::*;

    #[test]
    fn nine_hundred_files_of_which_eight_hundred_have_bodies() {
        let card = many(MOST_SLOTS);
        assert_eq!(card.used_slots().count(), 1 + 900);
        assert_eq!(bodies::in_order(&card).len(), 800);
        assert_eq!(card.room(card.current_df), u64::from(BYTES + FILE_COST));
    }

    /// No gap fits a new body, and each is there.
    #[test]
    fn every_body_has_a_small_gap_below() {
        for slots in [16, 128, 256, MOST_SLOTS] {
            for card in [many(slots), large(slots)] {
                let mut free_from = 0;
                for slot in bodies::in_order(&card) {
                    let body = bodies::body(card.record(slot));
                    let gap = body.start - free_from;
                    assert!((1..BYTES as usize).contains(&gap), "{slots}: {gap}");
                    free_from = body.end;
                }
                let above = bodies::pool_length(&card).expect("bodies") - free_from;
                assert!(above < BYTES as usize, "{slots}: {above}");
                assert!(model::sound(&card.encode()), "{slots}");
            }
        }
    }

    #[test]
    fn the_same_files_without_bodies_are_sound() {
        for shape in shapes(128) {
            let twin = without_bodies(&shape.start).expect("it has bodies");
            assert!(model::sound(&twin.image) && twin.pool.is_empty(), "{}", shape.title);
            assert_eq!(without_bodies(&twin), None);
        }
    }
}
