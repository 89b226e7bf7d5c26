//! Bodies in the pool: 02, Ticket 4. A body is the part of the pool that an EF's
//! start and size tell; the pool is as long as the root's total. A gap is a run
//! of bytes in no body, the one above the last body included.

use std::ops::Range;

use crate::card::{Card, ROOT};
use crate::record::Record;

/// What a new body holds, and what a byte holds that belonged to a body.
const NEW: u8 = 0xFF;
const VACATED: u8 = 0x00;

/// How long the pool must be; nothing on a card without bodies, which leaves a
/// pool of any length alone.
pub fn pool_length(card: &Card) -> Option<usize> {
    card.edition.has_bodies().then(|| whole(card.record(ROOT).size))
}

/// Whether a file has a body: an EF has, on a card with bodies.
pub fn has_body(card: &Card, file: &Record) -> bool {
    card.edition.has_bodies() && file.is_ef()
}

/// The place of an EF's body.
pub fn body(file: &Record) -> Range<usize> {
    let start = usize::from(file.start);
    start..start.saturating_add(whole(file.size))
}

/// The slots of all files with a body, in the order of their bodies.
pub fn in_order(card: &Card) -> Vec<usize> {
    let with_body = |slot: &usize| has_body(card, card.record(*slot));
    let mut slots: Vec<usize> = card.used_slots().filter(with_body).collect();
    slots.sort_by_key(|&slot| card.record(slot).start);
    slots
}

/// Whether all bodies lie in the pool, apart.
pub fn lie_apart(card: &Card) -> bool {
    let mut free_from = 0;
    let one_behind_the_other = in_order(card).into_iter().all(|slot| {
        let body = body(card.record(slot));
        let behind = body.start >= free_from;
        free_from = body.end;
        behind
    });
    one_behind_the_other && free_from <= whole(card.record(ROOT).size)
}

/// Makes room for a new body of this size, fills it, and gives its start: in
/// the lowest gap that fits, else above all bodies, which are moved down first.
/// It is for a size that the directory can pay; all that is paid, bodies and
/// 64 a file, is no more than the pool holds.
pub fn place(card: &mut Card, pool: &mut [u8], size: u32) -> u16 {
    let size = whole(size);
    let start = lowest_gap(card, pool.len(), size).unwrap_or_else(|| pack(card, pool));
    fill(pool, start..start.saturating_add(size), NEW);
    start_number(start)
}

/// The start of the lowest gap that holds so many bytes.
fn lowest_gap(card: &Card, pool_length: usize, size: usize) -> Option<usize> {
    let mut free_from = 0;
    for slot in in_order(card) {
        let body = body(card.record(slot));
        if body.start.saturating_sub(free_from) >= size {
            return Some(free_from);
        }
        free_from = body.end;
    }
    (pool_length.saturating_sub(free_from) >= size).then_some(free_from)
}

/// Moves all bodies down, in order, until there is no gap below any; gives the
/// end of the last. The bytes that they leave are wiped, other free bytes are
/// not.
fn pack(card: &mut Card, pool: &mut [u8]) -> usize {
    let before = pool.to_vec();
    let slots = in_order(card);
    for &slot in &slots {
        wipe(card.record(slot), pool);
    }
    let mut free_from: usize = 0;
    for slot in slots {
        let old = body(card.record(slot));
        let new = free_from..free_from.saturating_add(old.len());
        if let (Some(from), Some(to)) = (before.get(old), pool.get_mut(new.clone())) {
            to.copy_from_slice(from);
        }
        card.set_start(slot, start_number(new.start));
        free_from = new.end;
    }
    free_from
}

/// Wipes the body of an EF that is there no longer.
pub fn wipe(file: &Record, pool: &mut [u8]) {
    fill(pool, body(file), VACATED);
}

fn fill(pool: &mut [u8], place: Range<usize>, byte: u8) {
    if let Some(part) = pool.get_mut(place) {
        part.fill(byte);
    }
}

/// A size as a length in memory.
fn whole(size: u32) -> usize {
    usize::try_from(size).unwrap_or(usize::MAX)
}

/// A start as it stands in a record. A pool has at most 65,408 bytes, so
/// nothing is lost.
fn start_number(start: usize) -> u16 {
    u16::try_from(start).unwrap_or(u16::MAX)
}
