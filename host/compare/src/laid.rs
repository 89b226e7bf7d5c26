//! Where the bodies of a smaller image lie, and the pool that goes with it (02,
//! Ticket 4). An image without bodies, and its pool, stay as they are.

use card::{pool_length, HEADER_BYTES, RECORD_BYTES};

/// Where a record tells its size and its start.
const SIZE: std::ops::Range<usize> = 12..16;
const START: std::ops::Range<usize> = 62..64;
const EF: u8 = 2;

/// Where bodies go that no longer fit.
#[derive(Clone, Copy, PartialEq, Eq, Debug)]
pub enum Laying {
    /// As high as they can, so that gaps below them stay.
    High,
    /// As far up the pool as before, in proportion.
    Scaled,
}

/// A body by its slot.
#[derive(Clone, Copy)]
struct Body {
    slot: usize,
    start: usize,
    size: usize,
}

impl Body {
    fn end(&self) -> usize {
        self.start.saturating_add(self.size)
    }
}

/// A smaller image with its bodies inside the pool that its root's total asks
/// for, or as far past its end as they were: where they all are, they stay.
/// Nothing where they cannot be.
pub fn laid(before: &[u8], smaller: Vec<u8>, laying: Laying) -> Option<Vec<u8>> {
    let (Some(old), Some(total)) = (pool_length(before), pool_length(&smaller)) else {
        return Some(smaller);
    };
    let over = bodies(before).iter().map(Body::end).max().unwrap_or(0).saturating_sub(old);
    let mut limit = total.saturating_add(over);
    let mut bodies = bodies(&smaller);
    if bodies.iter().all(|body| body.end() <= limit) {
        return Some(smaller);
    }
    if laying == Laying::Scaled {
        let mut free_from = 0;
        for body in &mut bodies {
            let scaled = body.start.saturating_mul(total).checked_div(old)?;
            body.start = scaled.max(free_from);
            free_from = body.end();
        }
    }
    let mut image = smaller;
    for body in bodies.iter().rev() {
        limit = body.start.min(limit.checked_sub(body.size)?);
        put_start(&mut image, body.slot, limit)?;
    }
    Some(image)
}

/// The pool for a smaller image: what a body held it holds, and a pool that was
/// too long or too short by some bytes is so again.
pub fn pool_for(before: &[u8], pool: &[u8], smaller: &[u8]) -> Vec<u8> {
    let (Some(was), Some(is)) = (pool_length(before), pool_length(smaller)) else {
        return pool.to_vec();
    };
    let mut fitted = pool.to_vec();
    fitted.resize(pool.len().saturating_add(is).saturating_sub(was), 0);
    for (old, new) in pairs(before, smaller) {
        let held = pool.get(old.start..old.start.saturating_add(old.size.min(new.size)));
        if let (Some(held), true) = (held, old.start != new.start) {
            let place = fitted.get_mut(new.start..new.start.saturating_add(held.len()));
            place.into_iter().for_each(|place| place.copy_from_slice(held));
        }
    }
    fitted
}

/// The bodies of two images that belong together: by their slots, or where
/// records were only moved, by their order.
fn pairs(before: &[u8], after: &[u8]) -> Vec<(Body, Body)> {
    let by_slot = |image| {
        let mut all = bodies(image);
        all.sort_by_key(|body| body.slot);
        all
    };
    let (old, new) = (by_slot(before), by_slot(after));
    if old.len() == new.len() {
        return old.into_iter().zip(new).collect();
    }
    let same = |body: &Body| new.iter().find(|other| other.slot == body.slot).copied();
    old.into_iter().filter_map(|body| same(&body).map(|other| (body, other))).collect()
}

/// The bodies of an image in the order of their starts.
fn bodies(image: &[u8]) -> Vec<Body> {
    let records = image.get(HEADER_BYTES..).unwrap_or_default().chunks_exact(RECORD_BYTES);
    let files = records.enumerate().filter(|(_, record)| record.first() == Some(&EF));
    let read = |(slot, record): (usize, &[u8])| {
        let start = record.get(START)?.try_into().map(u16::from_be_bytes).ok()?;
        let size = record.get(SIZE)?.try_into().map(u32::from_be_bytes).ok()?;
        Some(Body { slot, start: start.into(), size: usize::try_from(size).ok()? })
    };
    let mut all: Vec<Body> = files.filter_map(read).collect();
    all.sort_by_key(|body| body.start);
    all
}

fn put_start(image: &mut [u8], slot: usize, start: usize) -> Option<()> {
    let record = image.get_mut(HEADER_BYTES + RECORD_BYTES * slot..)?;
    record.get_mut(START)?.copy_from_slice(&u16::try_from(start).ok()?.to_be_bytes());
    Some(())
}
