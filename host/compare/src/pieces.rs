//! The pieces of a line of the vectors that may be left out or made plain, and
//! what counts as smaller.

use model::lines::Case as Line;
use model::State;

use crate::laid::{laid, pool_for, Laying};
use crate::parts::{bytes_of, image_of, pool_of, response_of};
use crate::parts::{
    with_bytes, with_bytes_of_image, with_pool, with_response, with_slot, with_state,
};
use crate::records::{changed, changes_of, owned, Change};
use crate::smaller::{cut, freed, lifted, packed, rank, short_records, slots_of, tightened};

/// The room that tightening leaves: none, or enough that a CREATE can still
/// succeed.
const ROOMS: [u32; 4] = [0, 128, 512, 4096];

/// What counts as smaller: fewer bytes, then more plain ones among them, then a
/// plainer state, or a lower slot.
pub fn weight(line: &Line) -> (usize, usize, usize) {
    let image = image_of(line).unwrap_or(&[]);
    let bytes = bytes_of(line);
    let plain = |at: usize| u8::from(at == 9 || at == 10) * 0xFF;
    let marked = image.iter().enumerate().filter(|&(at, &byte)| byte != plain(at)).count();
    let (response, pool) = (response_of(line), pool_of(line));
    let others = bytes.iter().chain(response).chain(pool);
    let marked = marked + others.filter(|&&byte| byte != 0).count();
    let state = match line {
        Line::Command { state, .. } if *state == State::FULL => 0,
        Line::Command { state, .. } if *state == State::EMPTY => 1,
        Line::Command { state, .. } if state.channels == 0 => 2,
        Line::Deciding { slot, .. } => *slot,
        _ => 3,
    };
    (image.len() + bytes.len() + response.len() + pool.len(), marked, state)
}

/// A piece of a line that may be left out or made plain.
#[derive(Clone, Copy)]
pub enum Piece {
    /// Only so many slots.
    Slots(usize),
    /// Records from a slot on, so many, freed.
    Free(usize, usize),
    /// The same, and what lies beneath them moves up to the nearest directory
    /// that is left.
    Lift(usize, usize),
    /// Free records left out but for so many at the end.
    Pack(usize),
    /// Sizes no larger than they must be, with so much room left in the
    /// current directory, and the slots that the root's total then needs.
    Tighten(u32, Laying),
    /// The same, with records of one byte.
    TightenRecords(u32, Laying),
    /// Records in which rules are kept, smaller or plainer.
    Records(usize, Change),
    /// References from a slot on, of so many records, become open rules.
    Own(usize, usize),
    /// Another slot that is asked for.
    Slot(usize),
    /// One byte of the image zero.
    ImageByte(usize),
    /// Bytes of the command, rule or input from a place on left out.
    Remove(usize, usize),
    /// One byte of them zero.
    Byte(usize),
    /// A SELECT that wants no data instead of one that does.
    Data,
    /// So many bytes at the end of the response buffer.
    Response(usize),
    /// One byte of it zero.
    ResponseByte(usize),
    /// So many bytes at the end of the pool.
    Pool(usize),
    /// Bytes of it from a place on, so many, zero.
    PoolBytes(usize, usize),
    /// Another state.
    State(State),
}

/// All pieces of a line, the largest first.
pub fn pieces_of(line: &Line) -> Vec<Piece> {
    let image = image_of(line).unwrap_or(&[]);
    let slots = slots_of(image);
    let bytes = bytes_of(line).len();
    let mut all = vec![Piece::State(State::FULL), Piece::State(State::EMPTY)];
    all.extend(halves(slots).map(|fewer| Piece::Slots((slots - fewer).max(2))));
    // Packing and tightening are tried after each width, so that the narrower
    // ones have a shorter image to work on.
    for width in halves(slots) {
        all.extend((1..slots).rev().step_by(width).map(|slot| Piece::Free(slot, width)));
        all.extend((1..slots).rev().step_by(width).map(|slot| Piece::Lift(slot, width)));
        all.extend([0, 1, width].map(Piece::Pack));
        for laying in [Laying::High, Laying::Scaled] {
            all.extend(ROOMS.map(|room| Piece::Tighten(room, laying)));
            all.extend(ROOMS.map(|room| Piece::TightenRecords(room, laying)));
        }
    }
    all.extend([0, slots].map(Piece::Slot));
    for width in std::iter::once(slots).chain(halves(slots)) {
        all.extend((0..slots).step_by(width).map(|slot| Piece::Own(slot, width)));
    }
    all.extend(changes_of(image).into_iter().map(|(slot, change)| Piece::Records(slot, change)));
    for width in halves(bytes) {
        all.extend((0..bytes).rev().step_by(width).map(|at| Piece::Remove(at, width)));
    }
    all.extend((0..bytes).map(Piece::Byte));
    let response = response_of(line).len();
    all.extend([Piece::Data, Piece::Response(response)]);
    all.extend(halves(response).map(Piece::Response));
    all.extend((0..response).rev().map(Piece::ResponseByte));
    let pool = pool_of(line).len();
    all.push(Piece::Pool(pool));
    all.extend(halves(pool).map(Piece::Pool));
    for width in std::iter::once(pool.max(1)).chain(halves(pool)) {
        all.extend((0..pool).step_by(width).map(|at| Piece::PoolBytes(at, width)));
    }
    let marked = image.iter().enumerate().filter(|(_, &byte)| byte != 0);
    all.extend(marked.map(|(at, _)| Piece::ImageByte(at)));
    all
}

impl Piece {
    /// The line without the piece, if the line has it.
    pub fn taken_from(self, line: &Line) -> Option<Line> {
        match self {
            Piece::State(state) => with_state(line, state),
            Piece::Slots(slots) => with_image(line, cut(image_of(line)?, slots)?),
            Piece::Free(slot, count) => with_image(line, freed(image_of(line)?, slot, count)?),
            Piece::Lift(slot, count) => with_image(line, lifted(image_of(line)?, slot, count)?),
            Piece::Pack(spare) => {
                let new = packed(image_of(line)?, spare)?;
                moved(line, with_image(line, new)?)
            }
            Piece::Tighten(room, laying) => {
                let new = tightened(image_of(line)?, room)?;
                moved(line, with_bodies(line, new, laying)?)
            }
            Piece::TightenRecords(room, laying) => {
                let new = tightened(&short_records(image_of(line)?)?, room)?;
                moved(line, with_bodies(line, new, laying)?)
            }
            Piece::Records(slot, change) => {
                let (image, pool) = changed(image_of(line)?, pool_of(line), slot, change)?;
                with_pool(&with_bytes_of_image(line, image)?, pool)
            }
            Piece::Own(slot, count) => {
                with_bytes_of_image(line, owned(image_of(line)?, slot, count)?)
            }
            Piece::Slot(slot) => with_slot(line, slot),
            Piece::ImageByte(at) => with_bytes_of_image(line, zeroed(image_of(line)?, at)?),
            Piece::Byte(at) => Some(with_bytes(line, zeroed(bytes_of(line), at)?)),
            Piece::Data => Some(with_bytes(line, without_data(bytes_of(line))?)),
            Piece::Response(fewer) => with_response(line, shorter(response_of(line), fewer)?),
            Piece::ResponseByte(at) => with_response(line, zeroed(response_of(line), at)?),
            Piece::Pool(fewer) => with_pool(line, shorter(pool_of(line), fewer)?),
            Piece::PoolBytes(at, count) => {
                let mut pool = pool_of(line).to_vec();
                let end = pool.len().min(at.saturating_add(count));
                pool.get_mut(at..end)?.fill(0);
                with_pool(line, pool)
            }
            Piece::Remove(at, count) => {
                let mut bytes = bytes_of(line).to_vec();
                let end = bytes.len().min(at.saturating_add(count));
                (at < end).then(|| bytes.drain(at..end).count())?;
                Some(with_bytes(line, bytes))
            }
        }
    }
}

/// A half, a quarter, ... down to 1.
fn halves(count: usize) -> impl Iterator<Item = usize> {
    std::iter::successors(Some(count / 2), |width| Some(width / 2)).take_while(|&width| width > 0)
}

/// A SELECT with P2 0C for one with P2 04.
fn without_data(command: &[u8]) -> Option<Vec<u8>> {
    match *command {
        [0x00, 0xA4, 0x00, 0x04, 0x02, high, low, 0x00] => {
            Some(vec![0x00, 0xA4, 0x00, 0x0C, 0x02, high, low])
        }
        _ => None,
    }
}

fn shorter(bytes: &[u8], fewer: usize) -> Option<Vec<u8>> {
    Some(bytes.get(..bytes.len().checked_sub(fewer)?)?.to_vec())
}

fn zeroed(bytes: &[u8], at: usize) -> Option<Vec<u8>> {
    let mut bytes = bytes.to_vec();
    *bytes.get_mut(at)? = 0;
    Some(bytes)
}

/// The line with a smaller image, and a pool for it.
fn with_image(line: &Line, new: Vec<u8>) -> Option<Line> {
    with_bodies(line, new, Laying::High)
}

/// The same, the bodies laid in another way where they no longer fit.
fn with_bodies(line: &Line, new: Vec<u8>, laying: Laying) -> Option<Line> {
    let old = image_of(line)?;
    let new = laid(old, new, laying)?;
    let pool = pool_for(old, pool_of(line), &new);
    let smaller = with_bytes_of_image(line, new)?;
    Some(with_pool(&smaller, pool).unwrap_or(smaller))
}

/// The line whose used records were put side by side, asked for the same file.
fn moved(before: &Line, after: Line) -> Option<Line> {
    match before {
        Line::Deciding { image, slot, .. } => with_slot(&after, rank(image, *slot)),
        _ => Some(after),
    }
}
