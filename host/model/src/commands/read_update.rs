//! READ BINARY, UPDATE BINARY, READ RECORD and UPDATE RECORD on the current EF:
//! 02, Ticket 4, coded as in 01, "The order in which a command is judged"; Tickets
//! 6 and 7.

use std::ops::Range;

use crate::bodies;
use crate::bytes::{byte, number16, rest};
use crate::card::Card;
use crate::command::Told;
use crate::deciding::decide;
use crate::descriptor::{class, Class};
use crate::life_cycle;
use crate::record::Record;
use crate::refusal::{refuse_if, step_j_security, Refusal};
use crate::rule::Right;
use crate::security::State;
use crate::words::{
    Word, CONDITIONS_NOT_SATISFIED, NO_CURRENT_EF, RECORD_NOT_FOUND, SUCCESS, WRONG_LENGTH,
    WRONG_PARAMETERS, WRONG_STRUCTURE,
};

/// How many bytes Le 00 asks for.
const LE_ZERO: usize = 256;

/// Which part of a body a command is for.
#[derive(Clone, Copy, PartialEq, Eq, Debug)]
pub enum Unit {
    /// Bytes from a start on, P1 P2, of a transparent EF.
    Bytes,
    /// One record, P1, of a linear fixed or a cyclic EF.
    Record,
}

/// READ: steps I to K, then the part of the body.
pub fn read(
    card: &Card,
    pool: &[u8],
    command: &[u8],
    unit: Unit,
    state: &State,
) -> Result<Told, Refusal> {
    let file = step_i_to_k(card, pool, Right::READ, state)?;
    let length = match byte(command, 4) {
        0 => LE_ZERO,
        le => usize::from(le),
    };
    let place = place(file, unit, number16(command, 2), length)?;
    let data = pool.get(place).unwrap_or(&[]).to_vec();
    Ok(Told { word: SUCCESS, data })
}

/// UPDATE: steps I to K, then the data into the part of the body.
pub fn update(
    card: &Card,
    pool: &mut [u8],
    command: &[u8],
    unit: Unit,
    state: &State,
) -> Result<Word, Refusal> {
    let file = step_i_to_k(card, pool, Right::UPDATE, state)?;
    let data = rest(command, 5);
    let place = place(file, unit, number16(command, 2), data.len())?;
    if let Some(part) = pool.get_mut(place) {
        part.copy_from_slice(data);
    }
    Ok(SUCCESS)
}

/// The current EF, if its rule grants the right, it is activated, and nothing
/// above it is terminated.
fn step_i_to_k<'a>(
    card: &'a Card,
    pool: &[u8],
    right: Right,
    state: &State,
) -> Result<&'a Record, Refusal> {
    let slot = card.current_ef.ok_or(NO_CURRENT_EF)?;
    let file = card.record(slot);
    step_j_security(decide(card, pool, slot, right, state))?;
    let usable = life_cycle::is_activated(file.life_cycle) && !card.is_terminated_above(slot);
    refuse_if(!usable, CONDITIONS_NOT_SATISFIED)?;
    Ok(file)
}

/// What comes after step K: structure, start or record number, length. Gives
/// the place in the pool.
fn place(file: &Record, unit: Unit, parameters: u16, length: usize) -> Result<Range<usize>, Word> {
    let fits = match class(file.descriptor) {
        Class::Ef(structure) => structure.has_records() == (unit == Unit::Record),
        Class::Df | Class::Neither => false,
    };
    refuse_if(!fits, WRONG_STRUCTURE)?;
    let body = bodies::body(file);
    let offset = match unit {
        Unit::Bytes => offset_of_bytes(parameters, length, body.len())?,
        Unit::Record => offset_of_record(file, parameters, length, body.len())?,
    };
    let start = body.start.saturating_add(offset);
    Ok(start..start.saturating_add(length))
}

/// The start, which lies before the end, as does all that is asked for.
fn offset_of_bytes(start: u16, length: usize, size: usize) -> Result<usize, Word> {
    let start = usize::from(start);
    refuse_if(start >= size, WRONG_PARAMETERS)?;
    refuse_if(length > size - start, WRONG_LENGTH)?;
    Ok(start)
}

/// Records are counted from 1, in a cyclic EF too; a whole one is asked for.
fn offset_of_record(
    file: &Record,
    parameters: u16,
    length: usize,
    size: usize,
) -> Result<usize, Word> {
    let [number, _] = parameters.to_be_bytes().map(usize::from);
    let record_length = usize::from(file.record_length);
    let before = number.checked_sub(1).ok_or(RECORD_NOT_FOUND)?.saturating_mul(record_length);
    refuse_if(before >= size, RECORD_NOT_FOUND)?;
    refuse_if(length != record_length, WRONG_LENGTH)?;
    Ok(before)
}
