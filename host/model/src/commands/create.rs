//! CREATE FILE in the current DF: 01, "CREATE"; 02, Ticket 4 (the new body),
//! Tickets 6 and 7.

use crate::bodies;
use crate::card::{slot_number, Card};
use crate::deciding;
use crate::decision::Decision;
use crate::descriptor::Class;
use crate::record::{charge, Kind, Record};
use crate::refusal::{refuse_if, step_j_security, Refusal};
use crate::rule::Right;
use crate::security::State;
use crate::template::{self, NewFile};
use crate::words::{
    Word, CONDITIONS_NOT_SATISFIED, IDENTIFIER_TAKEN, NAME_TAKEN, NOT_ENOUGH_MEMORY, SUCCESS,
    WRONG_DATA,
};

/// Steps H, J, K and L, then the effect.
pub fn run(card: &mut Card, pool: &mut [u8], data: &[u8], state: &State) -> Result<Word, Refusal> {
    let new = template::read(data, card.edition).ok_or(WRONG_DATA)?;
    step_j_security(decide(card, pool, &new, state))?;
    step_k_life_cycle(card)?;
    step_l_identifier(card, &new)?;
    step_l_name(card, &new)?;
    let slot = step_l_memory(card, &new)?;
    let mut record = record_of(card, new);
    if bodies::has_body(card, &record) {
        record.start = bodies::place(card, pool, record.size);
    }
    card.put(slot, record);
    card.make_current(slot);
    Ok(SUCCESS)
}

/// Bit b3 of the current DF's rule for a DF, b2 for an EF.
fn decide(card: &Card, pool: &[u8], new: &NewFile, state: &State) -> Decision {
    let right = match new.class {
        Class::Df => Right::CreateDf,
        _ => Right::CreateEf,
    };
    deciding::decide(card, pool, card.current_df, right, state)
}

/// The current DF is deactivated or terminated, or one above is terminated.
fn step_k_life_cycle(card: &Card) -> Result<(), Word> {
    let current = card.current_df;
    let deactivated = crate::life_cycle::is_deactivated(card.record(current).life_cycle);
    let refused = deactivated || card.is_terminated(current) || card.is_terminated_above(current);
    refuse_if(refused, CONDITIONS_NOT_SATISFIED)
}

/// The identifier is a sibling's, the current DF's, or one above has it.
fn step_l_identifier(card: &Card, new: &NewFile) -> Result<(), Word> {
    let current = card.current_df;
    let taken = card
        .children(current)
        .chain([current])
        .chain(card.above(current))
        .any(|slot| card.record(slot).identifier == new.identifier);
    refuse_if(taken, IDENTIFIER_TAKEN)
}

/// The name is on the card.
fn step_l_name(card: &Card, new: &NewFile) -> Result<(), Word> {
    let taken =
        !new.name.is_empty() && card.used_slots().any(|slot| card.record(slot).name == new.name);
    refuse_if(taken, NAME_TAKEN)
}

/// The current DF has room for size + 64, and there is a free slot: its
/// number.
fn step_l_memory(card: &Card, new: &NewFile) -> Result<usize, Word> {
    refuse_if(charge(new.size) > card.room(card.current_df), NOT_ENOUGH_MEMORY)?;
    card.lowest_free_slot().ok_or(NOT_ENOUGH_MEMORY)
}

/// The record of the new file, a child of the current DF; it has no body yet.
fn record_of(card: &Card, new: NewFile) -> Record {
    let parent = card.current_df;
    Record {
        kind: if new.class == Class::Df { Kind::Df } else { Kind::Ef },
        descriptor: new.descriptor,
        life_cycle: new.life_cycle,
        identifier: new.identifier,
        parent: slot_number(parent),
        level: card.record(parent).level.saturating_add(1),
        record_length: new.record_length,
        size: new.size,
        name: new.name,
        form: new.form,
        rule: new.rule,
        start: 0,
    }
}
