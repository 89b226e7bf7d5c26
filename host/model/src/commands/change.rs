//! The commands that change a life cycle: 01, "ACTIVATE, DEACTIVATE",
//! "TERMINATE EF / DF" and "TERMINATE CARD USAGE"; 02, Tickets 6 and 7.

use crate::card::{Card, ROOT};
use crate::deciding::decide;
use crate::life_cycle;
use crate::refusal::{refuse_if, step_j_security, Refusal};
use crate::rule::Right;
use crate::security::State;
use crate::words::{Word, CONDITIONS_NOT_SATISFIED, NO_CURRENT_EF, SUCCESS};

/// ACTIVATE FILE: the current EF, else the current DF.
pub fn activate(card: &mut Card, pool: &[u8], state: &State) -> Result<Word, Refusal> {
    let target = card.current_ef.unwrap_or(card.current_df);
    step_j_security(decide(card, pool, target, Right::Activate, state))?;
    step_k_nothing_terminated(card, target)?;
    step_k_change(card, target, life_cycle::after_activate)
}

/// DEACTIVATE FILE: the current EF, else the current DF.
pub fn deactivate(card: &mut Card, pool: &[u8], state: &State) -> Result<Word, Refusal> {
    let target = card.current_ef.unwrap_or(card.current_df);
    step_j_security(decide(card, pool, target, Right::Deactivate, state))?;
    step_k_nothing_terminated(card, target)?;
    step_k_change(card, target, life_cycle::after_deactivate)
}

/// TERMINATE EF: the current EF.
pub fn terminate_ef(card: &mut Card, pool: &[u8], state: &State) -> Result<Word, Refusal> {
    let target = step_i_current_ef(card)?;
    step_j_security(decide(card, pool, target, Right::Terminate, state))?;
    step_k_nothing_terminated(card, target)?;
    step_k_change(card, target, life_cycle::after_terminate)
}

/// TERMINATE DF: the current DF. The root is refused at step K, after the
/// security check.
pub fn terminate_df(card: &mut Card, pool: &[u8], state: &State) -> Result<Word, Refusal> {
    let target = card.current_df;
    step_j_security(decide(card, pool, target, Right::Terminate, state))?;
    refuse_if(target == ROOT, CONDITIONS_NOT_SATISFIED)?;
    step_k_nothing_terminated(card, target)?;
    step_k_change(card, target, life_cycle::after_terminate)
}

/// TERMINATE CARD USAGE: the root's byte and nothing else; the current files
/// stay.
pub fn terminate_card(card: &mut Card, pool: &[u8], state: &State) -> Result<Word, Refusal> {
    step_j_security(decide(card, pool, ROOT, Right::Terminate, state))?;
    card.set_life_cycle(ROOT, life_cycle::TERMINATED);
    Ok(SUCCESS)
}

fn step_i_current_ef(card: &Card) -> Result<usize, Word> {
    card.current_ef.ok_or(NO_CURRENT_EF)
}

/// Neither the target nor a directory above is terminated.
fn step_k_nothing_terminated(card: &Card, target: usize) -> Result<(), Word> {
    let terminated = card.is_terminated(target) || card.is_terminated_above(target);
    refuse_if(terminated, CONDITIONS_NOT_SATISFIED)
}

/// The change that the target's state allows, or the refusal.
fn step_k_change(
    card: &mut Card,
    target: usize,
    after: impl Fn(u8) -> Option<u8>,
) -> Result<Word, Refusal> {
    let changed = after(card.record(target).life_cycle).ok_or(CONDITIONS_NOT_SATISFIED)?;
    card.set_life_cycle(target, changed);
    Ok(SUCCESS)
}
