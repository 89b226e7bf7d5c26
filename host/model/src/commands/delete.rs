//! DELETE FILE, a child of the current DF: 01, "DELETE"; 02, Ticket 4 (deleted
//! bodies), Ticket 6 (its two rules) and Ticket 7. No life cycle is checked.

use crate::bodies;
use crate::card::Card;
use crate::deciding;
use crate::decision::Decision;
use crate::record::Record;
use crate::refusal::{step_j_security, Refusal};
use crate::rule::Right;
use crate::security::State;
use crate::words::{Word, FILE_NOT_FOUND, SUCCESS};

/// Steps I and J, then the effect.
pub fn run(
    card: &mut Card,
    pool: &mut [u8],
    identifier: u16,
    state: &State,
) -> Result<Word, Refusal> {
    let child = step_i_child(card, identifier)?;
    step_j_security(decide(card, pool, child, state))?;
    let mut deleted = card.beneath(child);
    deleted.push(child);
    for slot in deleted {
        if bodies::has_body(card, card.record(slot)) {
            bodies::wipe(card.record(slot), pool);
        }
        card.put(slot, Record::FREE);
    }
    if card.current_ef == Some(child) {
        card.current_ef = None;
    }
    Ok(SUCCESS)
}

fn step_i_child(card: &Card, identifier: u16) -> Result<usize, Word> {
    card.children(card.current_df)
        .find(|&slot| card.record(slot).identifier == identifier)
        .ok_or(FILE_NOT_FOUND)
}

/// The child's b7 or the current DF's b1: alternatives, so that lacking wins
/// over closed.
fn decide(card: &Card, pool: &[u8], child: usize, state: &State) -> Decision {
    let by_child = deciding::decide(card, pool, child, Right::DeleteSelf, state);
    let by_directory = deciding::decide(card, pool, card.current_df, Right::DeleteChild, state);
    Decision::of_alternatives([by_child, by_directory])
}
