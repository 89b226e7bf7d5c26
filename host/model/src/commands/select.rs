//! SELECT by identifier: 01, "SELECT"; 02, Ticket 2. It skips steps J and K.

use crate::card::{Card, ROOT};
use crate::command::Told;
use crate::words::{Word, FILE_NOT_FOUND, SELECTED_DEACTIVATED, SELECTED_TERMINATED, SUCCESS};
use crate::{fcp, life_cycle};

/// Step I, then the effect. Word and data go by the selected file alone.
pub fn run(card: &mut Card, identifier: u16, wants_data: bool) -> Result<Told, Word> {
    let slot = step_i_file(card, identifier)?;
    card.make_current(slot);
    let file = card.record(slot);
    let data = if wants_data { fcp::template(file) } else { Vec::new() };
    Ok(Told { word: word_for(file.life_cycle), data })
}

/// The word that tells the selected file's own life cycle.
fn word_for(life_cycle: u8) -> Word {
    if life_cycle::is_deactivated(life_cycle) {
        SELECTED_DEACTIVATED
    } else if life_cycle::is_terminated(life_cycle) {
        SELECTED_TERMINATED
    } else {
        SUCCESS
    }
}

fn step_i_file(card: &Card, identifier: u16) -> Result<usize, Word> {
    tries(card)
        .into_iter()
        .find(|&slot| card.record(slot).identifier == identifier)
        .ok_or(FILE_NOT_FOUND)
}

/// The files that SELECT can reach, in the order of the tries: the root, the
/// current DF, its parent, its children, the DFs among its parent's children.
fn tries(card: &Card) -> Vec<usize> {
    let current = card.current_df;
    let parent = card.parent(current);
    let mut tries = vec![ROOT, current, parent];
    tries.extend(card.children(current));
    tries.extend(card.children(parent).filter(|&slot| card.record(slot).is_df()));
    tries
}
