//! The report: 01, "Making and reporting".

use crate::answers::{Answer, DONE, UNSOUND};
use crate::soundness::sound_card;

/// The current DF's total, its room, its direct children, all files beneath.
pub type Numbers = [u32; 4];

/// Reports on the current directory; on an unsound image the numbers are 0.
pub fn report(image: &[u8]) -> (Answer, Numbers) {
    let Some(card) = sound_card(image) else {
        return (UNSOUND, [0; 4]);
    };
    let df = card.current_df;
    let numbers = [
        card.record(df).size,
        narrow(card.room(df)),
        narrow(card.children(df).count() as u64),
        narrow(card.beneath(df).len() as u64),
    ];
    (DONE, numbers)
}

/// A room is at most a 32-bit total and a count at most 1,023, so nothing is
/// lost.
fn narrow(number: u64) -> u32 {
    u32::try_from(number).unwrap_or(u32::MAX)
}
