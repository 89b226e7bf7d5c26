//! Which rule decides on a file, and where it stands (02, Ticket 7), asked of
//! every sort of card and slot.

use model::rule::Form;
use model::Card;

use crate::case::Case;
use crate::damage::{damaged, Field};
use crate::kept::Kept;
use crate::random::Random;
use crate::{images, pools, rule_files};

/// A slot of a card: mostly a file with a reference or near one, else any, a
/// free one, or one that the card has not.
pub fn case(random: &mut Random) -> Case {
    match random.below(16) {
        // Cards of any version, whose rules mostly stand in the files' records.
        0 | 1 => {
            let card = images::sound_card(random);
            let image = card.encode();
            let pool = pools::lent(random, &image);
            Case::Deciding { image, pool, slot: slot(random, &card) }
        }
        2 => {
            let Kept { card, pool } = rule_files::kept(random);
            let field = Field::any(random);
            let image = damaged(random, &card, field);
            Case::Deciding { image, pool, slot: slot(random, &card) }
        }
        3 => {
            let Kept { card, .. } = rule_files::kept(random);
            let image = card.encode();
            let pool = pools::wrong(random, &image);
            Case::Deciding { image, pool, slot: slot(random, &card) }
        }
        _ => {
            let Kept { card, pool } = rule_files::kept(random);
            Case::Deciding { image: card.encode(), pool, slot: slot(random, &card) }
        }
    }
}

fn slot(random: &mut Random, card: &Card) -> usize {
    let slots = card.records.len();
    let used: Vec<_> = card.used_slots().collect();
    let referred = |slot: &usize| card.record(*slot).form == Form::Referred;
    let ruled: Vec<_> = used.iter().copied().filter(referred).collect();
    match random.below(20) {
        0 => random.below(slots),
        // The last are slots of the card if only 16 bits of them are read.
        1 => random.pick([slots, slots + 1, 1023, 0xFFFF, 0x1_0000, 0x1_0001]),
        2..=4 => random.choose(&used).copied().unwrap_or(0),
        _ => random.choose(&ruled).copied().unwrap_or(0),
    }
}
