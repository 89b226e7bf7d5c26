//! What the files of a history hold (02, Ticket 4), kept beside the card: a new
//! body is all FF, and after that only UPDATE changes it, wherever it is moved.
//! It hears the commands that were answered 9000, and asks the image only which
//! EF is current and where bodies lie.

use std::collections::BTreeMap;
use std::ops::Range;

use cases::Lent;
use model::bodies::{body, in_order};
use model::ledger::announced;
use model::words::{Word, SUCCESS};
use model::Card;

/// What each file with a body holds, by its slot.
#[derive(Clone, PartialEq, Eq, Debug, Default)]
pub struct Contents {
    files: BTreeMap<usize, Vec<u8>>,
}

/// A command with what it gave, and image and pool around it.
pub struct Given<'a> {
    /// The command.
    pub command: &'a [u8],
    /// Its word.
    pub word: Word,
    /// Its data.
    pub data: &'a [u8],
    /// Image and pool before it.
    pub before: &'a Lent,
    /// Image and pool after it.
    pub after: &'a Lent,
}

impl Contents {
    /// Enters a command; what is wrong with what it gave or left, if anything. Of
    /// a card without bodies nothing is said.
    pub fn enter(&mut self, given: &Given) -> Option<String> {
        let before = Card::decode(&given.before.image)?;
        let after = Card::decode(&given.after.image).filter(|card| card.edition.has_bodies())?;
        let heard = if given.word == SUCCESS { self.hear(given, &before, &after) } else { None };
        heard
            .or_else(|| self.held(&after, &given.after.pool))
            .or_else(|| outside(given, [&before, &after]))
    }

    /// Takes in what a command did.
    fn hear(&mut self, given: &Given, before: &Card, after: &Card) -> Option<String> {
        match *given.command {
            [_, 0xE0, ..] => {
                let size = announced(given.command).filter(|new| !new.is_df)?.size;
                self.files.insert(after.current_ef?, vec![0xFF; size as usize]);
                None
            }
            [_, 0xE4, ..] => {
                self.files.retain(|slot, _| after.record(*slot).is_used());
                None
            }
            [_, 0xB0 | 0xB2, ..] => {
                let held = self.part(given.command, before).map(|part| part.to_vec());
                (held.as_deref() != Some(given.data))
                    .then(|| "READ gives other bytes than were written".to_string())
            }
            [_, 0xD6 | 0xDC, _, _, _, ref data @ ..] => match self.part(given.command, before) {
                Some(part) if part.len() == data.len() => {
                    part.copy_from_slice(data);
                    None
                }
                _ => Some("UPDATE writes what is no part of the file".to_string()),
            },
            _ => None,
        }
    }

    /// The part of the current file that a READ or UPDATE is about.
    fn part(&mut self, command: &[u8], card: &Card) -> Option<&mut [u8]> {
        let &[_, ins, p1, p2, length, ..] = command else { return None };
        let length = if length == 0 { 256 } else { usize::from(length) };
        let start = match ins {
            0xB0 | 0xD6 => usize::from(u16::from_be_bytes([p1, p2])),
            _ => usize::from(p1).checked_sub(1)? * length,
        };
        self.files.get_mut(&card.current_ef?)?.get_mut(start..start + length)
    }

    /// What is wrong with the bodies after a command.
    fn held(&self, card: &Card, pool: &[u8]) -> Option<String> {
        let slots = in_order(card);
        if slots.len() != self.files.len() {
            return Some(format!("{} bodies are known of {}", self.files.len(), slots.len()));
        }
        let wrong = |slot: &usize| {
            self.files.get(slot).map(Vec::as_slice) != pool.get(body(card.record(*slot)))
        };
        let found = slots.into_iter().find(wrong);
        found.map(|slot| format!("the file in slot {slot} holds other bytes than were written"))
    }
}

/// What is wrong outside the bodies: a byte that left one is zero, any other
/// stays.
fn outside(given: &Given, cards: [&Card; 2]) -> Option<String> {
    let (old, new) = (&given.before.pool, &given.after.pool);
    let [was, is] = cards.map(|card| {
        let mut in_body = vec![false; new.len()];
        let mut mark = |place: Range<usize>| {
            in_body.get_mut(place).into_iter().for_each(|part| part.fill(true));
        };
        in_order(card).into_iter().for_each(|slot| mark(body(card.record(slot))));
        in_body
    });
    let bytes = old.iter().zip(new).zip(was.into_iter().zip(is)).enumerate();
    bytes.into_iter().find_map(|(at, ((old, new), places))| match places {
        (true, false) if *new != 0 => Some(format!("byte {at} of the pool was left and is {new}")),
        (false, false) if new != old => Some(format!("byte {at} of the pool was free and changed")),
        _ => None,
    })
}
