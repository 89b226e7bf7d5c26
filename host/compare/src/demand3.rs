//! What demand 3 says of one command, field by field as in
//! `crates/history/specs/Demand3`, asked of the ledger before and after it and
//! of the image that the card left.

use model::card::Card;
use model::ledger::announced as sent;
use model::words::{Word, NOT_ENOUGH_MEMORY, SUCCESS};

use crate::ledger::{Announced, Ledger};

/// More directories than these are not all asked at each command.
pub const WATCHED: usize = 24;

/// A command that was given, with the ledgers and the current DF slots around
/// it.
pub struct Given<'a> {
    /// The ledger before it.
    pub ledger: &'a Ledger,
    /// The ledger after it.
    pub next: &'a Ledger,
    /// What the ledger heard of it.
    pub told: Announced,
    /// The current DF slot before it.
    pub before: u64,
    /// The current DF slot after it.
    pub after: u64,
}

/// `full` and `takes`: of CREATEs answered 6A84 or 9000, those are refused
/// whose size plus 64 exceeds the current directory's room, and no others.
pub fn word_fits(ledger: &Ledger, here: u64, command: &[u8], word: Word) -> bool {
    if command.get(1) != Some(&0xE0) || !matches!(word, SUCCESS | NOT_ENOUGH_MEMORY) {
        return true;
    }
    let fits = sent(command).map(|new| u64::from(new.size) + 64 <= ledger.room_in(here));
    fits == Some(word == SUCCESS)
}

impl Given<'_> {
    /// What is wrong with it, if anything.
    pub fn complaint(&self, image: &[u8]) -> Option<String> {
        let Some(card) = Card::decode(image) else {
            return Some("the image cannot be read".to_string());
        };
        if !self.next.lives_in(self.after) {
            return Some(format!("current: slot {} does not live", self.after));
        }
        self.payer().or_else(|| {
            let old = self.watched(self.ledger).into_iter();
            old.map(|d| self.afterwards(d))
                .find_map(|told| told)
                .or_else(|| self.watched(self.next).into_iter().find_map(|d| self.stands(d, &card)))
        })
    }

    /// The current directories and the root, and the others if they are few.
    fn watched(&self, ledger: &Ledger) -> Vec<u64> {
        let mut some: Vec<u64> = [self.before, self.after]
            .into_iter()
            .filter(|&d| ledger.lives_in(d))
            .chain(ledger.directories().take(WATCHED))
            .collect();
        some.sort_unstable();
        some.dedup();
        some
    }

    /// `rooms`, `covered`, and of a new directory `begins` and `newborn`.
    fn stands(&self, d: u64, card: &Card) -> Option<String> {
        let room = self.next.room_in(d);
        let slot = usize::try_from(d).unwrap_or(usize::MAX);
        if card.room(slot) != room {
            return Some(format!("rooms: slot {d} has {}, the ledger {room}", card.room(slot)));
        }
        if self.next.charged_in(d) > self.next.total_in(d) {
            return Some(format!("covered: slot {d} is charged more than its total"));
        }
        if self.ledger.lives_in(d) {
            return None;
        }
        match self.told {
            Announced::Makes(_, total, true) if self.after == d && total == room => None,
            _ => Some(format!("begins: slot {d} lives with room {room}")),
        }
    }

    /// `ends`, `goes-on` and `elsewhere`, of a directory that lived before.
    fn afterwards(&self, d: u64) -> Option<String> {
        let lives = self.next.lives_in(d);
        if self.ledger.strikes(self.told, self.before, d) {
            return lives.then(|| format!("ends: slot {d} still lives"));
        }
        if !lives {
            return Some(format!("goes-on: slot {d} does not"));
        }
        let (was, is) = (self.ledger.room_in(d), self.next.room_in(d));
        (d != self.before && was != is)
            .then(|| format!("elsewhere: the room of slot {d} was {was} and is {is}"))
    }

    /// `ParentPaysAlone` and `GivesBack`, of the directory that was current.
    fn payer(&self) -> Option<String> {
        let (was, is) = (self.ledger.room_in(self.before), self.next.room_in(self.before));
        let fits = match self.told {
            Announced::Makes(_, size, _) => is + size + 64 == was,
            Announced::Deletes(x) => is == was + self.ledger.file_in(self.before, x).size + 64,
            Announced::Neither => is == was,
        };
        (!fits).then(|| format!("{:?} took room {was} to {is}", self.told))
    }
}
