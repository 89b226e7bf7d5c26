//! A card of version 3 with its pool, as the tests of Ticket 4 of 02 lend them.

use crate::common::*;
use model::lines::hex;
use model::words::is_success;
use model::{bodies, command, sound, Card, Outcome, State, Word};

/// Image and pool.
#[derive(Clone, PartialEq, Eq, Debug)]
pub struct Lent {
    pub image: Vec<u8>,
    pub pool: Vec<u8>,
}

/// Bytes of which none is 00 or FF, and neighbours differ.
pub fn pattern(length: usize) -> Vec<u8> {
    (0..length).map(|at| 1 + (at % 251) as u8).collect()
}

impl Lent {
    /// A fresh card with this total and an open rule.
    pub fn fresh(slots: usize, total: u32) -> Lent {
        Lent { image: made(3, slots, total, 0, OPEN), pool: pattern(total as usize) }
    }

    /// A fresh card with the largest total, on which these commands succeed.
    pub fn with(slots: usize, commands: &[String]) -> Lent {
        let mut lent = Lent::fresh(slots, 64 * (slots as u32 - 1));
        for text in commands {
            assert_eq!(lent.word(text), 0x9000, "{text}");
        }
        lent
    }

    /// Runs a command with a response buffer of this length, full of a mark;
    /// gives the outcome and the buffer. What must hold of every command is
    /// asserted.
    pub fn ask(&mut self, text: &str, length: usize, state: &State) -> (Outcome, Vec<u8>) {
        let (before, mut response) = (self.clone(), vec![MARK; length]);
        let outcome = command(&mut self.image, &mut self.pool, &bytes(text), &mut response, state);
        assert!(response[outcome.data..].iter().all(|&b| b == MARK), "{text} wrote past its data");
        if !is_success(outcome.word) {
            assert_eq!((&*self, outcome.data), (&before, 0), "{text} is refused and leaves all");
        }
        assert_eq!(sound(&before.image), sound(&self.image), "{text}");
        number_fits(&outcome);
        (outcome, response)
    }

    /// The word of a command under the full state, with a long buffer.
    pub fn word(&mut self, text: &str) -> Word {
        let (outcome, _) = self.ask(text, 256, &State::FULL);
        assert_eq!(outcome.answer, 0, "{text}");
        outcome.word
    }

    /// The data that a READ gives, in hex.
    pub fn read(&mut self, text: &str) -> String {
        let (outcome, response) = self.ask(text, 256, &State::FULL);
        assert_eq!((outcome.answer, outcome.word), (0, 0x9000), "{text}");
        hex(&response[..outcome.data])
    }

    /// The card.
    pub fn card(&self) -> Card {
        Card::decode(&self.image).expect("a card that can be read")
    }

    /// Where the body of a slot is.
    pub fn body(&self, slot: usize) -> std::ops::Range<usize> {
        bodies::body(self.card().record(slot))
    }

    /// Puts the start of a slot elsewhere.
    pub fn set_start(&mut self, slot: usize, start: u16) {
        let at = 16 + 64 * slot + 62;
        self.image[at..at + 2].copy_from_slice(&start.to_be_bytes());
    }
}

/// The same card with other starts, in slots 1, 2 and so on.
pub fn moved(lent: &Lent, starts: &[u16]) -> Lent {
    let mut lent = lent.clone();
    for (slot, &start) in starts.iter().enumerate() {
        lent.set_start(slot + 1, start);
    }
    lent
}
