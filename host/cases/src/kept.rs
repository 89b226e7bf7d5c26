//! Pools in which rules are kept (02, Ticket 7): every record holds one, or
//! something that is nearly so; and there are rules where a card has no business
//! to look: in other EFs than linear fixed ones, before the first record and
//! behind the last.

use std::ops::Range;

use model::deciding::rule_file;
use model::rule::Form;
use model::{bodies, Card, Record};

use crate::contents::{self, Contents};
use crate::decided::{self, Wish};
use crate::random::Random;

/// The longest record.
const LONGEST: usize = 255;

/// A card, and the pool in which its rules are.
#[derive(Clone, PartialEq, Eq, Debug)]
pub struct Kept {
    /// The card, sound.
    pub card: Card,
    /// Its pool, of the right length.
    pub pool: Vec<u8>,
}

/// How many records a file has; one that has none counts as having one.
pub(crate) fn records_of(file: &Record) -> u32 {
    (file.size / u32::from(file.record_length).max(1)).clamp(1, 254)
}

impl Kept {
    /// A card with a pool in which every record of it holds something.
    pub(crate) fn of(random: &mut Random, card: Card) -> Kept {
        let length = bodies::pool_length(&card).unwrap_or(0);
        let mut kept = Kept { card, pool: random.bytes(length) };
        for slot in bodies::in_order(&kept.card) {
            let last = records_of(kept.card.record(slot));
            for number in 1..=last {
                let (contents, wish) = (Contents::any(random), decided::some_wish(random));
                kept.fill(random, kept.place(slot, number), contents, &wish);
            }
            for place in [kept.place(slot, 0), kept.place(slot, last + 1)] {
                if kept.is_free(&place) {
                    let (contents, wish) = (Contents::good(random), decided::some_wish(random));
                    kept.fill(random, place, contents, &wish);
                }
            }
        }
        kept
    }

    /// Makes the rule of a file decide as wished: in its own record, or in that to
    /// which it refers, if there is one.
    pub(crate) fn write(
        &mut self,
        random: &mut Random,
        slot: usize,
        contents: Contents,
        wish: &Wish,
    ) {
        let file = self.card.record(slot);
        if file.form != Form::Referred {
            let rule = decided::rule(random, self.card.edition, wish);
            if let Some(file) = self.card.records.get_mut(slot) {
                (file.form, file.rule) = (rule.form, rule.bytes);
            }
            return;
        }
        let number = file.rule.get(2).copied().map_or(0, u32::from);
        let found = rule_file(&self.card, slot, &file.rule);
        let found = found.filter(|&found| bodies::has_body(&self.card, self.card.record(found)));
        let Some(found) = found else { return };
        if (1..=records_of(self.card.record(found))).contains(&number) {
            self.fill(random, self.place(found, number), contents, wish);
        }
    }

    /// Where a record of this number lies, or would; a transparent EF is as if it
    /// had one.
    fn place(&self, slot: usize, number: u32) -> Range<usize> {
        let file = self.card.record(slot);
        let length = match usize::from(file.record_length) {
            0 => bodies::body(file).len().min(LONGEST),
            length => length,
        };
        let start = bodies::body(file).start + length * number as usize;
        // Before the first byte of the pool there is none.
        start.checked_sub(length).map_or(0..0, |start| start..start + length)
    }

    /// Whether the bytes of a place are in the pool, and in no body.
    fn is_free(&self, place: &Range<usize>) -> bool {
        let apart = |slot: usize| {
            let body = bodies::body(self.card.record(slot));
            body.end <= place.start || place.end <= body.start
        };
        place.end <= self.pool.len() && bodies::in_order(&self.card).into_iter().all(apart)
    }

    fn fill(&mut self, random: &mut Random, place: Range<usize>, contents: Contents, wish: &Wish) {
        let record = contents::record(random, contents, place.len(), wish);
        if let Some(bytes) = self.pool.get_mut(place) {
            bytes.copy_from_slice(&record);
        }
    }
}
