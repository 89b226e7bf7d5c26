//! Which rule decides on a file, and where it stands: 02, Ticket 7. A compact
//! or expanded rule stands in the file's own record. A referred one names a
//! record of a linear fixed EF, and the rule is what stands there now: whoever
//! may update that file changes it, so it is looked up anew for each command
//! and no decision is kept.

use std::ops::Range;

use crate::answers::{DONE, UNSOUND, WRONG_POOL};
use crate::bodies;
use crate::bytes::{number16, part};
use crate::card::{Card, HEADER_BYTES, ROOT};
use crate::decision::Decision;
use crate::descriptor::{class, Class, Structure};
use crate::expanded;
use crate::record::{Record, RECORD_BYTES, RULE_AT};
use crate::rule::{self, Form, Right};
use crate::security::State;
use crate::soundness::sound_card;

/// What a record of a rule file has behind its rule.
pub const PADDING: u8 = 0xFF;

/// Where a deciding rule stands, from its first byte to before `to`.
#[derive(Debug, Clone, Copy, PartialEq, Eq)]
pub enum Place {
    /// Nothing decides, so everything is closed.
    Nowhere,
    /// In the file's own record.
    InImage {
        /// Its first byte in the image.
        from: usize,
        /// The byte behind it.
        to: usize,
    },
    /// In a record of a rule file.
    InPool {
        /// Its first byte in the pool.
        from: usize,
        /// The byte behind it.
        to: usize,
    },
}

impl Place {
    /// The rule that stands there; empty for none.
    pub fn bytes<'a>(self, image: &'a [u8], pool: &'a [u8]) -> &'a [u8] {
        let found = match self {
            Place::Nowhere => None,
            Place::InImage { from, to } => image.get(from..to),
            Place::InPool { from, to } => pool.get(from..to),
        };
        found.unwrap_or(&[])
    }
}

/// The rule that decides.
#[derive(Debug, Clone, Copy, PartialEq, Eq)]
pub struct Deciding<'a> {
    /// Compact or expanded; never referred, as a rule file's own rule is not
    /// regarded.
    pub form: Form,
    /// Its bytes, without padding.
    pub rule: &'a [u8],
    /// Where it stands.
    pub place: Place,
}

/// Why no rule decides on a file. They all deny alike.
#[derive(Debug, Clone, Copy, PartialEq, Eq, PartialOrd, Ord)]
pub enum Lost {
    /// The slot holds no file.
    NotAFile,
    /// No file of the identifier is where it is looked for.
    NoRuleFile,
    /// The nearest one is the ruled file.
    Itself,
    /// The nearest one is not linear fixed.
    OtherKind,
    /// Record number 0, or past the last.
    NoSuchRecord,
    /// The record does not begin with a rule, or ends with more than padding.
    Malformed,
}

/// The rule that decides on the file in a slot of a sound card whose pool fits.
pub fn rule_of<'a>(card: &'a Card, pool: &'a [u8], slot: usize) -> Result<Deciding<'a>, Lost> {
    let file = card.record(slot);
    match file.form {
        _ if !file.is_used() => Err(Lost::NotAFile),
        Form::Compact | Form::Expanded => {
            let from = HEADER_BYTES + RECORD_BYTES * slot + RULE_AT;
            let place = Place::InImage { from, to: from + file.rule.len() };
            Ok(Deciding { form: file.form, rule: &file.rule, place })
        }
        Form::Referred => {
            let record = record_referred_to(card, slot, &file.rule)?;
            let bytes = pool.get(record.clone()).ok_or(Lost::NoSuchRecord)?;
            let rule = before_padding(bytes).ok_or(Lost::Malformed)?;
            let place = Place::InPool { from: record.start, to: record.start + rule.len() };
            Ok(Deciding { form: Form::Expanded, rule, place })
        }
    }
}

/// What the rule of the file in a slot decides on a right: where none decides,
/// no state opens it.
pub fn decide(card: &Card, pool: &[u8], slot: usize, right: Right, state: &State) -> Decision {
    match rule_of(card, pool, slot) {
        Ok(deciding) => rule::decide(deciding.form, deciding.rule, right, state),
        Err(_) => Decision::Closed,
    }
}

/// The slot of the file that a rule of three bytes names to the file in a slot,
/// of whichever kind: the nearest counts, and where it is none that can hold
/// rules the search does not go on.
pub fn rule_file(card: &Card, slot: usize, reference: &[u8]) -> Option<usize> {
    let identifier = number16(reference, 0);
    let searched = if slot == ROOT { vec![ROOT] } else { card.above(slot) };
    let has_it = |child: &usize| card.record(*child).identifier == identifier;
    searched.into_iter().find_map(|df| card.children(df).find(has_it))
}

/// The part of the pool that a rule of three bytes names to the file in a slot.
fn record_referred_to(card: &Card, slot: usize, reference: &[u8]) -> Result<Range<usize>, Lost> {
    let found = rule_file(card, slot, reference).ok_or(Lost::NoRuleFile)?;
    if found == slot {
        return Err(Lost::Itself);
    }
    let file = card.record(found);
    if class(file.descriptor) != Class::Ef(Structure::LinearFixed) {
        return Err(Lost::OtherKind);
    }
    let number = reference.get(2).copied().unwrap_or(0);
    record_in_pool(file, number).ok_or(Lost::NoSuchRecord)
}

/// Record `number`, counted from 1, of a file with records.
fn record_in_pool(file: &Record, number: u8) -> Option<Range<usize>> {
    let length = usize::from(file.record_length);
    let body = bodies::body(file);
    let start = body.start + length * usize::from(number).checked_sub(1)?;
    let record = start..start + length;
    (record.end <= body.end).then_some(record)
}

/// The expanded rule with which a record begins and behind which only padding
/// stands. There is one at most, because no object begins with the padding's
/// byte; the rule itself may end with that byte.
pub fn before_padding(record: &[u8]) -> Option<&[u8]> {
    let padding = record.iter().rev().take_while(|&&byte| byte == PADDING).count();
    let shortest = (record.len() - padding).max(1);
    (shortest..=record.len())
        .filter_map(|length| part(record, 0, length))
        .find(|rule| expanded::groups(rule).is_some())
}

/// Where the deciding rule of a slot's file stands. For a sound image whose
/// pool fits; anything else has no such place.
pub fn deciding(image: &[u8], pool: &[u8], slot: usize) -> Place {
    place_of(image, pool, slot).1
}

/// The same with the call's answer: 1 if the image is not sound, 6 if the pool
/// does not fit, else 0; a slot without a file is no refusal.
pub fn place_of(image: &[u8], pool: &[u8], slot: usize) -> (u32, Place) {
    let Some(card) = sound_card(image) else {
        return (u32::from(UNSOUND), Place::Nowhere);
    };
    if bodies::pool_length(&card).is_some_and(|length| length != pool.len()) {
        return (u32::from(WRONG_POOL), Place::Nowhere);
    }
    let place = rule_of(&card, pool, slot).map_or(Place::Nowhere, |deciding| deciding.place);
    (u32::from(DONE), place)
}
