//! Why the search for a referred rule denies, in words.

use model::deciding::{rule_file, rule_of, Lost, PADDING};
use model::{bodies, Card as Decoded};

use super::{way, Found};
use crate::describe;
use crate::rule::{self, Reference};

/// Why, without the words.
#[derive(Clone, Copy, PartialEq, Eq, Hash, Debug, PartialOrd, Ord)]
pub enum Reason {
    /// No file of the identifier is where it is looked for.
    NoFile,
    /// The nearest one is the ruled file.
    Itself,
    /// The nearest one is not linear fixed.
    OtherKind,
    /// Record number 0.
    Zero,
    /// The number is past the last record.
    PastLast,
    /// The record has only padding.
    Empty,
    /// The record has something else than a rule and padding.
    Malformed,
}

/// Why a search denies.
#[derive(Clone, PartialEq, Eq, Hash, Debug)]
pub struct Denial {
    pub reason: Reason,
    /// The slot of the nearest file of the identifier.
    pub nearest: Option<usize>,
    pub words: String,
}

impl Denial {
    /// Of the file in a slot, whose rule is a reference; nothing if a rule is
    /// found, or there is no such file.
    pub fn of(card: &Decoded, pool: &[u8], slot: usize) -> Option<Denial> {
        let lost = rule_of(card, pool, slot).err()?;
        let own = &card.record(slot).rule;
        let named = Reference::read(own).ok()?;
        let nearest = rule_file(card, slot, own);
        let found = nearest.map(|file| Found::new(card, file, slot));
        let found = found.as_ref();
        let (reason, words) = match lost {
            Lost::NotAFile => return None,
            Lost::NoRuleFile => (Reason::NoFile, no_file(card, slot, named)),
            Lost::Itself => (
                Reason::Itself,
                format!("the nearest {:04X} is this file itself", named.identifier),
            ),
            Lost::OtherKind => (Reason::OtherKind, other_kind(card, found?)),
            Lost::NoSuchRecord => no_record(card, found?, named.number),
            Lost::Malformed => no_rule(card, pool, found?, named.number),
        };
        Some(Denial { reason, nearest, words })
    }
}

/// Up to the root, which is the only directory where it is also the first.
fn no_file(card: &Decoded, slot: usize, named: Reference) -> String {
    let (identifier, first) = (named.identifier, way(card, card.parent(slot)));
    match card.parent(slot) {
        0 => format!("there is no {identifier:04X} in {first}"),
        _ => format!("there is no {identifier:04X} from {first} up"),
    }
}

fn other_kind(card: &Decoded, found: &Found) -> String {
    let record = card.record(found.slot);
    let kind = match record.is_df() {
        true => "a directory".to_string(),
        false => format!("a {} file", describe::kind(record.descriptor)),
    };
    format!("the nearest {}, is {kind}: only a linear fixed one keeps rules", found.words)
}

fn no_record(card: &Decoded, found: &Found, number: u8) -> (Reason, String) {
    if number == 0 {
        return (Reason::Zero, format!("record number 0 of {}: records count from 1", found.words));
    }
    let record = card.record(found.slot);
    let many = record.size.checked_div(u32::from(record.record_length)).unwrap_or(0);
    let records = if many == 1 { "1 record".to_string() } else { format!("{many} records") };
    let words = format!("{}, has {records}: {number} is past the last", found.words);
    (Reason::PastLast, words)
}

fn no_rule(card: &Decoded, pool: &[u8], found: &Found, number: u8) -> (Reason, String) {
    let file = card.record(found.slot);
    let length = usize::from(file.record_length);
    let start = bodies::body(file).start + length * usize::from(number).saturating_sub(1);
    let record = pool.get(start..start + length).unwrap_or_default();
    let padding = record.iter().rev().take_while(|byte| **byte == PADDING).count();
    let before = record.get(..record.len() - padding).unwrap_or_default();
    let place = format!("record {number} of {}", found.words);
    if before.is_empty() {
        return (Reason::Empty, format!("{place}, holds no rule, only FF"));
    }
    // Padding is no part of the rule, unless it ends with an SC byte FF; but
    // then the same is wrong before it.
    let wrong = rule::malformed(card::Rule::expanded(before));
    let why = wrong.map_or_else(String::new, |wrong| format!(": {}", wrong.tell(0, length)));
    (Reason::Malformed, format!("{place}, holds no well-formed expanded rule{why}"))
}
