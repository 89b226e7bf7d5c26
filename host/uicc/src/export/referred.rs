//! Which files of a card keep rules of others, and so in which order files are
//! made again: what keeps a rule stands before what it rules.

use std::collections::{BTreeMap, BTreeSet};

use card::Card;
use model::Card as Decoded;

use crate::rule::Reference;
use crate::standing::{Reason, Standing};

/// The files that references lead to.
#[derive(Default)]
pub struct Referred {
    /// For each ruled file the linear fixed file that its reference finds.
    ruled_by: BTreeMap<usize, usize>,
    /// For each such file the records that are named.
    records: BTreeMap<usize, BTreeSet<u8>>,
    /// Files that a reference finds and that keep no rules: they deny what one
    /// further up might allow.
    hiding: BTreeSet<usize>,
}

/// When a file is made, among those of its directory: files that keep rules come
/// first, those that others of them rule behind these; files that hide some last.
#[derive(PartialEq, Eq, PartialOrd, Ord)]
pub enum Turn {
    Keeps { behind: usize },
    Neither,
    Hides,
}

impl Referred {
    pub fn new(card: &Card, decoded: &Decoded) -> Result<Referred, String> {
        let mut referred = Referred::default();
        for slot in decoded.used_slots() {
            let Ok(named) = Reference::read(&decoded.record(slot).rule) else { continue };
            let keeper = match Standing::of(card, decoded, slot)? {
                Standing::Own(_) => continue,
                Standing::Kept(found, ..) => Some(found.slot),
                Standing::Denied(denial) => match denial.reason {
                    Reason::Empty | Reason::Malformed => denial.nearest,
                    Reason::OtherKind => {
                        referred.hiding.extend(denial.nearest);
                        None
                    }
                    _ => None,
                },
            };
            if let Some(keeper) = keeper {
                referred.ruled_by.insert(slot, keeper);
                referred.records.entry(keeper).or_default().insert(named.number);
            }
        }
        Ok(referred)
    }

    /// Whether no file keeps a rule.
    pub fn is_empty(&self) -> bool {
        self.records.is_empty()
    }

    /// The records of a file that references name; none where it keeps no rule.
    pub fn records(&self, slot: usize) -> Option<&BTreeSet<u8>> {
        self.records.get(&slot)
    }

    pub fn turn(&self, slot: usize) -> Turn {
        match self.records.contains_key(&slot) {
            true => Turn::Keeps { behind: self.behind(slot) },
            false if self.hiding.contains(&slot) => Turn::Hides,
            false => Turn::Neither,
        }
    }

    /// How many files that keep rules stand one behind the other before it. Some
    /// may rule one another in a ring: there the number means nothing.
    fn behind(&self, slot: usize) -> usize {
        let next = |slot: &usize| self.ruled_by.get(slot).copied();
        let chain = std::iter::successors(next(&slot), next);
        chain.take(self.records.len()).count()
    }
}
