//! Cards that look for a rule kept in a file in a mistaken way: each is found by
//! some of the generated questions where it stands (02, Ticket 7). The way
//! without a mistake is written once more here, and finds what the model does.

use std::collections::BTreeMap;

use crate::common::say;
use cases::{Case, Generator, Kind};
use model::deciding::{place_of, Place};
use model::rule::{groups, Form};
use model::soundness::sound_card;
use model::{bodies, life_cycle, Card, Record};

const SEED: u64 = 1509;

/// What is done otherwise.
#[derive(Clone, Copy, PartialEq, Eq, PartialOrd, Ord, Debug)]
enum Mistake {
    None,
    FurtherWhereTheNearestIsNone,
    CyclicToo,
    TransparentToo,
    OwnDirectoryFirst,
    HolderOnly,
    FurthestFirst,
    ItselfToo,
    CountedFromZero,
    PastTheLastIsTheLast,
    BeforeTheFirst,
    BehindTheLast,
    NoMoreThan28Bytes,
    LifeCycleCounts,
    OwnRuleCounts,
    ZerosArePadding,
    AnythingBehind,
    PaddingInTheRule,
    PaddingTakenOffFirst,
    NoPadding,
    ShortSlot,
    RootHasNoHolder,
    DescriptorsOfWorkingFilesOnly,
}

const MISTAKES: [Mistake; 22] = [
    Mistake::FurtherWhereTheNearestIsNone,
    Mistake::CyclicToo,
    Mistake::TransparentToo,
    Mistake::OwnDirectoryFirst,
    Mistake::HolderOnly,
    Mistake::FurthestFirst,
    Mistake::ItselfToo,
    Mistake::CountedFromZero,
    Mistake::PastTheLastIsTheLast,
    Mistake::BeforeTheFirst,
    Mistake::BehindTheLast,
    Mistake::NoMoreThan28Bytes,
    Mistake::LifeCycleCounts,
    Mistake::OwnRuleCounts,
    Mistake::ZerosArePadding,
    Mistake::AnythingBehind,
    Mistake::PaddingInTheRule,
    Mistake::PaddingTakenOffFirst,
    Mistake::NoPadding,
    Mistake::ShortSlot,
    Mistake::RootHasNoHolder,
    Mistake::DescriptorsOfWorkingFilesOnly,
];

/// A card with its pool, asked with a mistake.
struct Asked<'a> {
    card: &'a Card,
    pool: &'a [u8],
    mistake: Mistake,
}

impl Asked<'_> {
    fn makes(&self, mistake: Mistake) -> bool {
        self.mistake == mistake
    }

    fn place(&self, slot: usize) -> Place {
        let slot = if self.makes(Mistake::ShortSlot) { slot & 0xFFFF } else { slot };
        let file = self.card.record(slot);
        if !file.is_used() {
            return Place::Nowhere;
        }
        if file.form == Form::Referred {
            return self.kept(slot, &file.rule).unwrap_or(Place::Nowhere);
        }
        let from = 16 + 64 * slot + 34;
        Place::InImage { from, to: from + file.rule.len() }
    }

    fn kept(&self, slot: usize, rule: &[u8]) -> Option<Place> {
        let found = self.rule_file(slot, rule)?;
        let file = self.card.record(found);
        let denied = (found == slot && !self.makes(Mistake::ItselfToo))
            || !self.holds_rules(file)
            || self.makes(Mistake::LifeCycleCounts) && !life_cycle::is_activated(file.life_cycle)
            || self.makes(Mistake::OwnRuleCounts) && file.form == Form::Referred;
        if denied {
            return None;
        }
        let (length, last) = records(file);
        let number = usize::from(rule[2]);
        let start = bodies::body(file).start;
        let from = match self.mistake {
            Mistake::CountedFromZero => start + length * number,
            Mistake::PastTheLastIsTheLast => start + length * number.min(last).checked_sub(1)?,
            Mistake::BeforeTheFirst => (start + length * number).checked_sub(length)?,
            _ => start + length * number.checked_sub(1)?,
        };
        let inside = from < start + length * last || self.makes(Mistake::BehindTheLast);
        let record = self.pool.get(from..from + length).filter(|_| inside)?;
        Some(Place::InPool { from, to: from + self.rule_bytes(record)? })
    }

    /// The slot of the file that is named.
    fn rule_file(&self, slot: usize, rule: &[u8]) -> Option<usize> {
        let mut searched = Vec::new();
        if self.makes(Mistake::OwnDirectoryFirst) && self.card.record(slot).is_df() {
            searched.push(slot);
        }
        let mut at = slot;
        while at != 0 || searched.is_empty() && !self.makes(Mistake::RootHasNoHolder) {
            at = self.card.parent(at);
            searched.push(at);
        }
        if self.makes(Mistake::HolderOnly) {
            searched.truncate(1);
        }
        if self.makes(Mistake::FurthestFirst) {
            searched.reverse();
        }
        let named = |child: &usize| self.card.record(*child).identifier.to_be_bytes() == rule[..2];
        let all = searched.into_iter().flat_map(|df| self.card.children(df).filter(named));
        let goes_on = self.makes(Mistake::FurtherWhereTheNearestIsNone);
        all.into_iter().find(|&child| !goes_on || self.holds_rules(self.card.record(child)))
    }

    fn holds_rules(&self, file: &Record) -> bool {
        match file.descriptor & 0x3F {
            0x02 => true,
            0x0A => !self.makes(Mistake::DescriptorsOfWorkingFilesOnly),
            0x06 | 0x0E => self.makes(Mistake::CyclicToo),
            0x01 | 0x09 => self.makes(Mistake::TransparentToo),
            _ => false,
        }
    }

    /// How many bytes of a record are the rule.
    fn rule_bytes(&self, record: &[u8]) -> Option<usize> {
        let is_rule =
            |length: usize| length > 0 && groups(Form::Expanded, &record[..length]).is_some();
        let padding =
            |byte: &u8| *byte == 0xFF || self.makes(Mistake::ZerosArePadding) && *byte == 0;
        if self.makes(Mistake::PaddingTakenOffFirst) {
            let length = record.iter().rposition(|byte| *byte != 0xFF)? + 1;
            return Some(length).filter(|&length| is_rule(length));
        }
        let ends = |length: usize| match self.mistake {
            Mistake::AnythingBehind => true,
            Mistake::NoPadding => length == record.len(),
            _ => record[length..].iter().all(padding),
        };
        let found = (1..=record.len()).rev().find(|&length| is_rule(length) && ends(length))?;
        match self.mistake {
            Mistake::PaddingInTheRule => Some(record.len()),
            Mistake::NoMoreThan28Bytes => Some(found).filter(|&found| found <= 28),
            _ => Some(found),
        }
    }
}

/// Length and number of the records; a transparent EF is as if it had one.
fn records(file: &Record) -> (usize, usize) {
    match usize::from(file.record_length) {
        0 => (file.size.min(255) as usize, 1),
        length => (length, file.size as usize / length),
    }
}

#[test]
fn every_mistake_is_found_by_many_questions() {
    let mut found = BTreeMap::new();
    for made in Generator::only(SEED, Kind::Deciding).take(8000) {
        let Case::Deciding { image, pool, slot } = made.case else { panic!("a question") };
        let (answer, wanted) = place_of(&image, &pool, slot);
        let Some(card) = sound_card(&image).filter(|_| answer == 0) else { continue };
        let place = |mistake| Asked { card: &card, pool: &pool, mistake }.place(slot);
        assert_eq!(place(Mistake::None), wanted, "slot {slot}");
        for mistake in MISTAKES.into_iter().filter(|&mistake| place(mistake) != wanted) {
            *found.entry(mistake).or_insert(0) += 1;
        }
    }
    say(&format!("mistakes found: {found:?}"));
    for mistake in MISTAKES {
        let often = found.get(&mistake).copied().unwrap_or(0);
        assert!(often >= 25, "{mistake:?} is found {often} times: {found:?}");
    }
}
