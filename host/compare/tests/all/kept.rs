//! A search for rules kept in files (02, Ticket 7) that can be made to get one
//! thing wrong, and cards that look for their rules by it. It is written without
//! the model's search, and finds the same where nothing is wrong.

use crate::impostor::{Came, Left, Stands};
use crate::quirks::decided_by;
use compare::{Model, Subject, Told};
use model::rule::{decide, well_formed, Form, Right};
use model::soundness::sound_card;
use model::{bodies, Card, Decision, Record, State};

/// What is done otherwise.
#[derive(Clone, Copy, PartialEq, Eq, Debug)]
pub enum Mistake {
    Nothing,
    /// The search begins in the ruled directory itself.
    BeginsInItself,
    /// Only the directory that holds the file is looked through.
    HolderAlone,
    /// A nearer file that holds no rules is passed.
    GoesOn,
    /// The farthest counts.
    Farthest,
    CyclicTaken,
    TransparentTaken,
    /// A file may be ruled by a record of its own.
    ItselfTaken,
    /// The rule file must not be deactivated, terminated.
    DeactivatedDenies,
    TerminatedDenies,
    /// The rule file must not have a reference as its own rule.
    ReferredDenies,
    /// Record 0 is the last, is the first.
    ZeroIsTheLast,
    ZeroIsTheFirst,
    /// Past the last the first comes again; the last stays.
    PastTheLastWraps,
    PastTheLastIsTheLast,
    /// All FF bytes at the end are cut off before the rule is read.
    CutFirst,
    /// Whatever stands behind the rule.
    AnythingBehind,
    ZerosArePadding,
    /// Rules are no longer than those in a file's own record.
    AtMost28Bytes,
}

/// Where a rule stands in the pool.
type Part = std::ops::Range<usize>;

impl Mistake {
    fn is(self, other: Mistake) -> bool {
        self == other
    }

    /// The directories that are looked through, in turn.
    fn way(self, card: &Card, slot: usize) -> Vec<usize> {
        let mut way = vec![card.parent(slot)];
        while let Some(&df) = way.last().filter(|&&df| df != 0) {
            way.push(card.parent(df));
        }
        match self {
            Mistake::BeginsInItself if card.record(slot).is_df() => way.insert(0, slot),
            Mistake::HolderAlone => way.truncate(1),
            Mistake::Farthest => way.reverse(),
            _ => {}
        }
        way
    }

    fn holds_rules(self, file: &Record) -> bool {
        match file.descriptor & 0b111 {
            _ if !file.is_ef() => false,
            0b001 => self.is(Mistake::TransparentTaken),
            0b110 => self.is(Mistake::CyclicTaken),
            _ => true,
        }
    }

    /// Whether a rule file is none for what it is itself.
    fn denies(self, file: &Record) -> bool {
        match self {
            Mistake::DeactivatedDenies => file.life_cycle == 0x04,
            Mistake::TerminatedDenies => file.life_cycle == 0x0C,
            Mistake::ReferredDenies => file.form == Form::Referred,
            _ => false,
        }
    }

    /// The slot of the file that the reference of the file in a slot names.
    fn rule_file(self, card: &Card, slot: usize) -> Option<usize> {
        let identifier = card.record(slot).rule.get(..2)?;
        let named = |file: &usize| card.record(*file).identifier.to_be_bytes() == identifier;
        let all = self.way(card, slot).into_iter().flat_map(|df| card.children(df).filter(named));
        let counts =
            |file: &usize| !self.is(Mistake::GoesOn) || self.holds_rules(card.record(*file));
        let found = all.into_iter().find(counts)?;
        let file = card.record(found);
        let itself = found == slot && !self.is(Mistake::ItselfTaken);
        (!itself && self.holds_rules(file) && !self.denies(file)).then_some(found)
    }

    /// The part of the pool that holds the rule of a file with a reference.
    pub fn part(self, card: &Card, pool: &[u8], slot: usize) -> Option<Part> {
        let file = card.record(self.rule_file(card, slot)?);
        let body = bodies::body(file);
        let length = match usize::from(file.record_length) {
            0 => body.len().min(255),
            length => length,
        };
        let (last, number) = (body.len() / length, usize::from(*card.record(slot).rule.get(2)?));
        let number = match (self, number) {
            (Mistake::ZeroIsTheLast, 0) => last,
            (Mistake::ZeroIsTheFirst, 0) => 1,
            (Mistake::PastTheLastWraps, past) if past > last => 1,
            (Mistake::PastTheLastIsTheLast, past) if past > last => last,
            _ => number,
        };
        let from = body.start + length * number.checked_sub(1).filter(|_| number <= last)?;
        let bytes = self.rule_in(pool.get(from..from + length)?)?;
        Some(from..from + bytes)
    }

    /// How many bytes of a record are the rule.
    fn rule_in(self, record: &[u8]) -> Option<usize> {
        let is_rule = |end: &usize| well_formed(Form::Expanded, &record[..*end]);
        if self.is(Mistake::CutFirst) {
            return record.iter().rposition(|byte| *byte != 0xFF).map(|at| at + 1).filter(is_rule);
        }
        let padding = |byte: &u8| *byte == 0xFF || *byte == 0 && self.is(Mistake::ZerosArePadding);
        let ends =
            |end: &usize| self.is(Mistake::AnythingBehind) || record[*end..].iter().all(padding);
        let most =
            if self.is(Mistake::AtMost28Bytes) { 28.min(record.len()) } else { record.len() };
        (1..=most).rev().filter(is_rule).find(ends)
    }

    /// What the rule of a file with a reference decides on each right.
    fn decisions(self, card: &Card, came: &Came, slot: usize) -> Option<[Decision; 7]> {
        (card.record(slot).form == Form::Referred).then_some(())?;
        let part = self.part(card, came.pool, slot);
        Some(Right::ALL.map(|right| match &part {
            Some(part) => decide(Form::Expanded, &came.pool[part.clone()], right, came.state),
            None => Decision::Closed,
        }))
    }
}

/// The model, but for rules kept in files: its commands, or what it tells where a
/// rule stands, or both, go by a mistake.
pub struct Mistaken {
    pub mistake: Mistake,
    pub commands: bool,
    pub rule: bool,
}

impl Subject for Mistaken {
    fn make(&self, buffer: &mut [u8], version: u32, total: u32, form: u32, rule: &[u8]) -> u32 {
        Model.make(buffer, version, total, form, rule)
    }

    fn command(
        &self,
        image: &mut [u8],
        pool: &mut [u8],
        command: &[u8],
        response: &mut [u8],
        state: &State,
    ) -> Told {
        let [before, held, lent] = [&*image, &*pool, &*response].map(<[u8]>::to_vec);
        let told = Model.command(image, pool, command, response, state);
        if !self.commands || told.answer != 0 {
            return told;
        }
        let came = Came { image: &before, pool: &held, command, response: &lent, state };
        decided_by(&came, &mut Left { image, pool, response }, told, |card, slot| {
            self.mistake.decisions(card, &came, slot)
        })
    }

    fn report(&self, image: &[u8]) -> (u32, [u32; 4]) {
        Model.report(image)
    }

    fn rule(&self, image: &[u8], pool: &[u8], slot: u32) -> Stands {
        let (answer, numbers) = Model.rule(image, pool, slot);
        let asked = sound_card(image).filter(|_| self.rule && answer == 0);
        let slot = slot as usize;
        match asked.filter(|card| card.record(slot).form == Form::Referred) {
            Some(card) => {
                let part = self.mistake.part(&card, pool, slot);
                let told = part.map(|part| [2, part.start as u32, part.len() as u32]);
                (answer, told.unwrap_or_default())
            }
            None => (answer, numbers),
        }
    }

    fn sound(&self, image: &[u8]) -> bool {
        Model.sound(image)
    }
}
