//! How much was compared.

use std::fmt;

use model::lines::Case as Line;
use model::words::is_success;

use crate::outcome::Outcome;

/// How much was compared.
#[derive(Clone, Copy, PartialEq, Eq, Debug, Default)]
pub struct Tally {
    /// Cases.
    pub cases: u64,
    /// Calls of the maker.
    pub makes: u64,
    /// Commands, those of replay not counted.
    pub commands: u64,
    /// Commands that had their effect.
    pub effects: u64,
    /// Commands that a rule refused and some security state would open.
    pub lacking: u64,
    /// Commands that a rule refused for good.
    pub closed: u64,
    /// Reports, each with a call for soundness.
    pub reports: u64,
    /// Runs of replay.
    pub replays: u64,
    /// Steps of histories that the ledger judged.
    pub ledger_steps: u64,
    /// Commands that gave a template.
    pub templates: u64,
    /// READs that gave bytes of a body.
    pub reads: u64,
    /// UPDATEs that wrote some.
    pub updates: u64,
    /// CREATEs that moved bodies.
    pub packings: u64,
    /// Files made again by their templates.
    pub made_again: u64,
    /// Questions where a rule stands.
    pub places: u64,
    /// Those whose rule stands in the pool.
    pub in_pools: u64,
    /// Those of a good card and pool whose rule stands nowhere.
    pub nowhere: u64,
}

impl Tally {
    /// Counts what both gave for a line.
    pub fn count(&mut self, line: &Line, given: &Outcome) {
        match given {
            Outcome::Make { .. } => self.makes += 1,
            Outcome::Command { told, image, .. } => {
                self.commands += 1;
                self.lacking += u64::from(told.numbers[1] == 1);
                self.closed += u64::from(told.numbers[1] == 2);
                if let (Line::Command { image: came, command, .. }, true) =
                    (line, is_success(told.word))
                {
                    self.count_effect(command, told.numbers[0], (came, image));
                }
            }
            Outcome::Report { .. } => self.reports += 1,
            Outcome::Replay { .. } => self.replays += 1,
            Outcome::Rule { answer, numbers: [sort, ..], .. } => {
                self.places += 1;
                self.in_pools += u64::from(*sort == 2);
                self.nowhere += u64::from((*answer, *sort) == (0, 0));
            }
        }
    }

    /// Counts a command that had its effect, with how many bytes it told and
    /// the image before and after.
    fn count_effect(&mut self, command: &[u8], data: u32, (before, after): (&[u8], &[u8])) {
        self.effects += 1;
        match command.get(1) {
            Some(0xA4) => self.templates += u64::from(data > 0),
            Some(0xB0 | 0xB2) => self.reads += 1,
            Some(0xD6 | 0xDC) => self.updates += 1,
            Some(0xE0) => self.packings += u64::from(moved(before, after)),
            _ => {}
        }
    }
}

impl std::ops::AddAssign for Tally {
    fn add_assign(&mut self, other: Tally) {
        self.cases += other.cases;
        self.makes += other.makes;
        self.commands += other.commands;
        self.effects += other.effects;
        self.lacking += other.lacking;
        self.closed += other.closed;
        self.reports += other.reports;
        self.replays += other.replays;
        self.ledger_steps += other.ledger_steps;
        self.templates += other.templates;
        self.reads += other.reads;
        self.updates += other.updates;
        self.packings += other.packings;
        self.made_again += other.made_again;
        self.places += other.places;
        self.in_pools += other.in_pools;
        self.nowhere += other.nowhere;
    }
}

impl fmt::Display for Tally {
    fn fmt(&self, f: &mut fmt::Formatter<'_>) -> fmt::Result {
        let Tally { cases, makes, commands, effects, lacking, closed, reports, replays, .. } = self;
        let Tally { ledger_steps, templates, reads, updates, packings, made_again, .. } = self;
        let Tally { places, in_pools, nowhere, .. } = self;
        write!(
            f,
            "{cases} cases, {commands} commands ({effects} with effect, {lacking} lacking, {closed} \
             closed, {ledger_steps} beside the ledger, {templates} with a template, {reads} READ, \
             {updates} UPDATE, {packings} that moved bodies), {made_again} files made again, \
             {makes} makes, {reports} reports, {replays} replays, {places} rules looked for \
             ({in_pools} in the pool, {nowhere} nowhere)"
        )
    }
}

/// Whether a file that was there before has another start afterwards: the last
/// two bytes of its record.
fn moved(before: &[u8], after: &[u8]) -> bool {
    let records = |image| <[u8]>::chunks_exact(image, 64);
    let (old, new) = (before.get(16..).unwrap_or(&[]), after.get(16..).unwrap_or(&[]));
    records(old).zip(records(new)).any(|(old, new)| {
        old.first().is_some_and(|&kind| kind != 0) && old.get(62..) != new.get(62..)
    })
}
