//! The kinds of cases, their mix, and the endless row of cases of a seed.

use model::rule::Form;
use model::{Card, State};

use crate::actions::bare;
use crate::again::Again;
use crate::case::Case;
use crate::damage::{damaged, Field};
use crate::history::{fitting_command, history, history_with};
use crate::random::Random;
use crate::themes::Theme;
use crate::{bodied, breach, editions, images, makers, places, pools, raw};
use crate::{responses, rule_files, ruled, rules, security, states, streams, worst};

/// What a case is made for.
#[derive(Clone, Copy, PartialEq, Eq, PartialOrd, Ord, Debug)]
pub enum Kind {
    /// A history on a fresh card.
    History,
    /// A fitting command on a sound image.
    SoundCommand,
    /// A report on a sound image.
    SoundReport,
    /// A fitting command on an image damaged in one field.
    DamagedCommand,
    /// A report on an image damaged in one field.
    DamagedReport,
    /// A raw command on a sound image.
    RawCommand,
    /// A command with one thing wrong on a sound image.
    NearMiss,
    /// READ, UPDATE, CREATE or DELETE on a sound image made for its bodies.
    Bodies,
    /// A command that comes to step J, its rules made for one decision each.
    Security,
    /// A history of locked files, under states that open them or lack something.
    Locked,
    /// A command that asks a rule kept in a file.
    Referred,
    /// Which rule decides on a file, and where it stands.
    Deciding,
    /// A history in which a rule file is written while another is ruled by it.
    RuleFiles,
    /// CREATE's data, good or broken.
    Template,
    /// A call of the maker.
    Make,
    /// A run of replay.
    Replay,
    /// A rule under a state.
    Rule,
    /// A fitting command or a report on a worst-case card.
    Worst,
    /// The files of a sound image, each made again by its template.
    FilesAgain,
    /// The whole tree of a sound image made again by its templates.
    TreeAgain,
}

impl Kind {
    /// All kinds with their weights in the mix.
    pub const MIX: [(Kind, usize); 20] = [
        (Kind::History, 100),
        (Kind::SoundCommand, 300),
        (Kind::SoundReport, 60),
        (Kind::DamagedCommand, 90),
        (Kind::DamagedReport, 40),
        (Kind::RawCommand, 70),
        (Kind::NearMiss, 110),
        (Kind::Bodies, 140),
        (Kind::Security, 130),
        (Kind::Locked, 20),
        (Kind::Referred, 130),
        (Kind::Deciding, 70),
        (Kind::RuleFiles, 20),
        (Kind::Template, 180),
        (Kind::Make, 30),
        (Kind::Replay, 30),
        (Kind::Rule, 75),
        (Kind::Worst, 5),
        (Kind::FilesAgain, 15),
        (Kind::TreeAgain, 10),
    ];

    /// The name on the command line of the program.
    pub fn name(self) -> String {
        format!("{self:?}").to_lowercase()
    }

    /// The kind of a name.
    pub fn from_name(name: &str) -> Option<Kind> {
        Kind::MIX.iter().map(|(kind, _)| *kind).find(|kind| kind.name() == name)
    }
}

/// A case and what it was made for.
#[derive(Clone, PartialEq, Eq, Debug)]
pub struct Made {
    /// What it was made for.
    pub kind: Kind,
    /// The case.
    pub case: Case,
}

/// The endless row of cases of a seed; after the last number comes 0.
#[derive(Clone, Debug)]
pub struct Generator {
    seed: u64,
    next: u64,
    only: Option<Kind>,
}

impl Generator {
    /// All kinds, by the mix.
    pub fn new(seed: u64) -> Generator {
        Generator { seed, next: 0, only: None }
    }

    /// One kind only.
    pub fn only(seed: u64, kind: Kind) -> Generator {
        Generator { seed, next: 0, only: Some(kind) }
    }

    /// The row from a later case on.
    pub fn starting_at(self, index: u64) -> Generator {
        Generator { next: index, ..self }
    }

    /// The case with this number.
    pub fn case(&self, index: u64) -> Made {
        let mut random = Random::for_case(self.seed, index);
        let mixed = random.weighted(&Kind::MIX).unwrap_or(Kind::History);
        let kind = self.only.unwrap_or(mixed);
        Made { kind, case: make_case(&mut random, kind) }
    }
}

impl Iterator for Generator {
    type Item = Made;

    fn next(&mut self) -> Option<Made> {
        let made = self.case(self.next);
        self.next = self.next.wrapping_add(1);
        Some(made)
    }
}

/// One case of a kind.
pub fn make_case(random: &mut Random, kind: Kind) -> Case {
    match kind {
        Kind::History => Case::History(history(random)),
        Kind::SoundCommand => {
            let card = images::sound_card(random);
            fitting(random, &card, card.encode())
        }
        Kind::SoundReport => Case::Report { image: images::sound_image(random) },
        Kind::DamagedCommand => {
            let (card, image) = damaged_card(random);
            fitting(random, &card, image)
        }
        Kind::DamagedReport => Case::Report { image: damaged_card(random).1 },
        Kind::RawCommand => {
            let image = images::sound_image(random);
            let (command, state) = (raw::raw(random), states::any(random));
            one_command(random, image, command, state)
        }
        Kind::NearMiss => {
            let card = images::sound_card(random);
            let (command, state) = (raw::near_miss(random, &card), states::mostly_full(random));
            one_command(random, card.encode(), command, state)
        }
        Kind::Bodies => {
            let card = bodied::card(random);
            let (command, state) = (bodied::command(random, &card), states::mostly_full(random));
            one_command(random, card.encode(), command, state)
        }
        Kind::Security => asking(random),
        Kind::Locked => Case::History(history_with(random, Theme::Locked)),
        Kind::Referred => referring(random),
        Kind::Deciding => places::case(random),
        Kind::RuleFiles => Case::History(ruled::history(random)),
        Kind::Template => {
            let edition = editions::any(random);
            Case::Template { edition, data: breach::any(random, edition) }
        }
        Kind::Make => makers::call(random),
        Kind::Replay => Case::Replay { input: streams::input(random) },
        Kind::Rule => rule_case(random),
        Kind::Worst => worst_case(random),
        Kind::FilesAgain => Case::Again(Again::files(random)),
        Kind::TreeAgain => Case::Again(Again::tree(random)),
    }
}

/// A sound card, and its image damaged in one field.
fn damaged_card(random: &mut Random) -> (Card, Vec<u8>) {
    let card = images::sound_card(random);
    let field = Field::any(random);
    let image = damaged(random, &card, field);
    (card, image)
}

/// A command that fits the card, on its image or a damaged one.
fn fitting(random: &mut Random, card: &Card, image: Vec<u8>) -> Case {
    let command = fitting_command(random, card);
    let state = if random.chance(70) { states::mostly_full(random) } else { states::any(random) };
    one_command(random, image, command, state)
}

/// A command with a pool and a response buffer for it.
fn one_command(random: &mut Random, image: Vec<u8>, command: Vec<u8>, state: State) -> Case {
    let pool = pools::lent(random, &image);
    let response = responses::lent(random, &image, &pool, &command);
    Case::OneCommand { image, pool, command, response, state }
}

/// A command that comes to step J.
fn asking(random: &mut Random) -> Case {
    let (card, command, state) = security::asked(random);
    one_command(random, card.encode(), command, state)
}

/// A command that asks a rule kept in a file.
fn referring(random: &mut Random) -> Case {
    let (kept, command, state) = rule_files::asked(random);
    let (image, pool) = (kept.card.encode(), kept.pool);
    let response = responses::lent(random, &image, &pool, &command);
    Case::OneCommand { image, pool, command, response, state }
}

/// The rule that is looked for longest: asked for, or where it stands.
fn worst_reference(random: &mut Random) -> Case {
    let (worst, pool) = worst::referred_of(worst::MOST_SLOTS);
    let slot = Card::decode(&worst.image).map_or(0, |card| card.current_df);
    let image = worst.image;
    if random.chance(50) {
        return Case::Deciding { image, pool, slot };
    }
    let command = bare(random.pick([0x04, 0x44, 0xE6, 0xFE]));
    Case::OneCommand { image, pool, command, response: Vec::new(), state: states::any(random) }
}

/// A rule of any sort under any state, or one made for a decision under its own.
fn rule_case(random: &mut Random) -> Case {
    let (rule, state) = match random.chance(35) {
        true => security::rule_and_state(random),
        false => (rules::any(random), states::any(random)),
    };
    Case::Rule { rule, state }
}

fn worst_case(random: &mut Random) -> Case {
    if editions::NEWEST.takes(Form::Referred) && random.chance(25) {
        return worst_reference(random);
    }
    let mut cards = worst::cards();
    cards.extend(worst::ruled_of(worst::MOST_SLOTS));
    if editions::NEWEST.has_bodies() {
        cards.extend(worst::far_apart_of(worst::MOST_SLOTS));
    }
    let image = random.choose(&cards).map(|worst| worst.image.clone()).unwrap_or_default();
    match Card::decode(&image) {
        Some(card) if random.chance(75) => fitting(random, &card, image),
        _ => Case::Report { image },
    }
}
