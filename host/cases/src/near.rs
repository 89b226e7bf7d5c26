//! Every near-miss, not at random: each instruction's good command with every
//! other class, instruction, parameter, Lc, Le and length (01, steps A to G; 02,
//! Ticket 4); and a CREATE with an expanded rule, with every other byte in it
//! (Ticket 3).

use model::edition::{Edition, Version};
use model::rule::Form;
use model::{Card, State};

use crate::actions::{bare, delete, select, select_fcp};
use crate::case::{Case, History, Lent, Step};
use crate::rules::{self, Rule};
use crate::template::FileData;
use crate::{editions, near_kept};

/// How many bytes too many are tried.
const BYTES_TOO_MANY: usize = 3;

/// The response buffer that is lent with each.
pub const RESPONSE: [u8; 64] = [0xA5; 64];

/// Where Le stands in a SELECT that wants data.
const LE_OF_SELECT: usize = 7;

/// The good command of each instruction for [`card`], of SELECT both.
pub fn good_commands() -> Vec<Vec<u8>> {
    let create = FileData::plain(0x41, 0x6F08, 9).command();
    let mut commands = vec![select(0x6F07), delete(0x6F07), create, select_fcp(0x6F07)];
    commands.extend([0x44, 0x04, 0xE8, 0xE6, 0xFE].map(bare));
    commands
}

/// An expanded rule with every tag, two templates in a third, and two groups.
const EXPANDED: [u8; 28] = [
    0x80, 0x01, 0x70, 0x97, 0x00, 0xAF, 0x10, 0xA0, 0x05, 0x9E, 0x01, 0x11, 0x90, 0x00, 0xA0, 0x07,
    0x97, 0x00, 0x9E, 0x01, 0x00, 0x97, 0x00, 0x80, 0x01, 0x08, 0x90, 0x00,
];

/// The image on which they are tried: a DF in the root is current, with an
/// EF in it.
pub fn card() -> Vec<u8> {
    card_of(Edition::BASE, &FileData::plain(0x41, 0x6F07, 9)).image
}

/// The same of version 2.
pub fn card_of_version_two() -> Vec<u8> {
    card_of(Edition::of(Version::Two), &FileData::plain(0x41, 0x6F07, 9)).image
}

/// The same of version 3 with its pool; the EF is transparent, or has three
/// records.
pub fn card_with_body(records: bool) -> Lent {
    let transparent = FileData::plain(0x41, 0x6F07, 9);
    let file = match records {
        true => FileData { descriptor: 0x42, record_length: Some(3), ..transparent },
        false => transparent,
    };
    card_of(Edition::of(Version::Three), &file)
}

fn card_of(edition: Edition, file: &FileData) -> Lent {
    let total = 448;
    let commands = [FileData::plain(0x78, 0x7F10, 256).command(), file.command()];
    let history = History {
        edition,
        slots: 8,
        total,
        rule: rules::open(),
        pool: (0..total).map(|at| at as u8).collect(),
        steps: commands.map(step).into(),
    };
    let mut lent = history.fresh();
    history.play(|_, _, _, after| lent = after.clone());
    debug_assert!(Card::decode(&lent.image).is_some());
    lent
}

/// The good READ and UPDATE for [`card_with_body`].
pub fn good_for_body(records: bool) -> [Vec<u8>; 2] {
    match records {
        true => [vec![0x00, 0xB2, 2, 4, 3], vec![0x00, 0xDC, 2, 4, 3, 1, 2, 3]],
        false => [vec![0x00, 0xB0, 0, 2, 4], vec![0x00, 0xD6, 0, 2, 4, 1, 2, 3, 4]],
    }
}

fn step(command: Vec<u8>) -> Step {
    Step { command, response: Vec::new(), state: State::FULL }
}

/// All near-misses of a good command: each of its first five bytes, and Le of
/// a SELECT, with every other value, cut to every shorter length, and
/// lengthened.
pub fn near_misses_of(good: &[u8]) -> Vec<Vec<u8>> {
    let mut found = Vec::new();
    let is_select = good.get(1) == Some(&0xA4);
    let judged = |place: usize| place < 5 || is_select && place == LE_OF_SELECT;
    for (place, &right) in good.iter().enumerate().filter(|(place, _)| judged(*place)) {
        for wrong in (0..=255).filter(|&byte| byte != right) {
            let mut command = good.to_vec();
            command[place] = wrong;
            found.push(command);
        }
    }
    found.extend((0..good.len()).map(|length| good[..length].to_vec()));
    for extra in 1..=BYTES_TOO_MANY {
        let mut command = good.to_vec();
        command.resize(good.len() + extra, 0);
        // Once with Lc as it was, once with Lc telling the new length.
        if let Some(lc) = command.len().checked_sub(5).filter(|_| good.len() > 4) {
            let mut told = command.clone();
            told[4] = lc as u8;
            found.push(told);
        }
        found.push(command);
    }
    found
}

/// A CREATE with an expanded rule, for [`card_of_version_two`].
pub fn create_expanded() -> Vec<u8> {
    let rule = Rule::expanded(EXPANDED.to_vec());
    FileData { rule, ..FileData::plain(0x41, 0x6F08, 9) }.command()
}

/// The same with each byte of the rule's object, tag and length among them,
/// replaced by every other.
pub fn near_misses_of_the_rule() -> Vec<Vec<u8>> {
    let good = create_expanded();
    let object = Rule::expanded(EXPANDED.to_vec()).object();
    let head = [object.0, object.1.len() as u8];
    let start = good.windows(2).position(|two| two == head).unwrap_or(0);
    let places = start..start + head.len() + object.1.len();
    let replaced = places.flat_map(|place| {
        let others = (0..=255).filter(|byte| good.get(place) != Some(byte));
        let command = |byte| {
            let mut command = good.clone();
            command[place] = byte;
            command
        };
        others.map(command).collect::<Vec<_>>()
    });
    replaced.collect()
}

/// All near-misses of all instructions, of the expanded rule, and of a rule kept in
/// a file, as cases.
pub fn every_near_miss() -> impl Iterator<Item = Case> {
    let older = |image: Vec<u8>| Lent { image, pool: Vec::new() };
    let commands = good_commands().into_iter().flat_map(|good| near_misses_of(&good));
    let of_bodies = [false, true].into_iter().filter(|_| editions::NEWEST.has_bodies());
    on(older(card()), commands)
        .chain(on(older(card_of_version_two()), near_misses_of_the_rule()))
        .chain(of_bodies.flat_map(|records| {
            let commands = good_for_body(records).into_iter();
            let misses = commands.flat_map(|good| near_misses_of(&good));
            on(card_with_body(records), misses)
        }))
        .chain(editions::NEWEST.takes(Form::Referred).then(near_kept::every).into_iter().flatten())
}

/// Each command as a case.
fn on(lent: Lent, commands: impl IntoIterator<Item = Vec<u8>>) -> impl Iterator<Item = Case> {
    commands.into_iter().map(move |command| Case::OneCommand {
        image: lent.image.clone(),
        pool: lent.pool.clone(),
        command,
        response: RESPONSE.to_vec(),
        state: State::FULL,
    })
}
