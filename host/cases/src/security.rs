//! Commands that come to step J, with the rule that they ask, or both that
//! DELETE asks, made for one decision each (02, Ticket 6). What a later step
//! would say is left to the card.

use model::rule::Right;
use model::{Card, State};

use crate::actions::{bare, delete, Action};
use crate::bodies::read_or_update;
use crate::creations::data_for;
use crate::decided::{self, Wish};
use crate::random::Random;
use crate::{bodied, images};

/// How often another command is tried where the card gives no occasion.
const TRIES: usize = 8;

/// CREATEs that step L, or nothing, would refuse.
const CREATIONS: [Action; 10] = [
    Action::CreateEf,
    Action::CreateDf,
    Action::CreateEf,
    Action::CreateDf,
    Action::CreateNamed,
    Action::CreateByGaps,
    Action::CreateExact,
    Action::CreateOneAbove,
    Action::CreateTakenIdentifier,
    Action::CreateTakenName,
];

/// A command, and whose rule it asks for which right.
pub(crate) type Asking = (Vec<u8>, Vec<(usize, Right)>);

/// A card, a command on it, and the state under which it is asked.
pub fn asked(random: &mut Random) -> (Card, Vec<u8>, State) {
    let mut card = some_card(random);
    let (command, asks) = some_command(random, &card);
    let state = decided::state(random);
    for (slot, right) in asks {
        let wish = Wish { right, state, decision: decided::decision(random, &state) };
        let rule = decided::rule(random, card.edition, &wish);
        if let Some(record) = card.records.get_mut(slot) {
            (record.form, record.rule) = (rule.form, rule.bytes);
        }
    }
    (card, command, State { channels: channels(random), ..state })
}

/// A rule of any right under a state, which it was made for.
pub fn rule_and_state(random: &mut Random) -> (crate::Rule, State) {
    let wish = decided::some_wish(random);
    let edition = crate::editions::any(random);
    (decided::rule(random, edition, &wish), wish.state)
}

/// A command for a card that asks one of its rules, or two.
pub(crate) fn some_command(random: &mut Random, card: &Card) -> Asking {
    let found = (0..TRIES).find_map(|_| command(random, card));
    found.unwrap_or_else(|| (bare(0xFE), vec![(0, Right::Terminate)]))
}

/// A small card, more often one with an EF that can be read.
fn some_card(random: &mut Random) -> Card {
    if random.chance(45) {
        return bodied::card(random);
    }
    let slots = random.range(4, 14) as usize;
    images::sound_card_of(random, slots)
}

/// Mostly no other channel; bits that do not count, seldom one that does.
pub(crate) fn channels(random: &mut Random) -> u8 {
    match random.below(20) {
        0 => random.pick([0x02, 0x04, 0x08, 0x0E, 0xFF]),
        1 | 2 => random.pick([0x01, 0xF0, 0xF1]),
        _ => 0,
    }
}

/// Any command that asks a rule, if the card gives occasion for it.
fn command(random: &mut Random, card: &Card) -> Option<Asking> {
    let df = card.current_df;
    let file = card.current_ef.unwrap_or(df);
    match random.below(14) {
        0 => Some((bare(0x44), vec![(file, Right::Activate)])),
        1 => Some((bare(0x04), vec![(file, Right::Deactivate)])),
        2 => Some((bare(0xE8), vec![(card.current_ef?, Right::Terminate)])),
        3 => Some((bare(0xE6), vec![(df, Right::Terminate)])),
        4 => Some((bare(0xFE), vec![(0, Right::Terminate)])),
        5..=7 => creation(random, card),
        8..=10 => deletion(random, card),
        _ => reading(random, card),
    }
}

fn creation(random: &mut Random, card: &Card) -> Option<Asking> {
    let data = data_for(random.pick(CREATIONS), random, card, None)?;
    let right = if data.is_df() { Right::CreateDf } else { Right::CreateEf };
    Some((data.command(), vec![(card.current_df, right)]))
}

/// DELETE of a child, whose own rule is asked and the directory's.
fn deletion(random: &mut Random, card: &Card) -> Option<Asking> {
    let children: Vec<_> = card.children(card.current_df).collect();
    let child = *random.choose(&children)?;
    let asks = vec![(child, Right::DeleteSelf), (card.current_df, Right::DeleteChild)];
    Some((delete(card.record(child).identifier), asks))
}

/// READ or UPDATE of the current EF, where there are bodies.
fn reading(random: &mut Random, card: &Card) -> Option<Asking> {
    let ef = card.current_ef.filter(|_| card.edition.has_bodies())?;
    let command = read_or_update(random, card);
    let right = match command.get(1) {
        Some(0xB0 | 0xB2) => Right::READ,
        _ => Right::UPDATE,
    };
    Some((command, vec![(ef, right)]))
}
