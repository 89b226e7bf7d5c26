//! Cards made for their bodies (02, Ticket 4): few files, mostly EFs that can be
//! read and written, far apart in the pool, so that CREATE has to find a gap or
//! to move them.

use model::{Card, Kind, Record};

use crate::actions::{command_for, delete, Action};
use crate::bodies::read_or_update;
use crate::choices::{a_child, free_identifier};
use crate::layouts::{lay_out, Layout};
use crate::random::Random;
use crate::{editions, images, life_cycles, raw, rules};

/// Most files on such a card.
const MOST_FILES: u32 = 6;
/// The most records that an EF can have.
const MOST_RECORDS: u32 = 254;

/// A card with bodies, if the newest version has them.
pub fn card(random: &mut Random) -> Card {
    let slots = random.range(4, 24) as usize;
    let mut card = images::empty_card_of(random, editions::NEWEST, slots);
    for _ in 0..random.range(1, MOST_FILES) {
        add(random, &mut card);
    }
    let layout = Layout::any(random);
    lay_out(random, &mut card, layout);
    choose_current(random, &mut card);
    card
}

/// Mostly an EF becomes current, in its directory; else any directory.
fn choose_current(random: &mut Random, card: &mut Card) {
    let files: Vec<_> = card.used_slots().filter(|&slot| card.record(slot).is_ef()).collect();
    match random.choose(&files) {
        Some(&ef) if random.chance(80) => {
            card.make_current(card.parent(ef));
            card.make_current(ef);
        }
        _ => images::choose_current(random, card, 50),
    }
}

/// Adds a file in any free slot, an EF mostly in the root.
fn add(random: &mut Random, card: &mut Card) -> Option<()> {
    let free: Vec<_> = (0..card.records.len()).filter(|&s| !card.record(s).is_used()).collect();
    let slot = *random.choose(&free)?;
    let directories: Vec<_> = card.used_slots().filter(|&s| card.record(s).is_df()).collect();
    let df = if random.chance(60) { 0 } else { *random.choose(&directories)? };
    let most = u32::try_from(card.room(df).checked_sub(65)?).ok()? + 1;
    let (kind, descriptor, record_length, size) = measures(random, most);
    let rule = rules::mostly_open(random, card.edition);
    // What lies beneath a terminated directory is neither read nor written.
    let life_cycle = match (kind, random.chance(80)) {
        (Kind::Df, _) => life_cycles::of_a_record(random, 30),
        (_, true) => life_cycles::of_an_activated_file(random),
        (_, false) => life_cycles::of_a_record(random, 20),
    };
    let file = Record {
        kind,
        descriptor,
        life_cycle,
        identifier: free_identifier(random, card, df),
        parent: df as u16,
        level: card.record(df).level + 1,
        record_length,
        size,
        form: rule.form,
        rule: rule.bytes,
        ..Record::FREE
    };
    card.put(slot, file);
    Some(())
}

/// Kind, descriptor, record length and size of at most so many bytes: a
/// directory; bytes, one or few or all that there is room for; records, few or
/// as many as can be.
fn measures(random: &mut Random, most: u32) -> (Kind, u8, u16, u32) {
    let transparent = random.pick([0x01, 0x41, 0x49]);
    let size = match random.below(16) {
        0 | 1 => return (Kind::Df, 0x78, 0, random.range(most / 3 + 1, most)),
        2 | 3 => 1,
        4 => most,
        5 => random.range(1, most),
        6..=9 => random.range(1, most.min(40)),
        _ => {
            let length = if random.chance(25) { 1 } else { random.range(1, most.min(9)) };
            let fitting = (most / length).min(MOST_RECORDS);
            let few = fitting.min(20);
            let records = if random.chance(35) { fitting } else { random.range(1, few) };
            let descriptor = random.pick([0x02, 0x06, 0x42, 0x46, 0x4E]);
            return (Kind::Ef, descriptor, length as u16, length * records);
        }
    };
    (Kind::Ef, transparent, 0, size)
}

/// A command for such a card: READ and UPDATE, good or nearly; CREATE by its
/// gaps; DELETE.
pub fn command(random: &mut Random, card: &Card) -> Vec<u8> {
    let other = match random.below(12) {
        0..=2 => command_for(Action::CreateByGaps, random, card, None),
        3 => command_for(Action::CreateExact, random, card, None),
        4 => command_for(Action::CreateOneAbove, random, card, None),
        5 => a_child(random, card).map(delete),
        6 => Some(raw::near_miss_of_bodies(random, card)),
        _ => None,
    };
    other.unwrap_or_else(|| read_or_update(random, card))
}
