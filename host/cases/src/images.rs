//! Sound images at random: files in any slots, in any life cycle, with names
//! and rules of all sorts, bodies anywhere in the pool, and any of them current
//! (01, "Image"; 02, Ticket 4).

use model::edition::Edition;
use model::{Card, Kind, Record};

use crate::choices::free_identifier;
use crate::layouts::{lay_out, Layout};
use crate::random::Random;
use crate::rules::{self, Rule};
use crate::template::record_lengths;
use crate::{editions, life_cycles};

/// How many slots a card has: mostly few, seldom the most.
pub fn slot_count(random: &mut Random) -> usize {
    let many = match random.below(200) {
        0 => return 1023,
        1..=9 => (65, 160),
        10..=49 => (17, 64),
        50..=69 => (2, 3),
        _ => (4, 16),
    };
    random.range(many.0, many.1) as usize
}

/// A sound image.
pub fn sound_image(random: &mut Random) -> Vec<u8> {
    sound_card(random).encode()
}

/// A sound card.
pub fn sound_card(random: &mut Random) -> Card {
    let slots = slot_count(random);
    sound_card_of(random, slots)
}

/// A sound card of so many slots, at least 2, of any edition.
pub fn sound_card_of(random: &mut Random, slots: usize) -> Card {
    let mut card = empty_card(random, slots);
    let files = random.below(slots);
    fill(random, &mut card, files);
    card
}

/// A sound card of the most slots with few files, some of them large.
pub fn sparse_card(random: &mut Random) -> Card {
    let mut card = empty_card(random, 1023);
    let files = random.range(1, 4) as usize;
    fill(random, &mut card, files);
    card
}

/// Adds at most so many files, and chooses the current ones.
fn fill(random: &mut Random, card: &mut Card, files: usize) {
    for _ in 0..files {
        add_file(random, card);
    }
    let layout = Layout::any(random);
    lay_out(random, card, layout);
    choose_current(random, card, 50);
}

/// Only the root, on a card of any edition.
fn empty_card(random: &mut Random, slots: usize) -> Card {
    let edition = editions::any(random);
    empty_card_of(random, edition, slots)
}

/// Only the root, in one of the ways that soundness leaves open.
pub(crate) fn empty_card_of(random: &mut Random, edition: Edition, slots: usize) -> Card {
    let most = 64 * (slots as u32 - 1);
    let total = if random.chance(75) { most } else { random.range(1, most) };
    let mut card =
        Card { edition, current_df: 0, current_ef: None, records: vec![Record::FREE; slots] };
    let rule = rules::mostly_open(random, edition);
    let root = Record {
        kind: Kind::Df,
        descriptor: random.pick([0x38, 0x38, 0x78]),
        life_cycle: life_cycles::of_a_record(random, 2),
        identifier: 0x3F00,
        size: total,
        name: name(random, &card, 10),
        form: rule.form,
        rule: rule.bytes,
        ..Record::FREE
    };
    card.put(0, root);
    card
}

/// Adds a file in a free slot to a directory that has room, if there is one. An
/// EF's body has no place in the pool yet.
fn add_file(random: &mut Random, card: &mut Card) -> Option<()> {
    let free: Vec<_> = (0..card.records.len()).filter(|&s| !card.record(s).is_used()).collect();
    let slot = *random.choose(&free)?;
    let directories: Vec<_> = card.used_slots().filter(|&s| card.record(s).is_df()).collect();
    let df = *random.choose(&directories)?;
    let most = u32::try_from(card.room(df).checked_sub(64)?).ok()?;
    if most == 0 {
        return None;
    }
    let size = match random.below(8) {
        0 => most,
        1 => 1,
        2 | 3 => random.range(1, most),
        _ => random.range(1, most.min(90)),
    };
    let record = if random.chance(40) {
        directory(random, card, size.max(most / 3).max(1))
    } else {
        elementary(random, card, size)
    };
    let placed = Record {
        identifier: free_identifier(random, card, df),
        parent: df as u16,
        level: card.record(df).level + 1,
        ..record
    };
    card.put(slot, placed);
    Some(())
}

fn directory(random: &mut Random, card: &Card, total: u32) -> Record {
    let rule = some_rule(random, card.edition);
    Record {
        kind: Kind::Df,
        descriptor: random.pick([0x38, 0x78]),
        life_cycle: life_cycles::of_a_record(random, 10),
        size: total,
        name: name(random, card, 40),
        form: rule.form,
        rule: rule.bytes,
        ..Record::FREE
    }
}

fn elementary(random: &mut Random, card: &Card, size: u32) -> Record {
    let lengths = record_lengths(size);
    let length = random.choose(&lengths).copied().filter(|_| size % 3 != 1);
    let descriptor = match length {
        None => random.pick([0x01, 0x09, 0x41, 0x49]),
        Some(_) => random.pick([0x02, 0x06, 0x0A, 0x0E, 0x42, 0x46, 0x4A, 0x4E]),
    };
    let rule = some_rule(random, card.edition);
    Record {
        kind: Kind::Ef,
        descriptor,
        life_cycle: life_cycles::of_a_record(random, 10),
        record_length: length.unwrap_or(0),
        size,
        form: rule.form,
        rule: rule.bytes,
        ..Record::FREE
    }
}

fn some_rule(random: &mut Random, edition: Edition) -> Rule {
    if random.chance(60) {
        rules::mostly_open(random, edition)
    } else {
        rules::of_any_form(random, edition)
    }
}

/// A name so many times out of a hundred that is not yet on the card; some
/// differ from another only by a zero at the end.
fn name(random: &mut Random, card: &Card, percent: usize) -> Vec<u8> {
    if !random.chance(percent) {
        return Vec::new();
    }
    let other = random.below(card.records.len());
    let mut name = card.record(other).name.clone();
    if name.is_empty() || name.len() == 16 || random.chance(70) {
        let length = random.range(1, 16) as usize;
        name = random.bytes(length);
    } else {
        name.push(0);
    }
    let taken = card.records.iter().any(|record| record.name == name);
    if taken {
        Vec::new()
    } else {
        name
    }
}

/// Any DF becomes current, and so many times out of a hundred one of its EFs.
pub(crate) fn choose_current(random: &mut Random, card: &mut Card, percent: usize) {
    let directories: Vec<_> = card.used_slots().filter(|&s| card.record(s).is_df()).collect();
    let df = random.choose(&directories).copied().unwrap_or(0);
    card.make_current(df);
    let files: Vec<_> = card.children(df).filter(|&s| card.record(s).is_ef()).collect();
    if let (true, Some(&ef)) = (random.chance(percent), random.choose(&files)) {
        card.make_current(ef);
    }
}
