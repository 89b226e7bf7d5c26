//! Images damaged in one field: for each field of header and record the
//! values just beyond what soundness allows (01, "Image"; 02, Tickets 3, 4 and 7).

use model::rule::Form;
use model::Card;

use crate::random::Random;
use crate::{editions, expanded, layouts, life_cycles, rules};

/// The field that was damaged.
#[derive(Clone, Copy, PartialEq, Eq, PartialOrd, Ord, Debug)]
#[allow(missing_docs)]
pub enum Field {
    BufferLength,
    Mark,
    Version,
    SlotCount,
    CurrentDf,
    CurrentEf,
    HeaderZeros,
    FreeRecord,
    Kind,
    Descriptor,
    LifeCycle,
    ByteThree,
    Identifier,
    Parent,
    Level,
    RecordLength,
    Size,
    Name,
    NamePadding,
    Rule,
    RulePadding,
    Tail,
    Start,
}

impl Field {
    /// All fields.
    pub const ALL: [Field; 23] = [
        Field::BufferLength,
        Field::Mark,
        Field::Version,
        Field::SlotCount,
        Field::CurrentDf,
        Field::CurrentEf,
        Field::HeaderZeros,
        Field::FreeRecord,
        Field::Kind,
        Field::Descriptor,
        Field::LifeCycle,
        Field::ByteThree,
        Field::Identifier,
        Field::Parent,
        Field::Level,
        Field::RecordLength,
        Field::Size,
        Field::Name,
        Field::NamePadding,
        Field::Rule,
        Field::RulePadding,
        Field::Tail,
        Field::Start,
    ];

    /// What belongs to a record's rule, where versions differ.
    pub const OF_THE_RULE: [Field; 4] =
        [Field::ByteThree, Field::Rule, Field::RulePadding, Field::Tail];

    /// Any field, those of the rule and the start more often.
    pub fn any(random: &mut Random) -> Field {
        match random.below(10) {
            0 | 1 => random.pick(Field::OF_THE_RULE),
            2 | 3 => Field::Start,
            _ => random.pick(Field::ALL),
        }
    }
}

/// The image of a sound card with one field damaged. A few damages happen to
/// leave the image sound; the tests state the share.
pub fn damaged(random: &mut Random, card: &Card, field: Field) -> Vec<u8> {
    let mut image = card.encode();
    let used: Vec<_> = card.used_slots().collect();
    let slot = random.choose(&used).copied().unwrap_or(0);
    match field {
        Field::BufferLength => resize(random, &mut image),
        Field::Mark => set(&mut image, random.range(0, 2) as usize, &[random.byte() | 0x80]),
        Field::Version => set16(&mut image, 3, editions::wrong_for(random, card)),
        Field::SlotCount => {
            let slots = card.records.len() as u16;
            let count = random.pick([0, 1, slots - 1, slots + 1, 1024, 0xFFFF]);
            set16(&mut image, 5, count);
        }
        Field::Start if card.edition.has_bodies() => {
            let (slot, start) = layouts::wrong_start(random, card);
            set16(&mut image, at(slot, 62), start);
        }
        Field::CurrentDf | Field::CurrentEf => current(random, card, field, &mut image),
        Field::HeaderZeros => {
            let at = random.range(11, 15) as usize;
            set(&mut image, at, &[random.byte() | 1]);
        }
        Field::FreeRecord => {
            let free: Vec<_> =
                (0..card.records.len()).filter(|&s| !card.record(s).is_used()).collect();
            let slot = random.choose(&free).copied().unwrap_or(slot);
            let offset = random.below(64);
            set(&mut image, at(slot, offset), &[random.byte() | 1]);
        }
        _ => record(random, card, field, slot, &mut image),
    }
    image
}

/// Damage in a used record.
fn record(random: &mut Random, card: &Card, field: Field, slot: usize, image: &mut [u8]) {
    match field {
        Field::Kind => set(image, at(slot, 0), &[random.pick([0, 3, 0xFF, 1, 2])]),
        Field::Descriptor => {
            let byte = random.pick([0x00, 0x79, 0x21, 0xB8, 0xC1, 0x40, 0x44, 0xFF]);
            set(image, at(slot, 1), &[byte]);
        }
        Field::LifeCycle => set(image, at(slot, 2), &[life_cycles::of_no_record(random)]),
        Field::ByteThree => set(image, at(slot, 3), &[wrong_form(random, card, slot)]),
        Field::Identifier => set16(image, at(slot, 4), bad_identifier(random, card, slot)),
        Field::Parent => {
            let slots = card.records.len() as u16;
            let parent = random.pick([slot as u16, slots, 0xFFFF, slots - 1]);
            let parent = if slot == 0 { parent.max(1) } else { parent };
            set16(image, at(slot, 6), parent);
        }
        Field::Level => {
            let level = card.record(slot).level;
            set16(image, at(slot, 8), random.pick([level + 1, level.wrapping_sub(1), 0xFFFF]));
        }
        Field::RecordLength => {
            let length = card.record(slot).record_length;
            let bad = if length == 0 { 1 } else { random.pick([0, 256, 0xFFFF]) };
            set16(image, at(slot, 10), bad);
        }
        Field::Size => set(image, at(slot, 12), &bad_size(random, card, slot).to_be_bytes()),
        Field::Name | Field::NamePadding => name(random, card, field, slot, image),
        Field::Rule | Field::RulePadding => rule_bytes(random, card, field, slot, image),
        _ => tail(random, card, slot, image),
    }
}

/// A form that the record's rule does not have: unknown, or one of the others.
fn wrong_form(random: &mut Random, card: &Card, slot: usize) -> u8 {
    let own = card.record(slot).form;
    let others = Form::ALL.into_iter().filter(|form| *form != own).map(Form::number);
    let other = random.choose(&others.collect::<Vec<u8>>()).copied().unwrap_or(3);
    random.pick([other, other, other, 3, 3, 0x80, 0x82, 0xFF])
}

/// The last bytes of a record, but for a start: zero on version 1; where the rule
/// reaches so far one of its bytes, an AM_DO's or AM byte's b8 being wrong there,
/// else padding.
fn tail(random: &mut Random, card: &Card, slot: usize, image: &mut [u8]) {
    let last = if card.edition.has_bodies() { 61 } else { 63 };
    let offset = random.range(50, last) as usize;
    let in_rule = offset < 34 + card.record(slot).rule.len();
    let wrong = if in_rule { random.pick([0xC0, 0xFF]) } else { random.byte() | 1 };
    set(image, at(slot, offset), &[wrong]);
}

/// A current DF that is none, a current EF that is not its child EF.
fn current(random: &mut Random, card: &Card, field: Field, image: &mut [u8]) {
    let slots = card.records.len();
    let wrong = |slot: &usize| match field {
        Field::CurrentDf => !card.record(*slot).is_df(),
        _ => !card.record(*slot).is_ef() || card.parent(*slot) != card.current_df,
    };
    let candidates: Vec<_> = (0..slots + 2).filter(wrong).collect();
    let slot = random.choose(&candidates).copied().unwrap_or(slots);
    let place = if field == Field::CurrentDf { 7 } else { 9 };
    set16(image, place, slot as u16);
}

/// Reserved, a sibling's, or of a directory above.
fn bad_identifier(random: &mut Random, card: &Card, slot: usize) -> u16 {
    if slot == 0 {
        return random.pick([0x3F01, 0x7F10, 0x0000]);
    }
    let parent = card.parent(slot);
    let mut taken: Vec<_> = card
        .children(parent)
        .filter(|&other| other != slot)
        .chain(card.above(slot))
        .map(|other| card.record(other).identifier)
        .collect();
    taken.extend([0x3FFF, 0x7FFF, 0xFFFF]);
    random.choose(&taken).copied().unwrap_or(0xFFFF)
}

/// 0, one above what the directory can pay, one below what the children
/// take, or so large that 32-bit sums wrap.
fn bad_size(random: &mut Random, card: &Card, slot: usize) -> u32 {
    let record = card.record(slot);
    let fitting = match slot {
        0 => 64 * (card.records.len() as u64 - 1),
        _ => card.room(card.parent(slot)) + u64::from(record.size),
    };
    let one_above = u32::try_from(fitting + 1).unwrap_or(u32::MAX);
    let one_below = u32::try_from(card.charged(slot)).unwrap_or(0).saturating_sub(1);
    random.pick([0, one_above, one_above, one_below, u32::MAX, 0xFFFF_FFC0])
}

/// A name of an EF, a name twice, a length beyond 16, padding that is not
/// zero.
fn name(random: &mut Random, card: &Card, field: Field, slot: usize, image: &mut [u8]) {
    let own = &card.record(slot).name;
    let others: Vec<_> = card
        .records
        .iter()
        .map(|record| &record.name)
        .filter(|name| !name.is_empty() && *name != own)
        .collect();
    let other = random.choose(&others).copied();
    match (field, other) {
        (Field::NamePadding, _) if own.len() < 16 => {
            let offset = random.range(17 + own.len() as u32, 32) as usize;
            set(image, at(slot, offset), &[random.byte() | 1]);
        }
        (_, Some(other)) => {
            let mut bytes = vec![other.len() as u8];
            bytes.extend(other);
            bytes.resize(17, 0);
            set(image, at(slot, 16), &bytes);
        }
        _ => set(image, at(slot, 16), &[random.pick([17, 18, 0xFF])]),
    }
}

/// A length of 0 or beyond what the version takes, a malformed rule, a good one
/// of a form that the version does not have, a reference of another length,
/// padding that is not zero.
fn rule_bytes(random: &mut Random, card: &Card, field: Field, slot: usize, image: &mut [u8]) {
    let (record, longest) = (card.record(slot), card.edition.longest_rule());
    let length = record.rule.len();
    if field == Field::RulePadding && length < longest {
        let offset = random.range(34 + length as u32, 33 + longest as u32) as usize;
        set(image, at(slot, offset), &[random.byte() | 1]);
    } else if record.form == Form::Referred || random.chance(20) {
        let wrong = rules::no_reference(random, card.edition);
        set(image, at(slot, 3), &[wrong.form.number()]);
        set_rule(image, slot, longest, &wrong.bytes);
    } else if !card.edition.takes(Form::Expanded) && random.chance(25) {
        // Good on a newer version, and short enough here.
        let newer = expanded::open(random, longest);
        set(image, at(slot, 3), &[Form::Expanded.number()]);
        set_rule(image, slot, longest, &newer);
    } else if random.chance(40) {
        let beyond = longest as u8 + 1;
        set(image, at(slot, 33), &[random.pick([0, beyond, beyond.max(30), 31, 0xFF])]);
    } else {
        let wrong = rules::broken(random, card.edition);
        if wrong.form == record.form && wrong.bytes.len() <= longest {
            set_rule(image, slot, longest, &wrong.bytes);
        } else {
            // An AM byte with b8, or no AM_DO at the start.
            let first = image[at(slot, 34)];
            set(image, at(slot, 34), &[first ^ 0x80]);
        }
    }
}

/// A rule with its length, and zeros behind it up to so many bytes.
fn set_rule(image: &mut [u8], slot: usize, longest: usize, rule: &[u8]) {
    let mut bytes = vec![rule.len() as u8];
    bytes.extend(rule);
    bytes.resize(1 + longest, 0);
    set(image, at(slot, 33), &bytes);
}

fn resize(random: &mut Random, image: &mut Vec<u8>) {
    let length = image.len();
    let wrong = random.pick([0, 15, 16, length - 64, length - 1, length + 1, length + 64]);
    image.resize(wrong, 0);
}

fn at(slot: usize, offset: usize) -> usize {
    16 + 64 * slot + offset
}

fn set(image: &mut [u8], at: usize, bytes: &[u8]) {
    if let Some(part) = image.get_mut(at..at + bytes.len()) {
        part.copy_from_slice(bytes);
    }
}

fn set16(image: &mut [u8], at: usize, number: u16) {
    set(image, at, &number.to_be_bytes());
}
