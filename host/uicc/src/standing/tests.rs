//! Where a rule stands, beside what the card does; each reason why there is none.

use std::collections::BTreeMap;

use card::{Kind, Security, State, Word};
use cases::images::sound_card;
use cases::pools;
use cases::random::Random;
use cases::rule_files;
use model::bytes::number16;
use model::record::{Kind as FileKind, Record};
use model::rule::Form;

use super::*;
use crate::rule::tests::random::Noise;

/// Identifiers that files and references share.
const IDENTIFIERS: [u16; 4] = [0x6F01, 0x6F02, 0x6F03, 0x7F10];

/// Bytes of a record, and of a file.
const RECORD: usize = 12;
const SIZE: usize = 2 * RECORD;

/// What a record holds before its padding: a good rule, nothing, or another thing.
fn kept(noise: &mut Noise) -> Vec<u8> {
    match noise.below(8) {
        0 => Vec::new(),
        1 => vec![0x80, 0x01, 0x7F],
        2 => vec![0x80, 0x01, 0x7F, 0x90, 0x00, 0xFF, 0x00],
        3 => vec![0x80, 0x01, 0x03, 0x90, 0x00],
        4 => noise.expanded(),
        _ => vec![0x80, 0x01, 0x03, 0x9E, 0x01, noise.condition_byte()],
    }
}

/// A sound card on which most files have references to what may be there, and
/// linear fixed files hold rules, nothing, and others.
pub fn referring(noise: &mut Noise) -> Option<(Decoded, Vec<u8>)> {
    let made = Card::make(24, Kind::VERSION_3, 1472, Rule::OPEN).ok()?;
    let mut card = Decoded::decode(made.image())?;
    let mut pool = vec![0xFF; 1472];
    let mut directories = vec![0];
    for slot in 1..16 {
        let parent = directories[noise.below(directories.len() as u64) as usize];
        let identifier = IDENTIFIERS[noise.below(4) as usize];
        let level = card.record(parent).level + 1;
        if card.children(parent).any(|other| card.record(other).identifier == identifier) {
            continue;
        }
        let way: Vec<_> = card.above(parent).into_iter().chain([parent]).collect();
        if way.iter().any(|above| card.record(*above).identifier == identifier) {
            continue;
        }
        let (descriptor, record_length, size) = match noise.below(6) {
            0 | 1 => (0x38, 0, 200 / u32::from(level)),
            2 => (0x41, 0, SIZE as u32),
            3 => (0x46, RECORD as u16, SIZE as u32),
            _ => (0x42, RECORD as u16, SIZE as u32),
        };
        let kind = if descriptor == 0x38 { FileKind::Df } else { FileKind::Ef };
        let named = IDENTIFIERS[noise.below(4) as usize].to_be_bytes();
        let (form, rule) = match noise.below(8) {
            0 => (Form::Compact, vec![0x01, 0x00]),
            _ => (Form::Referred, vec![named[0], named[1], noise.below(4) as u8]),
        };
        let start = if kind == FileKind::Ef { (SIZE * slot) as u16 } else { 0 };
        let file = Record { kind, descriptor, life_cycle: 0x05, form, identifier, ..Record::FREE };
        let parent = parent as u16;
        let file = Record { parent, level, size, record_length, rule, start, ..file };
        card.put(slot, file);
        if kind == FileKind::Df {
            directories.push(slot);
        }
        for record in 0..2 {
            let at = SIZE * slot + RECORD * record;
            let mut rule = kept(noise);
            rule.resize(RECORD, 0xFF);
            pool[at..at + RECORD].copy_from_slice(&rule);
        }
    }
    Some((card, pool))
}

/// What is told of every slot of a card agrees with the library's place and with
/// the model; gives the reasons that it met.
fn agrees(card: &Card, decoded: &Decoded) -> Vec<Option<Reason>> {
    let mut met = Vec::new();
    for slot in decoded.used_slots() {
        let place = card.rule_place(slot).expect("a sound card");
        let bytes = place.bytes(card.image(), card.pool());
        // The reason is looked for whatever the library tells.
        let denial = Denial::of(decoded, card.pool(), slot);
        assert_eq!(denial.is_some(), place == Place::Nowhere, "slot {slot}: {denial:?}");
        let standing = Standing::of(card, decoded, slot).expect("something to tell");
        assert_eq!(standing.rule().map(|rule| rule.bytes), denial.is_none().then_some(bytes));
        if let Some(rule) = standing.rule() {
            assert!(rule::malformed(rule).is_none(), "slot {slot}");
        }
        match &standing {
            Standing::Own(rule) => assert_eq!(*rule, rule::of_record(decoded.record(slot))),
            Standing::Kept(found, number, _) => {
                let own = &decoded.record(slot).rule;
                assert_eq!(decoded.record(found.slot).identifier, number16(own, 0));
                assert_eq!(*number, own[2]);
            }
            Standing::Denied(denial) => assert!(!denial.words.is_empty()),
        }
        met.push(denial.map(|denial| denial.reason));
    }
    met
}

#[test]
fn a_reason_is_told_exactly_where_the_library_finds_no_rule() {
    let mut noise = Noise::new(7);
    let mut met: BTreeMap<Option<Reason>, usize> = BTreeMap::new();
    let (mut cards, mut kept) = (0, 0);
    for _ in 0..9000 {
        let Some((decoded, pool)) = referring(&mut noise) else { continue };
        let Ok(card) = Card::from_parts(decoded.encode(), pool) else { continue };
        cards += 1;
        for reason in agrees(&card, &decoded) {
            *met.entry(reason).or_default() += 1;
        }
        let is_kept = |slot: &usize| matches!(card.rule_place(*slot), Ok(Place::InPool { .. }));
        kept += decoded.used_slots().filter(is_kept).count();
    }
    assert!(cards > 1000 && kept > 500, "{cards} cards, {kept} rules in records");
    assert_eq!(met.len(), 8, "{met:?}");
    assert!(met.values().all(|many| *many > 100), "{met:?}");
}

/// The same on the cards of the generator, those of every version and those with
/// rule files.
#[test]
fn cards_of_the_generator_are_told() {
    let mut met: BTreeMap<Option<Reason>, usize> = BTreeMap::new();
    for number in 0..2000 {
        let mut random = Random::for_case(7, number);
        let (decoded, pool) = match number % 2 {
            0 => {
                let decoded = sound_card(&mut random);
                let pool = pools::right(&mut random, &decoded.encode());
                (decoded, pool)
            }
            _ => {
                let kept = rule_files::kept(&mut random);
                (kept.card, kept.pool)
            }
        };
        let card = Card::from_parts(decoded.encode(), pool).expect("a sound card");
        for reason in agrees(&card, &decoded) {
            *met.entry(reason).or_default() += 1;
        }
    }
    assert!(met.len() == 8 && met.values().all(|many| *many > 20), "{met:?}");
}

/// What `allows` and `denies` say of a READ is what the card answers.
#[test]
fn what_decides_is_what_the_card_asks() {
    let mut noise = Noise::new(8);
    let mut words = BTreeMap::new();
    for _ in 0..6000 {
        let Some((mut decoded, pool)) = referring(&mut noise) else { continue };
        let files: Vec<_> =
            decoded.used_slots().filter(|slot| decoded.record(*slot).is_ef()).collect();
        for file in files {
            decoded.make_current(file);
            let Ok(mut card) = Card::from_parts(decoded.encode(), pool.clone()) else { continue };
            let before = card.clone();
            let standing = Standing::of(&before, &decoded, file).expect("something to tell");
            let need = standing.rule().map(|rule| rule::needed(rule, 1).expect("a good rule"));
            let wanted = match need {
                None | Some(rule::Need::Never) => Security::Closed,
                Some(rule::Need::Always) => Security::NoRefusal,
                Some(_) => Security::Lacking,
            };
            let length = decoded.record(file).record_length;
            let read = if length == 0 { [0, 0xB0, 0, 0, 1] } else { [0, 0xB2, 1, 4, length as u8] };
            let reply = card.command(&read, &State::EMPTY).expect("a sound card");
            assert_eq!(reply.security, wanted, "{standing:?}");
            assert_eq!(reply.word == Word::SECURITY, wanted != Security::NoRefusal);
            *words.entry(format!("{wanted:?}")).or_insert(0) += 1;
        }
    }
    assert!(words.len() == 3 && words.values().all(|many| *many > 100), "{words:?}");
}

/// A way that is deep is told by its ends.
#[test]
fn a_long_way_is_cut() {
    let made = Card::make(16, Kind::VERSION_3, 960, Rule::OPEN).expect("a card");
    let mut card = Decoded::decode(made.image()).expect("a card");
    for slot in 1..12_u16 {
        let file = Record { kind: FileKind::Df, descriptor: 0x38, ..Record::FREE };
        let (parent, level, identifier) = (slot - 1, slot, 0x7F00 + slot);
        card.put(usize::from(slot), Record { parent, level, identifier, ..file });
    }
    assert_eq!(way(&card, 0), "3F00");
    assert_eq!(way(&card, 7), "3F00/7F01/7F02/7F03/7F04/7F05/7F06/7F07");
    assert_eq!(way(&card, 8), "3F00/7F01/../7F07/7F08");
}
