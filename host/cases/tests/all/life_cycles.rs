//! The generator shows what 06 and 07 do in every command that asks a life
//! cycle (02, Ticket 1), in histories and on images, and bad life-cycle bytes
//! where it means to.

use std::collections::{BTreeMap, BTreeSet};

use crate::common::say;
use cases::damage::{damaged, Field};
use cases::images::sound_card as some_card;
use cases::{life_cycles, Case, Generator, Kind, Random};
use model::lines::Case as Line;
use model::soundness::{card_is_sound, sound_card};
use model::{command, report, sound, template, words, Card, State, Word};

const SEED: u64 = 1202;

/// The bytes that a record may hold, and those of them that CREATE takes.
const GOOD: [u8; 7] = [0x01, 0x03, 0x04, 0x05, 0x06, 0x07, 0x0C];
const NEW: [u8; 6] = [0x01, 0x03, 0x04, 0x05, 0x06, 0x07];

/// What is done, the life-cycle byte that it meets, its word, and the byte
/// afterwards.
type Event = (&'static str, u8, Word, u8);

/// What 06 and 07 must be seen to do, and nothing else. Only an image can hold
/// a root with one of them, since neither the maker nor a transition writes
/// it, so the last two come in no history.
const WANTED: [Event; 18] = [
    ("CREATE a DF", 0x06, 0x9000, 0x06),
    ("CREATE a DF", 0x07, 0x9000, 0x07),
    ("CREATE an EF", 0x06, 0x9000, 0x06),
    ("CREATE an EF", 0x07, 0x9000, 0x07),
    ("CREATE in", 0x06, 0x6985, 0x06),
    ("CREATE in", 0x07, 0x9000, 0x07),
    ("SELECT", 0x06, 0x6283, 0x06),
    ("SELECT", 0x07, 0x9000, 0x07),
    ("ACTIVATE", 0x06, 0x9000, 0x05),
    ("ACTIVATE", 0x07, 0x6985, 0x07),
    ("DEACTIVATE", 0x06, 0x6985, 0x06),
    ("DEACTIVATE", 0x07, 0x9000, 0x04),
    ("TERMINATE EF", 0x06, 0x9000, 0x0C),
    ("TERMINATE EF", 0x07, 0x9000, 0x0C),
    ("TERMINATE DF", 0x06, 0x9000, 0x0C),
    ("TERMINATE DF", 0x07, 0x9000, 0x0C),
    ("TERMINATE CARD", 0x06, 0x9000, 0x0C),
    ("TERMINATE CARD", 0x07, 0x9000, 0x0C),
];
const WANTED_OF_HISTORIES: usize = 16;

/// The slot of the current EF, else of the current DF.
fn current(card: &Card) -> usize {
    card.current_ef.unwrap_or(card.current_df)
}

/// What a command does, the slot whose life cycle it asks, and a byte there
/// with which the life cycle is no hindrance.
fn asked(bytes: &[u8], before: &Card, after: &Card) -> Option<(&'static str, usize, u8)> {
    Some(match bytes.get(1)? {
        0xA4 => ("SELECT", current(after), 0x05),
        0xE0 => ("CREATE in", before.current_df, 0x05),
        0x44 => ("ACTIVATE", current(before), 0x04),
        0x04 => ("DEACTIVATE", current(before), 0x05),
        0xE8 => ("TERMINATE EF", current(before), 0x05),
        0xE6 => ("TERMINATE DF", before.current_df, 0x05),
        0xFE => ("TERMINATE CARD", 0, 0x05),
        _ => return None,
    })
}

/// Whether a command would succeed if one file had this byte.
fn succeeds_with(card: &Card, slot: usize, byte: u8, bytes: &[u8], state: &State) -> bool {
    let mut other = card.clone();
    other.set_life_cycle(slot, byte);
    let (mut image, mut pool) = (other.encode(), pool_for(card));
    command(&mut image, &mut pool, bytes, &mut [], state).word == words::SUCCESS
}

/// A pool of the right length.
fn pool_for(card: &Card) -> Vec<u8> {
    vec![0; card.record(0).size as usize]
}

/// The events of one command on a sound image. 6985 has many causes; it counts
/// only where the one byte is the cause.
fn events(image: &[u8], bytes: &[u8], state: &State) -> Vec<Event> {
    let before = sound_card(image).expect("sound before");
    let mut image = image.to_vec();
    let mut pool = pool_for(&before);
    let word = command(&mut image, &mut pool, bytes, &mut [0; 72], state).word;
    let after = sound_card(&image).expect("sound after");
    let Some((what, slot, harmless)) = asked(bytes, &before, &after) else { return Vec::new() };
    let told = words::is_success(word)
        || word == words::CONDITIONS_NOT_SATISFIED
            && succeeds_with(&before, slot, harmless, bytes, state);
    if !told {
        return Vec::new();
    }
    let byte = |card: &Card, slot: usize| card.record(slot).life_cycle;
    let mut found = vec![(what, byte(&before, slot), word, byte(&after, slot))];
    if what == "CREATE in" && word == words::SUCCESS {
        let new = after.record(current(&after));
        let what = if new.is_df() { "CREATE a DF" } else { "CREATE an EF" };
        found.push((what, new.life_cycle, word, new.life_cycle));
    }
    found
}

/// How often each event with 06 or 07 comes among the commands of a kind.
fn counts(kind: Kind, cases: usize) -> BTreeMap<Event, usize> {
    let mut counts = BTreeMap::new();
    for line in Generator::only(SEED, kind).take(cases).flat_map(|made| made.case.lines()) {
        let Line::Command { image, command: bytes, state, .. } = line else { continue };
        let found = events(&image, &bytes, &state);
        for event in found.into_iter().filter(|(_, byte, ..)| [0x06, 0x07].contains(byte)) {
            *counts.entry(event).or_insert(0) += 1;
        }
    }
    counts
}

/// Each wanted event comes a few times, and no other event does.
#[track_caller]
fn shows(what: &str, counts: &BTreeMap<Event, usize>, wanted: &[Event]) {
    let rarest = counts.values().min().copied().unwrap_or(0);
    say(&format!("06 and 07 {what}: {} events, the rarest {rarest} times", counts.len()));
    assert_eq!(counts.keys().collect::<BTreeSet<_>>(), wanted.iter().collect(), "{counts:02X?}");
    assert!(rarest >= 5, "{counts:02X?}");
}

#[test]
fn histories_show_each_command_on_06_and_07() {
    shows("in histories", &counts(Kind::History, 1500), &WANTED[..WANTED_OF_HISTORIES]);
}

#[test]
fn images_show_each_command_on_06_and_07() {
    shows("on images", &counts(Kind::SoundCommand, 15_000), &WANTED);
}

#[test]
fn the_root_a_df_and_an_ef_hold_each_good_byte() {
    let mut seen: BTreeMap<&str, BTreeSet<u8>> = BTreeMap::new();
    for made in Generator::only(SEED, Kind::SoundReport).take(1500) {
        let Case::Report { image } = made.case else { panic!("a report is a report") };
        let card = sound_card(&image).expect("a sound image");
        for slot in card.used_slots() {
            let record = card.record(slot);
            let place = match slot {
                0 => "root",
                _ if record.is_df() => "DF",
                _ => "EF",
            };
            seen.entry(place).or_default().insert(record.life_cycle);
        }
    }
    for place in ["root", "DF", "EF"] {
        assert_eq!(seen[place], BTreeSet::from(GOOD), "{place}: {seen:02X?}");
    }
}

/// The slot and byte by which alone a decodable image is unsound.
fn only_bad_byte(image: &[u8]) -> Option<(usize, u8)> {
    let mut card = Card::decode(image).filter(|card| !card_is_sound(card))?;
    let slot = card.used_slots().find(|&slot| !GOOD.contains(&card.record(slot).life_cycle))?;
    let byte = card.record(slot).life_cycle;
    card.set_life_cycle(slot, 0x05);
    card_is_sound(&card).then_some((slot, byte))
}

#[test]
fn a_damaged_life_cycle_alone_makes_the_image_unsound() {
    let mut random = Random::new(SEED);
    let mut seen = BTreeSet::new();
    for _ in 0..1000 {
        let card = some_card(&mut random);
        let image = damaged(&mut random, &card, Field::LifeCycle);
        assert!(!sound(&image));
        let (slot, byte) = only_bad_byte(&image).expect("only the life-cycle byte is bad");
        seen.insert((slot == 0, byte));
    }
    for byte in [0x00, 0x02, 0x08, 0x0D, 0x0E, 0x0F, 0xFF] {
        for in_root in [true, false] {
            assert!(seen.contains(&(in_root, byte)), "{byte:02X}, root {in_root}: {seen:02X?}");
        }
    }
}

#[test]
fn damaged_cases_hold_bad_life_cycles() {
    let mut seen = BTreeSet::new();
    for kind in [Kind::DamagedCommand, Kind::DamagedReport] {
        for made in Generator::only(SEED, kind).take(4000) {
            let (image, answer) = match made.case {
                Case::OneCommand { image, mut pool, command: bytes, mut response, state } => {
                    let mut after = image.clone();
                    let told = command(&mut after, &mut pool, &bytes, &mut response, &state);
                    (image, told.answer)
                }
                Case::Report { image } => (image.clone(), report(&image).0),
                other => panic!("neither a command nor a report: {other:?}"),
            };
            if let Some((_, byte)) = only_bad_byte(&image) {
                assert_eq!(answer, 1, "{byte:02X}");
                seen.insert((kind, byte));
            }
        }
        for byte in [0x00, 0x02, 0x0D, 0x0E, 0x0F] {
            assert!(seen.contains(&(kind, byte)), "{byte:02X}: {seen:02X?}");
        }
    }
}

/// The place of the value of 8A in CREATE's data, if it is one byte.
fn life_cycle_place(data: &[u8]) -> Option<usize> {
    let mut at = 2;
    loop {
        match (*data.get(at)?, *data.get(at + 1)?) {
            (0x8A, 1) => return Some(at + 2).filter(|&place| place < data.len()),
            (_, length) => at += 2 + usize::from(length),
        }
    }
}

#[test]
fn creates_data_hold_each_good_byte_and_bad_ones() {
    let (mut taken, mut refused) = (BTreeSet::new(), BTreeSet::new());
    for made in Generator::only(SEED, Kind::Template).take(5000) {
        let Case::Template { edition, mut data } = made.case else {
            panic!("a template is a template")
        };
        let Some(place) = life_cycle_place(&data) else { continue };
        let byte = data[place];
        let good = |data: &[u8]| template::read(data, edition).is_some();
        if good(&data) {
            taken.insert(byte);
        } else {
            data[place] = 0x05;
            refused.extend(good(&data).then_some(byte));
        }
    }
    assert_eq!(taken, BTreeSet::from(NEW));
    for byte in [0x00, 0x02, 0x08, 0x0C, 0x0D, 0x0E, 0x0F, 0xFF] {
        assert!(refused.contains(&byte), "{byte:02X}: {refused:02X?}");
    }
}

#[test]
fn good_bytes_are_good_and_bad_bytes_are_bad() {
    let mut random = Random::new(SEED);
    for _ in 0..2000 {
        assert!(NEW.contains(&life_cycles::of_a_new_file(&mut random)));
        assert!([0x05, 0x07].contains(&life_cycles::of_an_activated_file(&mut random)));
        assert!(GOOD.contains(&life_cycles::of_a_record(&mut random, 10)));
        assert!(!NEW.contains(&life_cycles::of_no_new_file(&mut random)));
        assert!(!GOOD.contains(&life_cycles::of_no_record(&mut random)));
    }
}
