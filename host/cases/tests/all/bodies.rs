//! Commands on cards with bodies (02, Ticket 4): READ and UPDATE give each of
//! their words, and CREATE and DELETE meet each situation of the pool, on images
//! and in histories.

use std::collections::BTreeMap;

use crate::common::say;
use crate::shown::Shown;
use cases::{Generator, Kind};
use model::bodies::{body, in_order};
use model::lines::Case as Line;
use model::{command, words, State, Word};

const SEED: u64 = 1207;

fn counts(kind: Kind, cases: usize) -> BTreeMap<String, usize> {
    let mut counts = BTreeMap::new();
    let lines = Generator::only(SEED, kind).take(cases).flat_map(|made| made.case.lines());
    for name in lines.filter_map(Shown::of).flat_map(|shown| shown.names()) {
        *counts.entry(name).or_insert(0) += 1;
    }
    counts
}

#[track_caller]
fn shows(what: &str, counts: &BTreeMap<String, usize>, fewest: usize, wanted: &[&str]) {
    let count = |name: &&str| counts.get(*name).copied().unwrap_or(0);
    let rarest = wanted.iter().map(count).min().unwrap_or(0);
    say(&format!("bodies, {what}: {} things shown, the rarest {rarest} times", wanted.len()));
    let lacking: Vec<_> = wanted.iter().filter(|name| count(name) < fewest).collect();
    assert!(lacking.is_empty(), "{what} lack {lacking:?}: {counts:?}");
}

/// What READ and UPDATE show.
const READ_AND_UPDATE: [&str; 56] = [
    "B0 9000",
    "D6 9000",
    "B2 9000",
    "DC 9000",
    "B0 6981",
    "D6 6981",
    "B2 6981",
    "DC 6981",
    "B0 6982",
    "D6 6982",
    "B2 6982",
    "DC 6982",
    "B0 6985",
    "D6 6985",
    "B2 6985",
    "DC 6985",
    "B0 6986",
    "D6 6986",
    "B2 6986",
    "DC 6986",
    "B0 6700",
    "D6 6700",
    "B2 6700",
    "DC 6700",
    "B0 6B00",
    "D6 6B00",
    "B2 6B00",
    "DC 6B00",
    "B2 6A83",
    "DC 6A83",
    "B0 answer 5",
    "B2 answer 5",
    "B0 exactly long enough",
    "B2 exactly long enough",
    "B0 one byte short",
    "B2 one byte short",
    "B0 shorter",
    "B2 shorter",
    "B0 longer",
    "B2 longer",
    "B0 256 bytes",
    "B0 start at the end",
    "D6 start at the end",
    "B0 one byte past the end",
    "D6 one byte past the end",
    "B0 up to the end",
    "D6 up to the end",
    "B2 record 0",
    "DC record 0",
    "B2 past the last",
    "DC past the last",
    "B2 last record",
    "DC last record",
    "B2 record 254",
    "DC record 254",
    "B0 6700 early",
];

/// What CREATE and DELETE show.
const CREATE_AND_DELETE: [&str; 19] = [
    "DF made",
    "made in a gap",
    "made in a gap of its size",
    "made above all",
    "made past a gap one byte short",
    "packed",
    "packed for one byte",
    "packed in another order than the slots",
    "packed, the lowest stays",
    "packed, bytes wiped",
    "packed, free bytes stay",
    "made with no room left",
    "made of one byte",
    "6A84 with free bytes",
    "6A84 without",
    "no body deleted, others stay",
    "one body deleted",
    "one body deleted, others stay",
    "several bodies deleted",
];

/// What comes on other cards more often than on those made for bodies.
const ELSEWHERE: [&str; 5] = [
    "DF made",
    "made of one byte",
    "6A84 without",
    "several bodies deleted",
    "no body deleted, others stay",
];

#[test]
fn cards_made_for_bodies_show_everything() {
    let counts = counts(Kind::Bodies, 8000);
    shows("on cards made for them", &counts, 4, &READ_AND_UPDATE);
    let wanted = CREATE_AND_DELETE.into_iter().filter(|name| !ELSEWHERE.contains(name));
    shows("on cards made for them", &counts, 10, &wanted.collect::<Vec<_>>());
}

#[test]
fn images_show_words_and_places() {
    let counts = counts(Kind::SoundCommand, 20_000);
    for ins in ["B0", "D6", "B2", "DC"] {
        let wanted = ["9000", "6700", "6982", "6985", "6986"].map(|word| format!("{ins} {word}"));
        shows("on images", &counts, 1, &wanted.each_ref().map(String::as_str));
    }
    shows("on images", &counts, 2, &ELSEWHERE);
    shows("on images", &counts, 2, &["made in a gap", "made above all", "packed"]);
}

#[test]
fn histories_show_words_and_places() {
    let counts = counts(Kind::History, 1200);
    let is_word = |name: &&str| name.len() == "B0 9000".len();
    let words: Vec<_> = READ_AND_UPDATE.into_iter().filter(is_word).collect();
    assert_eq!(words.len(), 30);
    shows("in histories", &counts, 3, &words);
    shows("in histories", &counts, 3, &CREATE_AND_DELETE);
}

/// No body is lost or changed but by its own command: what a file reads is what
/// was written last, through all moves.
#[test]
fn bodies_read_the_same_after_every_other_command() {
    let mut moved = 0;
    for line in Generator::only(SEED + 1, Kind::History).take(600).flat_map(|m| m.case.lines()) {
        let Some(shown) = Shown::of(line) else { continue };
        let updates = [0xD6, 0xDC].contains(shown.command.get(1).unwrap_or(&0));
        for slot in in_order(&shown.before) {
            let same_file = shown.after.record(slot).identifier
                == shown.before.record(slot).identifier
                && shown.after.record(slot).is_ef();
            if !same_file || updates {
                continue;
            }
            let (old, new) = (body(shown.before.record(slot)), body(shown.after.record(slot)));
            assert_eq!(shown.pool[old.clone()], shown.pool_after[new.clone()], "slot {slot}");
            moved += usize::from(old != new);
        }
    }
    assert!(moved > 20, "{moved} bodies were moved");
}

/// A word of each of the four under a state that opens nothing.
#[test]
fn words_of_an_empty_state() {
    let mut seen: BTreeMap<Word, usize> = BTreeMap::new();
    for made in Generator::only(SEED, Kind::Bodies).take(800) {
        for line in made.case.lines() {
            let Line::Command { mut image, mut pool, command: bytes, .. } = line else { continue };
            let word = command(&mut image, &mut pool, &bytes, &mut [0; 300], &State::EMPTY).word;
            *seen.entry(word).or_insert(0) += 1;
        }
    }
    assert!(seen[&words::SECURITY_NOT_SATISFIED] > 20, "{seen:04X?}");
    assert!(seen[&words::SUCCESS] > 100, "most rules are open: {seen:04X?}");
}
