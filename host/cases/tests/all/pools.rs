//! Pools (02, Ticket 4): of the right length and of wrong ones on version 3, of
//! any length on older versions, full of random bytes.

use std::collections::{BTreeMap, BTreeSet};

use crate::common::say;
use cases::{editions, Case, Generator, Kind};
use model::command;
use model::lines::Case as Line;
use model::soundness::sound_card;

const SEED: u64 = 1208;

/// What a line shows: the version, how long the pool is, the answer.
fn shown(line: Line) -> Option<String> {
    let Line::Command { mut image, pool, command: bytes, state, mut response } = line else {
        return None;
    };
    let card = sound_card(&image);
    let total = card.as_ref().map_or(0, |card| card.record(0).size as usize);
    let mut pool_after = pool.clone();
    let answer = command(&mut image, &mut pool_after, &bytes, &mut response, &state).answer;
    let Some(card) = card else {
        assert_eq!((answer, &pool), (1, &pool_after));
        return Some(format!("unsound {answer}"));
    };
    let (version, has_bodies) = (card.edition.version_number(), card.edition.has_bodies());
    assert!(has_bodies || pool == pool_after, "an older version leaves the pool");
    assert_eq!(answer == 6, has_bodies && pool.len() != total);
    let length = match pool.len() {
        length if length == total => "right",
        0 => "none",
        length if length + 1 == total => "one short",
        length if length == total + 1 => "one long",
        length if length == card.records.len() * 64 - 64 => "of the slots",
        _ => "other",
    };
    let answer = if answer == 6 { " 6" } else { "" };
    Some(format!("v{version} {length}{answer}"))
}

fn counts(kind: Kind, cases: usize) -> BTreeMap<String, usize> {
    let mut counts = BTreeMap::new();
    let lines = Generator::only(SEED, kind).take(cases).flat_map(|made| made.case.lines());
    for name in lines.filter_map(shown) {
        *counts.entry(name).or_insert(0) += 1;
    }
    say(&format!("pools, {}: {counts:?}", kind.name()));
    counts
}

#[track_caller]
fn each_at_least(counts: &BTreeMap<String, usize>, fewest: usize, wanted: &[&str]) {
    let count = |name: &&str| counts.get(*name).copied().unwrap_or(0);
    let lacking: Vec<_> = wanted.iter().filter(|name| count(name) < fewest).collect();
    assert!(lacking.is_empty(), "fewer than {fewest}: {lacking:?}: {counts:?}");
}

/// Every kind of single command lends pools of wrong lengths too.
#[test]
fn pools_of_all_lengths() {
    let wrong = ["v3 one short 6", "v3 one long 6", "v3 none 6", "v3 other 6"];
    let any = ["v1 none", "v2 none", "v1 other", "v2 other"];
    for (kind, cases) in
        [(Kind::SoundCommand, 5000), (Kind::NearMiss, 5000), (Kind::RawCommand, 5000)]
    {
        let counts = counts(kind, cases);
        each_at_least(&counts, 10, &wrong);
        each_at_least(&counts, 2, &["v3 of the slots 6"]);
        each_at_least(&counts, 20, &any);
        each_at_least(&counts, 700, &["v3 right"]);
    }
    let counts = counts(Kind::Bodies, 3000);
    each_at_least(&counts, 20, &wrong);
    each_at_least(&counts, 2500, &["v3 right"]);
}

/// A damaged image is found first, whatever the pool's length.
#[test]
fn damaged_images_come_with_pools_of_all_lengths() {
    let mut lengths = BTreeSet::new();
    for made in Generator::only(SEED, Kind::DamagedCommand).take(3000) {
        let Case::OneCommand { image, pool, .. } = made.case else { panic!("one command") };
        if image.get(4) == Some(&3) && !model::sound(&image) {
            let total = model::bytes::number32(&image, 16 + 12) as usize;
            lengths.insert(pool.len().cmp(&total));
        }
    }
    assert_eq!(lengths.len(), 3, "shorter, right and longer");
}

/// Histories, and cards for files made again, lend pools of the right length.
#[test]
fn histories_and_files_made_again_lend_right_pools() {
    for (kind, cases) in [(Kind::History, 300), (Kind::FilesAgain, 60), (Kind::TreeAgain, 60)] {
        let counts = counts(kind, cases);
        each_at_least(&counts, 300, &["v3 right"]);
        assert!(!counts.keys().any(|name| name.ends_with(" 6")), "{counts:?}");
    }
}

#[test]
fn pools_hold_random_bytes() {
    let (mut seen, mut pools) = (BTreeSet::new(), 0);
    for made in Generator::only(SEED, Kind::Bodies).take(100) {
        let Case::OneCommand { pool, .. } = made.case else { panic!("one command") };
        pools += usize::from(pool.len() > 100);
        seen.extend(pool);
    }
    assert!(pools > 80, "{pools}");
    assert_eq!(seen.len(), 256);
}

#[test]
fn all_versions_are_made() {
    assert_eq!(editions::all(), model::edition::Version::ALL);
    let mut counts = BTreeMap::new();
    for made in Generator::only(SEED, Kind::SoundReport).take(700) {
        let Case::Report { image } = made.case else { panic!("a report is a report") };
        *counts.entry(image[4]).or_insert(0) += 1;
    }
    assert!([1, 2, 3].iter().all(|version| counts[version] > 150), "{counts:?}");
}
