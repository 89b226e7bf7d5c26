//! Where bodies lie on sound images (02, Ticket 4), and how damage puts them
//! wrong.

use std::collections::BTreeMap;

use crate::common::say;
use cases::damage::{damaged, Field};
use cases::images::sound_card as some_card;
use cases::{bodied, layouts, worst, Random};
use model::bodies::{body, in_order};
use model::soundness::{card_is_sound, sound_card};
use model::{sound, Card};

const SEED: u64 = 1209;

/// How the bodies of a card lie.
fn names(card: &Card) -> Vec<&'static str> {
    let slots = in_order(card);
    let Some((&first, &last)) = slots.first().zip(slots.last()) else { return vec!["none"] };
    let place = |slot: usize| body(card.record(slot));
    let total = card.record(0).size as usize;
    let free: u32 = layouts::gaps(card).iter().sum();
    let touching = slots.windows(2).any(|two| place(two[0]).end == place(two[1]).start);
    let apart = slots.windows(2).any(|two| place(two[0]).end < place(two[1]).start);
    let records = |slot: usize| match card.record(slot).record_length {
        0 => 0,
        length => card.record(slot).size / u32::from(length),
    };
    let most = card.room(card.current_df).saturating_sub(64);
    let no_gap = layouts::gaps(card).iter().all(|&gap| u64::from(gap) < most);
    let told = [
        (place(first).start == 0, "the first at 0"),
        (place(first).start > 0, "the first higher"),
        (place(last).end == total, "the last to the end"),
        (place(last).end < total, "the last not to the end"),
        (touching, "one right above another"),
        (apart, "a gap between two"),
        (slots.windows(2).any(|two| two[0] > two[1]), "in another order than the slots"),
        (slots.iter().any(|&slot| place(slot).len() == 1), "of one byte"),
        (slots.iter().any(|&slot| records(slot) == 254), "of 254 records"),
        (no_gap && most > 0, "room for more than any gap"),
        (most == 0, "no room"),
        (free as usize + slots.iter().map(|&s| place(s).len()).sum::<usize>() == total, "counted"),
    ];
    told.into_iter().filter(|(is_so, _)| *is_so).map(|(_, name)| name).collect()
}

#[track_caller]
fn shows(what: &str, counts: &BTreeMap<&str, usize>, fewest: usize, wanted: &[&str]) {
    say(&format!("{what}: {counts:?}"));
    let count = |name: &&str| counts.get(*name).copied().unwrap_or(0);
    let lacking: Vec<_> = wanted.iter().filter(|name| count(name) < fewest).collect();
    assert!(lacking.is_empty(), "{what}: fewer than {fewest}: {lacking:?}: {counts:?}");
}

const LAYOUTS: [&str; 11] = [
    "of 254 records",
    "the first at 0",
    "the first higher",
    "the last to the end",
    "the last not to the end",
    "one right above another",
    "a gap between two",
    "in another order than the slots",
    "of one byte",
    "room for more than any gap",
    "no room",
];

/// Bodies lie in all ways, on any image and on those made for them.
#[test]
fn bodies_lie_in_all_ways() {
    let mut random = Random::new(SEED);
    for (what, of_bodies) in [("on any image", false), ("on images made for bodies", true)] {
        let (mut counts, mut cards) = (BTreeMap::new(), 0);
        while cards < 1500 {
            let card = if of_bodies { bodied::card(&mut random) } else { some_card(&mut random) };
            assert!(card_is_sound(&card), "{card:?}");
            if !card.edition.has_bodies() {
                assert!(card.records.iter().all(|record| record.start == 0));
                continue;
            }
            cards += 1;
            for name in names(&card) {
                *counts.entry(name).or_insert(0) += 1;
            }
        }
        // Of 254 records only on cards made for bodies, which are small.
        let wanted = if of_bodies { &LAYOUTS[..] } else { &LAYOUTS[1..] };
        shows(what, &counts, 10, wanted);
        assert_eq!(counts["counted"] + counts.get("none").copied().unwrap_or(0), cards);
    }
}

/// What is wrong with the one start that differs.
fn flaw(card: &Card, image: &[u8]) -> Option<&'static str> {
    let wrong = Card::decode(image)?;
    let slot = (0..card.records.len()).find(|&slot| card.record(slot) != wrong.record(slot))?;
    let place = body(wrong.record(slot));
    let common = in_order(&wrong).into_iter().filter(|&other| other != slot).map(|other| {
        let other = body(wrong.record(other));
        other.end.min(place.end).saturating_sub(other.start.max(place.start))
    });
    let total = card.record(0).size as usize;
    Some(match (wrong.record(slot).is_df(), common.max().unwrap_or(0)) {
        (true, _) => "a DF with a start",
        (_, 0) if place.end == total + 1 => "one byte past the pool",
        (_, 0) => "past the pool",
        (_, 1) => "one byte in another",
        _ => "in another",
    })
}

#[test]
fn damaged_starts() {
    let mut random = Random::new(SEED + 1);
    let (mut counts, mut cards) = (BTreeMap::new(), 0);
    while cards < 2000 {
        let card = some_card(&mut random);
        let image = damaged(&mut random, &card, Field::Start);
        if !card.edition.has_bodies() {
            continue;
        }
        cards += 1;
        assert!(!sound(&image), "{:?}", card);
        *counts.entry(flaw(&card, &image).unwrap_or("a free record with a start")).or_insert(0) +=
            1;
    }
    let all = [
        "a DF with a start",
        "a free record with a start",
        "one byte past the pool",
        "past the pool",
        "one byte in another",
        "in another",
    ];
    shows("damaged starts", &counts, 30, &all);
    assert_eq!(counts.len(), all.len(), "{counts:?}");
}

/// As many bodies to move as half the slots hold, all of them by a CREATE that
/// takes the whole room.
#[test]
fn the_card_with_bodies_far_apart() {
    for slots in [16, 64, 256, 1023] {
        let [card] = worst::far_apart_of(slots).try_into().expect("one card");
        let before = sound_card(&card.image).expect("a sound card");
        let most = before.room(0) - 64;
        assert!(layouts::gaps(&before).iter().all(|&gap| u64::from(gap) < most), "{slots} slots");
        let create = cases::template::FileData::plain(0x41, 0x7F01, most as u32).command();
        let (mut image, mut pool) = (card.image, vec![0x5A; 64 * (slots - 1)]);
        let state = model::State::FULL;
        assert_eq!(model::command(&mut image, &mut pool, &create, &mut [], &state).word, 0x9000);
        let after = sound_card(&image).expect("a sound card");
        let moved = |&slot: &usize| before.record(slot).start != after.record(slot).start;
        assert_eq!(in_order(&before).iter().filter(|slot| moved(slot)).count(), slots / 2);
    }
}
