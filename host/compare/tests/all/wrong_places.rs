//! Cards that lay out the pool wrongly (02, Ticket 4) are found, and told in a
//! small form: new bodies, moved ones, deleted ones, and where a sound image has
//! them.

use crate::impostor::{found, found_small_in, Came, Impostor, Left, Spoil, HONEST};
use crate::places::{Gap, Places, RIGHT};
use cases::Kind;
use compare::{Disagreement, Model, Pair, Told};
use model::bodies;
use model::soundness::sound_card;
use model::words::NOT_ENOUGH_MEMORY;
use model::{sound, Card};

/// Cards that CREATE and DELETE wrongly.
const PLACES: [(&str, Spoil); 15] = [
    ("a new body is not filled", |c, l, t| Places { fill: None, ..RIGHT }.card(c, l, t)),
    ("a new body is zeros", |c, l, t| Places { fill: Some(0), ..RIGHT }.card(c, l, t)),
    ("a deleted body is left", |c, l, t| {
        Places { wipe_deleted: [false, true], ..RIGHT }.card(c, l, t)
    }),
    ("bodies beneath a deleted directory are left", |c, l, t| {
        Places { wipe_deleted: [true, false], ..RIGHT }.card(c, l, t)
    }),
    ("moved by slots", |c, l, t| Places { by_slot: true, ..RIGHT }.card(c, l, t)),
    ("the highest gap", |c, l, t| Places { gap: Gap::Highest, ..RIGHT }.card(c, l, t)),
    ("the smallest gap", |c, l, t| Places { gap: Gap::Smallest, ..RIGHT }.card(c, l, t)),
    ("the first gap by slots", |c, l, t| Places { gap: Gap::BySlot, ..RIGHT }.card(c, l, t)),
    ("a gap one byte too short", |c, l, t| Places { short_by: 1, ..RIGHT }.card(c, l, t)),
    ("no gap above the last body", |c, l, t| Places { above: false, ..RIGHT }.card(c, l, t)),
    ("moved though a gap fits", |c, l, t| Places { always_move: true, ..RIGHT }.card(c, l, t)),
    ("only those in the way are moved", |c, l, t| Places { as_few: true, ..RIGHT }.card(c, l, t)),
    ("vacated bytes are kept", |c, l, t| Places { wipe_vacated: false, ..RIGHT }.card(c, l, t)),
    ("all free bytes become zeros", |c, l, t| Places { wipe_free: true, ..RIGHT }.card(c, l, t)),
    ("the pool is packed before 6A84", |came, left, told| {
        let bodied = |card: &Card| card.edition.has_bodies() && told.word == NOT_ENOUGH_MEMORY;
        if let Some(mut card) = sound_card(came.image).filter(bodied) {
            RIGHT.pack(&mut card, left.pool, 0);
        }
        told
    }),
];

#[test]
fn every_wrong_place_is_found() {
    for (title, command) in PLACES {
        found_small_in(title, command, Kind::Bodies, 16);
        found_small_in(title, command, Kind::History, 40);
    }
}

/// Held against themselves, some are found by what the files of a history hold
/// and by the bytes outside them.
#[test]
fn what_the_files_hold_finds_what_both_sides_do_wrong() {
    for (beginning, expected) in [
        ("a new body is zeros", "holds other bytes than were written"),
        ("a deleted body", "was left and is"),
        ("bodies beneath", "was left and is"),
        ("vacated bytes", "was left and is"),
        ("all free bytes", "was free and changed"),
    ] {
        let wrong = PLACES.into_iter().find(|(title, _)| title.starts_with(beginning));
        let (title, command) = wrong.expect("it is in the table");
        found_by_contents(title, command, expected);
    }
    found_by_contents("READ gives zeros", spoilt_read, "READ gives other bytes");
    found_by_contents(
        "UPDATE writes into another body",
        |c, l, t| spoilt_update(c, l, t, true),
        "than were written",
    );
    found_by_contents(
        "UPDATE writes a free byte",
        |c, l, t| spoilt_update(c, l, t, false),
        "was free and changed",
    );
}

fn spoilt_read(came: &Came, left: &mut Left, told: Told) -> Told {
    if let ([_, 0xB0 | 0xB2, ..], Some(data)) =
        (came.command, left.response.get_mut(..told.numbers[0] as usize))
    {
        data.fill(0);
    }
    told
}

/// One byte too many is changed, in a body or in none.
fn spoilt_update(came: &Came, left: &mut Left, told: Told, in_a_body: bool) -> Told {
    let changed = (0..came.pool.len()).rfind(|&at| came.pool[at] != left.pool[at]);
    let card = Card::decode(came.image).filter(|card| card.edition.has_bodies());
    if let ([_, 0xD6 | 0xDC, ..], Some(at), Some(card)) = (came.command, changed, card) {
        let holds = |slot: &usize| bodies::body(card.record(*slot)).contains(&(at + 1));
        if bodies::in_order(&card).iter().any(holds) == in_a_body {
            left.pool.iter_mut().skip(at + 1).take(1).for_each(|byte| *byte = !*byte);
        }
    }
    told
}

fn found_by_contents(title: &str, command: Spoil, expected: &str) {
    let wrong = Impostor { command, ..HONEST };
    match found(Pair { card: &wrong, model: &wrong }, Some(Kind::History)) {
        Some(Disagreement::Ledger { complaint, history }) => {
            assert!(complaint.contains(expected), "{title}: {complaint}");
            assert!(history.steps.len() < 12, "{title}: {} steps", history.steps.len());
        }
        other => panic!("{title}: {other:?}"),
    }
}

/// Laid in another way and nothing wrong, it is the model's card.
#[test]
fn right_places_are_not_accused() {
    let honest = Impostor { command: |c, l, t| RIGHT.card(c, l, t), ..HONEST };
    for kind in [Kind::Bodies, Kind::History] {
        assert_eq!(found(Pair { card: &honest, model: &Model }, Some(kind)), None);
    }
}

/// A card that does not see what is wrong with an image which is sound when
/// something is changed in it; it gives what it would give then.
fn blind(came: &Came, told: Told, left: &mut Left, change: impl Fn(&mut Card)) -> Told {
    let seen =
        Card::decode(came.image).filter(|card| told.answer == 1 && card.edition.has_bodies());
    let Some(mut card) = seen else { return told };
    change(&mut card);
    let image = card.encode();
    match sound(&image) {
        true => left.replace(&came.given_on(&image, came.command)),
        false => told,
    }
}

/// Cards that take images for sound whose bodies are not.
const BLIND: [(&str, Spoil); 3] = [
    ("bodies may lie over one another", |came, left, told| {
        let length = |card: &Card| card.record(0).size as usize;
        blind(came, told, left, |card| {
            let inside = |slot: &usize| bodies::body(card.record(*slot)).end <= length(card);
            if bodies::in_order(card).iter().all(inside) {
                RIGHT.pack(card, &mut vec![0; 1 << 17], 0);
            }
        })
    }),
    ("a body may pass the pool's end", |came, left, told| {
        blind(came, told, left, |card| {
            let last = bodies::in_order(card).pop().unwrap_or(0);
            let file = card.record(last);
            let over = bodies::body(file).end.saturating_sub(card.record(0).size as usize);
            if let (1..=4, Some(start)) = (over, file.start.checked_sub(over as u16)) {
                card.set_start(last, start);
            }
        })
    }),
    ("a directory may have a start", |came, left, told| {
        blind(came, told, left, |card| {
            let directories: Vec<_> =
                card.used_slots().filter(|&slot| card.record(slot).is_df()).collect();
            directories.into_iter().for_each(|slot| card.set_start(slot, 0));
        })
    }),
];

#[test]
fn every_blind_card_is_found() {
    for (title, command) in BLIND {
        found_small_in(title, command, Kind::DamagedCommand, 8);
    }
}
