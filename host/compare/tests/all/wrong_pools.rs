//! Cards that judge or touch the pool wrongly (02, Ticket 4) are found, and told
//! in a small form.

use crate::impostor::{found, found_small_in, word, Came, Impostor, Left, Spoil, HONEST};
use card::pool_length as total;
use cases::Kind;
use compare::{Disagreement, Pair, Told};
use model::bodies::pool_length;
use model::soundness::sound_card;

fn wrong_pool(came: &Came, left: &mut Left) -> Told {
    left.restore(came);
    Told { answer: 6, word: 0, numbers: [0; 3] }
}

/// What the right card gives with a pool of the right length.
fn with_right_pool(came: &Came, left: &mut Left) -> Option<Told> {
    let length = pool_length(&sound_card(came.image)?)?;
    let mut pool = came.pool.to_vec();
    pool.resize(length, 0);
    let given = Came { pool: &pool, ..*came }.given(came.command);
    left.image.copy_from_slice(&given.image);
    left.response.copy_from_slice(&given.response);
    Some(given.told)
}

/// Cards that judge or touch the pool wrongly, and the kind of cases that shows
/// each.
const POOLS: [(&str, Kind, Spoil); 8] = [
    ("answer 6 before answer 1", Kind::DamagedCommand, |came, left, told| {
        let wrong = total(came.image).is_some_and(|length| length != came.pool.len());
        if told.answer == 1 && wrong {
            return wrong_pool(came, left);
        }
        told
    }),
    ("answer 5 before answer 6", Kind::Bodies, |came, _, told| {
        if told.answer == 6 && came.response.is_empty() && matches!(came.command, [_, 0xB0, ..]) {
            return Told { answer: 5, ..told };
        }
        told
    }),
    ("a longer pool does", Kind::Bodies, |came, left, told| {
        let longer = total(came.image).is_some_and(|length| length < came.pool.len());
        match told.answer == 6 && longer {
            true => with_right_pool(came, left).unwrap_or(told),
            false => told,
        }
    }),
    ("the pool is judged only where it is used", Kind::SoundCommand, |came, left, told| {
        match (told.answer, came.command.get(1)) {
            (6, Some(0xA4 | 0x04 | 0x44 | 0xE6 | 0xE8 | 0xFE)) => {
                with_right_pool(came, left).unwrap_or(told)
            }
            _ => told,
        }
    }),
    ("the word comes before answer 6", Kind::RawCommand, |came, _, told| match told.answer {
        6 if came.command.len() < 4 => word(0x6700),
        _ => told,
    }),
    ("the pool is judged on version 2", Kind::SoundCommand, |came, left, told| {
        let card = sound_card(came.image).filter(|card| !card.edition.has_bodies());
        match card.is_some_and(|card| card.record(0).size as usize != came.pool.len()) {
            true => wrong_pool(came, left),
            false => told,
        }
    }),
    ("a body is made on version 2", Kind::SoundCommand, |came, left, told| {
        let without = sound_card(came.image).is_some_and(|card| !card.edition.has_bodies());
        if let (true, 0x9000, [_, 0xE0, ..], Some(byte)) =
            (without, told.word, came.command, left.pool.first_mut())
        {
            *byte = !*byte;
        }
        told
    }),
    ("READ is known on version 2", Kind::SoundCommand, |came, _, told| match came.command {
        [0, 0xB0, p1, _, _] if told.word == 0x6D00 && *p1 < 0x80 => word(0x6986),
        _ => told,
    }),
];

#[test]
fn every_wrong_judgement_of_a_pool_is_found() {
    for (title, kind, command) in POOLS {
        found_small_in(title, command, kind, 8);
    }
}

/// What demand 1 forbids of the pool, found where both sides do it.
#[test]
fn demand_1_finds_a_pool_that_both_sides_change() {
    let broken: [(&str, Spoil); 2] = [
        ("the pool was changed without an effect", |_, left, told| {
            if let (0x6982, Some(byte)) = (told.word, left.pool.last_mut()) {
                *byte = !*byte;
            }
            told
        }),
        ("the pool of a card without bodies was changed", |_, left, told| {
            if let (b"UFT\x00\x02", Some(byte), 0x9000) =
                (&left.image[..5], left.pool.last_mut(), told.word)
            {
                *byte = !*byte;
            }
            told
        }),
    ];
    for (expected, command) in broken {
        let wrong = Impostor { command, ..HONEST };
        let pair = Pair { card: &wrong, model: &wrong };
        match found(pair, Some(Kind::SoundCommand)) {
            Some(Disagreement::Demand1 { complaint, .. }) => assert_eq!(complaint, expected),
            other => panic!("{expected}: {other:?}"),
        }
    }
}
