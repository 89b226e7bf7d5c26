//! Where the rule that decides stands: in the file's own record, in the pool, or
//! nowhere; and what is no place at all.

use card::{ffi, image_length, lent, Card, Kind, Place, PlaceError, Rule};

use crate::common::{create, create_open, fresh_of, noise, run, select, update_record, CREATE_DF};

/// All rights, always.
const OPEN: [u8; 5] = [0x80, 0x01, 0x7F, 0x90, 0x00];
/// Where a rule stands in a record.
const RULE_AT: usize = 34;
/// The first byte of the rule in a slot's record.
const fn rule_of(slot: usize) -> usize {
    16 + 64 * slot + RULE_AT
}

/// CREATE of an EF of one byte whose rule is an object.
fn create_file(identifier: u16, rule: &[u8]) -> Vec<u8> {
    let [high, low] = identifier.to_be_bytes();
    let head = [0x82, 2, 0x41, 0x21, 0x83, 2, high, low, 0x8A, 1, 0x05];
    let objects = [&head[..], rule, &[0x80, 2, 0x00, 0x01]].concat();
    create(&[&[0x62, objects.len() as u8], &objects[..]].concat())
}

/// An open card of version 3 on which these commands were done. There are 16
/// slots; the first file made is in slot 1.
fn card(commands: &[Vec<u8>]) -> Card {
    let mut card = Card::make(16, Kind::VERSION_3, 960, Rule::OPEN).expect("a card");
    for command in commands {
        assert_eq!(run(&mut card, command), 0x9000, "{command:02X?}");
    }
    card
}

fn place(card: &Card, slot: usize) -> Place {
    card.rule_place(slot).expect("a sound card with its pool")
}

#[test]
fn own_rules_stand_in_the_image() {
    for (kind, rule) in [
        (Kind::VERSION_1, Rule::OPEN),
        (Kind::VERSION_2, Rule::expanded(&OPEN)),
        (Kind::VERSION_3, Rule::OPEN),
        (Kind::VERSION_3, Rule::expanded(&OPEN)),
    ] {
        let mut card = Card::make(8, kind, 448, rule).expect("a card");
        assert_eq!(run(&mut card, CREATE_DF), 0x9000);
        let length = rule.bytes.len();
        let root = Place::InImage { from: rule_of(0), to: rule_of(0) + length };
        let below = Place::InImage { from: rule_of(1), to: rule_of(1) + 3 };
        assert_eq!([place(&card, 0), place(&card, 1)], [root, below], "{kind:?}");
        assert_eq!(card.rule_bytes(0), Ok(rule.bytes));
        assert_eq!(card.rule_bytes(1), Ok(&[0x06, 0x00, 0x00][..]));
        // Free slots, and none at all.
        for slot in [2, 7, 8, 0xFFFF, 0x1_0000, u32::MAX as usize, usize::MAX] {
            assert_eq!(place(&card, slot), Place::Nowhere, "{kind:?}, {slot}");
            assert_eq!(card.rule_bytes(slot), Ok(&[][..]));
        }
    }
}

#[test]
fn a_referred_rule_stands_in_the_pool() {
    // 6F05 takes bytes 0 to 6, so that the rule file starts at 7.
    let padded = [&OPEN[..], &[0xFF; 3]].concat();
    let card = card(&[
        create_open(0x6F05, 0, 7),
        create_open(0x6F06, 8, 24),
        update_record(2, &padded),
        update_record(3, &[0x80, 0x01, 0x01, 0x9E, 0x01, 0xFF, 0xFF, 0xFF]),
        create_file(0x6F07, &[0x8B, 3, 0x6F, 0x06, 2]),
        create_file(0x6F08, &[0x8B, 3, 0x6F, 0x06, 3]),
    ]);
    assert_eq!(place(&card, 3), Place::InPool { from: 15, to: 20 });
    assert_eq!(card.rule_bytes(3), Ok(&OPEN[..]));
    // The SC byte FF belongs to the rule, the two behind it do not.
    assert_eq!(place(&card, 4), Place::InPool { from: 23, to: 29 });
    assert_eq!(card.rule_bytes(4), Ok(&[0x80, 0x01, 0x01, 0x9E, 0x01, 0xFF][..]));
}

/// A directory's is looked for above it, a file's beside it, and the nearest
/// counts.
#[test]
fn the_search_goes_upwards() {
    let mut directory = CREATE_DF.to_vec();
    let at = directory.windows(2).position(|tag| tag == [0x8C, 3]).expect("a rule");
    directory.splice(at..at + 5, [0x8B, 3, 0x6F, 0x06, 1]);
    let record = [&OPEN[..], &[0xFF; 3]].concat();
    let mut card = card(&[
        create_open(0x6F06, 8, 8),
        update_record(1, &record),
        directory,
        create_file(0x6F07, &[0x8B, 3, 0x6F, 0x06, 1]),
    ]);
    let above = Place::InPool { from: 0, to: 5 };
    assert_eq!([place(&card, 2), place(&card, 3)], [above; 2]);
    // A second one in the directory, still all FF: it hides the other one from
    // the file, not from the directory that holds it.
    assert_eq!(run(&mut card, &create_open(0x6F06, 8, 8)), 0x9000);
    assert_eq!([place(&card, 2), place(&card, 3)], [above, Place::Nowhere]);
    assert_eq!(run(&mut card, &update_record(1, &record)), 0x9000);
    let Place::InPool { from, to } = place(&card, 3) else { panic!("the record has a rule") };
    assert!(from >= 8 && to == from + 5, "{from} {to}");
    assert_eq!(place(&card, 2), above);
}

/// Each way in which the search denies.
#[test]
fn a_denied_search_has_no_place() {
    let cyclic = {
        let mut command = create_open(0x6F06, 8, 16);
        let at = command.windows(3).position(|part| part == [0x82, 4, 0x42]).expect("a descriptor");
        command[at + 2] = 0x46;
        command
    };
    let linear = || vec![create_open(0x6F06, 8, 16)];
    let written = |record: &[u8; 8]| vec![create_open(0x6F06, 8, 16), update_record(1, record)];
    let mut directory = CREATE_DF.to_vec();
    let at = directory.windows(2).position(|part| part == [0x7F, 0x10]).expect("its identifier");
    directory.splice(at..at + 2, [0x6F, 0x06]);
    let back = select(0x3F00);
    for (before, record) in [
        (vec![], 1),
        (vec![create_open(0x6F06, 0, 16)], 1),
        (vec![cyclic], 1),
        (vec![directory, back], 1),
        (linear(), 0),
        (linear(), 1),
        (linear(), 3),
        (linear(), 255),
        (written(&[0x80, 0x01, 0x7F, 0x90, 0x00, 0xFF, 0xFF, 0x00]), 1),
        (written(&[0x80, 0x01, 0x7F, 0xFF, 0xFF, 0xFF, 0xFF, 0xFF]), 1),
        (written(&[0x7F, 0, 0, 0, 0, 0, 0, 0]), 1),
    ] {
        let file = create_file(0x6F07, &[0x8B, 3, 0x6F, 0x06, record]);
        let slot = 1 + before.iter().filter(|command| command[1] == 0xE0).count();
        let card = card(&[before.clone(), vec![file]].concat());
        assert_eq!(place(&card, slot), Place::Nowhere, "{before:02X?}, record {record}");
    }
    let itself = card(&[create_file(0x6F06, &[0x8B, 3, 0x6F, 0x06, 1])]);
    assert_eq!(place(&itself, 1), Place::Nowhere);
}

#[test]
fn a_damaged_image_and_a_wrong_pool_are_found() {
    let (image, pool) = fresh_of(Kind::VERSION_3).into_parts();
    for slot in [0, 7, 8, usize::MAX] {
        let given = |length| lent::rule_place(&image, &vec![0; length], slot);
        assert!(given(448).is_ok());
        for length in [0, 447, 449] {
            let wrong = PlaceError::WrongPool { wanted: 448, given: length };
            assert_eq!(given(length), Err(wrong), "slot {slot}");
        }
        let mut damaged = image.clone();
        damaged[15] = 1;
        for pool in [&pool[..], &pool[1..], &[]] {
            assert_eq!(lent::rule_place(&damaged, pool, slot), Err(PlaceError::Damaged));
        }
    }
    // Without bodies a pool of any length does.
    let image = fresh_of(Kind::VERSION_2).into_image();
    for length in [0, 9, 448] {
        assert!(lent::rule_place(&image, &vec![0; length], 0).is_ok());
    }
}

/// Each number is written on every call: it would be FFFFFFFF else.
#[test]
fn every_number_is_written() {
    let (image, pool) = fresh_of(Kind::VERSION_3).into_parts();
    assert_eq!(ffi::rule(&image, &pool, 0), (0, [1, rule_of(0) as u32, 8]));
    assert_eq!(ffi::rule(&image, &pool, 1), (0, [0, 0, 0]));
    assert_eq!(ffi::rule(&image, &pool, u32::MAX), (0, [0, 0, 0]));
    assert_eq!(ffi::rule(&image, &pool[1..], 0), (6, [0, 0, 0]));
    assert_eq!(ffi::rule(&image[1..], &pool, 0), (1, [0, 0, 0]));
    assert_eq!(ffi::rule(&[], &[], 0), (1, [0, 0, 0]));
}

#[test]
fn an_error_says_what_to_do() {
    for (error, answer, advice) in [
        (PlaceError::Damaged, 1, "take an older copy"),
        (
            PlaceError::WrongPool { wanted: 448, given: 9 },
            6,
            "has 9 bytes, and this card's has 448",
        ),
        (PlaceError::Unknown(9), 9, "the unknown answer 9: build both anew"),
        (PlaceError::UnknownPlace([3, 0, 0]), 0, "the unknown numbers [3, 0, 0]: build both anew"),
    ] {
        assert_eq!(error.answer(), answer);
        assert!(error.to_string().contains(advice), "{error}");
    }
}

/// Any bytes in the rule file: a place inside the pool, or none.
#[test]
fn no_record_makes_a_call_panic() {
    let commands = [create_open(0x6F06, 8, 24), create_file(0x6F07, &[0x8B, 3, 0x6F, 0x06, 2])];
    let (image, mut pool) = card(&commands).into_parts();
    assert_eq!(image.len(), image_length(16));
    let mut found = 0;
    for seed in 0..4000 {
        const LIKELY: [u8; 8] = [0x80, 0x01, 0x7F, 0x90, 0x00, 0x9E, 0xFF, 0x97];
        let likely = |byte: u8| if byte < 0xF0 { LIKELY[usize::from(byte % 8)] } else { byte };
        let good = [0x80, 0x01, 0x01, 0x90, 0x00, 0xFF, 0xFF, 0xFF];
        let mut bytes = noise(seed);
        let mixed = good.map(|byte| match bytes.next().unwrap_or_default() {
            chance if chance < 0x40 => likely(bytes.next().unwrap_or_default()),
            _ => byte,
        });
        pool[8..16].copy_from_slice(&mixed);
        match lent::rule_place(&image, &pool, 2).expect("a sound card") {
            Place::Nowhere => {}
            place => {
                let rule = place.bytes(&image, &pool);
                assert!(mixed.starts_with(rule) && rule.len() >= 5, "{mixed:02X?}");
                assert!(mixed[rule.len()..].iter().all(|&byte| byte == 0xFF), "{mixed:02X?}");
                assert!(Card::make(2, Kind::VERSION_3, 1, Rule::expanded(rule)).is_ok());
                found += 1;
            }
        }
    }
    assert!((300..3700).contains(&found), "{found} rules");
}
