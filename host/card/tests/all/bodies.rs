//! READ and UPDATE on a card of version 3: what is written is read, where the
//! words come from, and how long a response they need.

use card::{lent, Card, CommandError, Kind, Rule, State, LONGEST_RESPONSE};

use crate::common::{create_open, done, fresh_of, noise, read, read_record, run, select};
use crate::common::{update, update_record};

const THREE: Kind = Kind::VERSION_3;

/// A card with one file, which is current.
fn with_file(record_length: u8, size: u16) -> Card {
    let mut card = Card::make(16, THREE, 960, Rule::OPEN).expect("a card");
    assert_eq!(run(&mut card, &create_open(0x6F07, record_length, size)), 0x9000);
    card
}

/// Word and data.
fn told(card: &mut Card, command: &[u8]) -> (u16, Vec<u8>) {
    let reply = card.command(command, &State::EMPTY).expect("a sound card");
    (reply.word.0, reply.data)
}

#[test]
fn a_new_body_is_all_ff() {
    let mut card = with_file(0, 300);
    assert_eq!(told(&mut card, &read(0, 0)), (0x9000, vec![0xFF; LONGEST_RESPONSE]));
    assert_eq!(told(&mut card, &read(256, 44)), (0x9000, vec![0xFF; 44]));
    assert_eq!(card.pool(), [vec![0xFF; 300], vec![0; 660]].concat());
}

#[test]
fn what_is_written_is_read() {
    let mut card = with_file(0, 300);
    let image = card.image().to_vec();
    let data: Vec<u8> = noise(7).take(255).collect();
    assert_eq!(run(&mut card, &update(45, &data)), 0x9000);
    assert_eq!(told(&mut card, &read(45, 255)), (0x9000, data.clone()));
    let whole = [&[0xFF; 45][..], &data].concat();
    assert_eq!(told(&mut card, &read(0, 0)), (0x9000, whole[..256].to_vec()));
    assert_eq!(card.pool(), [whole, vec![0; 660]].concat());
    assert_eq!(card.image(), image, "no record changes");
}

#[test]
fn records_are_counted_from_one() {
    let mut card = with_file(10, 30);
    for number in 1..=3 {
        assert_eq!(run(&mut card, &update_record(number, &[number; 10])), 0x9000);
    }
    for number in 1..=3 {
        assert_eq!(told(&mut card, &read_record(number, 10)), (0x9000, vec![number; 10]));
    }
    assert_eq!(card.pool()[..30], [[1; 10], [2; 10], [3; 10]].concat());
    for (command, word) in [
        (read_record(0, 10), 0x6A83),
        (read_record(4, 10), 0x6A83),
        (read_record(4, 9), 0x6A83),
        (read_record(3, 9), 0x6700),
        (read_record(3, 0), 0x6700),
        (update_record(0, &[9; 10]), 0x6A83),
        (update_record(3, &[9; 11]), 0x6700),
        (read(0, 10), 0x6981),
        (update(0, &[9; 10]), 0x6981),
    ] {
        let before = card.clone();
        assert_eq!(told(&mut card, &command), (word, vec![]), "{command:02X?}");
        assert_eq!(card, before, "{command:02X?}");
    }
}

#[test]
fn a_body_has_an_end() {
    let mut card = with_file(0, 30);
    for (command, word) in [
        (read(29, 1), 0x9000),
        (read(30, 1), 0x6B00),
        (read(0x8000, 1), 0x6B00),
        (read(29, 2), 0x6700),
        (read(0, 0), 0x6700),
        (update(30, &[9]), 0x6B00),
        (update(20, &[9; 11]), 0x6700),
        (update(20, &[]), 0x6700),
        (read_record(1, 10), 0x6981),
    ] {
        assert_eq!(told(&mut card, &command).0, word, "{command:02X?}");
    }
    assert_eq!(run(&mut card, &update(20, &[9; 10])), 0x9000);
}

#[test]
fn reading_wants_an_activated_file() {
    let mut card = with_file(0, 30);
    assert_eq!(run(&mut card, &[0x00, 0x04, 0x00, 0x00]), 0x9000);
    assert_eq!(run(&mut card, &read(0, 1)), 0x6985);
    assert_eq!(run(&mut card, &update(0, &[1])), 0x6985);
    assert_eq!(run(&mut card, &[0x00, 0x44, 0x00, 0x00]), 0x9000);
    assert_eq!(told(&mut card, &read(0, 1)), (0x9000, vec![0xFF]));
    assert_eq!(run(&mut card, &select(0x3F00)), 0x9000);
    assert_eq!(run(&mut card, &read(0, 1)), 0x6986);
}

/// Every length of a response around what a READ needs.
#[test]
fn a_short_response_leaves_everything() {
    let (image, pool) = with_file(0, 300).into_parts();
    for (le, wanted) in [(1, 1), (200, 200), (0, 256)] {
        for length in [0, wanted - 1, wanted, wanted + 1] {
            let (mut i, mut p) = (image.clone(), pool.clone());
            let mut response = vec![0xA5; length];
            let given = lent::command(&mut i, &mut p, &read(0, le), &mut response, &State::EMPTY);
            if length < wanted {
                assert_eq!(given, Err(CommandError::ShortResponse), "{le}, {length}");
                assert_eq!(response, vec![0xA5; length]);
            } else {
                assert_eq!(given, Ok(done(wanted)), "{le}, {length}");
                let past = vec![0xA5; length - wanted];
                assert_eq!(response, [vec![0xFF; wanted], past].concat());
            }
            assert_eq!((&i, &p), (&image, &pool), "{le}, {length}");
        }
    }
}

/// Four files of a card whose free bytes are A5, the first and the third of them
/// deleted again: gaps of 200, 200 and 256 bytes, and room for 464.
fn with_gaps() -> Card {
    let card = Card::make(16, THREE, 676, Rule::OPEN).expect("a card");
    let mut card = Card::from_parts(card.into_image(), vec![0xA5; 676]).expect("a card");
    for (identifier, size) in [(0x6F01, 200), (0x6F02, 10), (0x6F03, 200), (0x6F04, 10)] {
        assert_eq!(run(&mut card, &create_open(identifier, 0, size)), 0x9000);
        assert_eq!(run(&mut card, &update(0, &vec![identifier as u8; size.into()])), 0x9000);
    }
    for identifier in [0x01, 0x03] {
        assert_eq!(run(&mut card, &[0x00, 0xE4, 0x00, 0x00, 0x02, 0x6F, identifier]), 0x9000);
    }
    card
}

/// The pool from one run of bytes after the other.
fn runs(runs: &[(u8, usize)]) -> Vec<u8> {
    runs.iter().flat_map(|&(byte, length)| vec![byte; length]).collect()
}

#[test]
fn a_new_body_takes_the_lowest_gap_that_fits() {
    let gaps = runs(&[(0, 200), (2, 10), (0, 200), (4, 10), (0xA5, 256)]);
    assert_eq!(with_gaps().pool(), gaps, "deleted bytes are zeros");
    for (size, start) in [(1, 0), (200, 0), (201, 420), (256, 420)] {
        let mut card = with_gaps();
        assert_eq!(run(&mut card, &create_open(0x6F05, 0, size)), 0x9000);
        let mut wanted = gaps.clone();
        wanted[start..start + usize::from(size)].fill(0xFF);
        assert_eq!(card.pool(), wanted, "{size}");
    }
}

/// All move, in the order of their bodies; what they leave becomes zeros, and
/// what was free stays.
#[test]
fn bodies_are_moved_down_where_no_gap_fits() {
    let mut card = with_gaps();
    assert_eq!(run(&mut card, &create_open(0x6F05, 0, 257)), 0x9000);
    let wanted = runs(&[(2, 10), (4, 10), (0xFF, 257), (0, 143), (0xA5, 256)]);
    assert_eq!(card.pool(), wanted);
    for (identifier, byte) in [(0x6F02, 2), (0x6F04, 4)] {
        assert_eq!(run(&mut card, &select(identifier)), 0x9000);
        assert_eq!(told(&mut card, &read(0, 10)), (0x9000, vec![byte; 10]));
    }
    let mut card = with_gaps();
    let before = card.clone();
    assert_eq!(run(&mut card, &create_open(0x6F05, 0, 465)), 0x6A84);
    assert_eq!(card, before);
    assert_eq!(run(&mut card, &create_open(0x6F05, 0, 464)), 0x9000);
}

#[test]
fn older_versions_have_no_bodies() {
    for kind in [Kind::VERSION_1, Kind::VERSION_2] {
        let mut card = fresh_of(kind);
        assert_eq!(run(&mut card, &create_open(0x6F07, 0, 30)), 0x9000);
        for command in [read(0, 1), update(0, &[1]), read_record(1, 1), update_record(1, &[1])] {
            assert_eq!(run(&mut card, &command), 0x6D00, "{kind:?}, {command:02X?}");
        }
        assert_eq!(card.pool(), []);
    }
}
