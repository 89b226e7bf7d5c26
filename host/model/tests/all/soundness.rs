//! 01, "Image": each clause of soundness, with one field changed in a sound
//! image, both ways where the line has two sides.

use crate::common::*;
use model::soundness::sound_card;
use model::{command, report, sound, State};

/// Slots: 1 = DF 7F10 named A0, 2 = linear EF 6F07 in it, 3 = DF 7F20 in it
/// named A1, 4 = EF 6F08 in the root; 5 to 15 free; current: the root, 6F08.
fn base() -> Vec<u8> {
    let mut image = fresh(16, 960, OPEN);
    for text in [
        create_named("7F10", "A0", 400),
        create("8204422100 0A 83026F07 8A0105 8C0100 80020014"),
        create_named("7F20", "A1", 100),
        select("3F00"),
        create_ef("6F08", 30, OPEN),
    ] {
        assert_eq!(run(&mut image, &text), 0x9000, "{text}");
    }
    assert!(sound(&image));
    image
}

fn at(slot: usize, offset: usize) -> usize {
    16 + 64 * slot + offset
}

/// The base with some bytes changed.
fn changed(position: usize, new: &str) -> Vec<u8> {
    let mut image = base();
    let new = bytes(new);
    image[position..position + new.len()].copy_from_slice(&new);
    image
}

#[track_caller]
fn unsound(position: usize, new: &str) {
    let mut image = changed(position, new);
    assert!(!sound(&image), "byte {position} := {new} should be unsound");
    let before = image.clone();
    for text in [&select("3F00"), &select_fcp("3F00"), "-"] {
        for length in [0, 64] {
            let mut response = vec![MARK; length];
            let outcome = command(&mut image, &mut [], &bytes(text), &mut response, &State::FULL);
            assert_eq!((outcome.answer, outcome.word, outcome.data), (1, 0, 0));
            assert_eq!(image, before, "an unsound image stays as it came");
            assert_eq!(response, vec![MARK; length], "and so does the response buffer");
        }
    }
    assert_eq!(report(&image), (1, [0; 4]));
}

#[track_caller]
fn stays_sound(position: usize, new: &str) {
    let image = changed(position, new);
    assert!(sound(&image), "byte {position} := {new} should be sound");
    let again = sound_card(&image).map(|card| card.encode());
    assert_eq!(again, Some(image), "decoded and encoded again");
}

#[test]
fn header() {
    unsound(0, "56");
    unsound(2, "53");
    for version in ["0000", "0004", "0101", "0102", "0100", "FFFF"] {
        unsound(3, version);
    }
    unsound(5, "000F");
    unsound(5, "0011");
    for position in 11..16 {
        unsound(position, "01");
    }
    stays_sound(9, "FFFF");
    unsound(9, "0000");
    unsound(9, "0001");
    unsound(9, "0002");
    unsound(9, "0005");
    unsound(9, "0010");
    unsound(7, "0004");
    unsound(7, "0001");
    stays_sound(7, "0001FFFF");
    stays_sound(7, "00010002");
    stays_sound(7, "0003FFFF");
    unsound(7, "0005FFFF");
    unsound(7, "0010FFFF");
}

#[test]
fn length_of_the_buffer() {
    let image = base();
    assert!(!sound(&[]));
    assert!(!sound(&image[..image.len() - 1]));
    assert!(!sound(&image[..image.len() - 64]));
    let mut longer = image.clone();
    longer.push(0);
    assert!(!sound(&longer));
    longer.resize(image.len() + 64, 0);
    assert!(!sound(&longer));
    longer[6] += 1;
    assert!(sound(&longer));
}

#[test]
fn slot_counts() {
    assert!(sound(&fresh(2, 64, OPEN)));
    assert!(sound(&fresh(1023, 65_408, OPEN)));
    let mut one = fresh(2, 64, OPEN);
    one.truncate(80);
    one[6] = 1;
    assert!(!sound(&one));
    let mut many = fresh(1023, 65_408, OPEN);
    many.resize(16 + 64 * 1024, 0);
    many[5] = 4;
    many[6] = 0;
    assert!(!sound(&many));
}

#[test]
fn free_records_are_all_zero() {
    for offset in 0..64 {
        unsound(at(7, offset), "01");
    }
}

#[test]
fn zero_bytes_and_padding() {
    for slot in [0, 1, 2] {
        unsound(at(slot, 3), "01");
        for offset in 50..64 {
            unsound(at(slot, offset), "01");
        }
        unsound(at(slot, 49), "01");
        unsound(at(slot, 32), "01");
    }
}

#[test]
fn the_root() {
    unsound(at(0, 0), "02");
    unsound(at(0, 4), "3F01");
    unsound(at(0, 6), "0001");
    unsound(at(0, 8), "0001");
    unsound(at(0, 12), "00000000");
    unsound(at(0, 12), "000003C1");
    stays_sound(at(0, 1), "78");
    stays_sound(at(0, 2), "0C");
    stays_sound(at(0, 16), "01A7");
    unsound(at(0, 16), "01A0");
}

#[test]
fn kind_descriptor_life_cycle() {
    unsound(at(4, 0), "01");
    unsound(at(4, 0), "03");
    unsound(at(4, 0), "00");
    unsound(at(4, 1), "38");
    unsound(at(1, 1), "41");
    unsound(at(1, 1), "79");
    // The root, a DF and an EF: 06 and 07 are among the good bytes, 0D to 0F
    // are not.
    for slot in [0, 1, 2] {
        for byte in 0..=255u8 {
            let text = format!("{byte:02X}");
            if [0x01, 0x03, 0x04, 0x05, 0x06, 0x07, 0x0C].contains(&byte) {
                stays_sound(at(slot, 2), &text);
            } else {
                unsound(at(slot, 2), &text);
            }
        }
    }
    for byte in [0x01, 0x09, 0x41, 0x49] {
        stays_sound(at(4, 1), &format!("{byte:02X}"));
    }
}

#[test]
fn identifiers() {
    for reserved in ["3FFF", "7FFF", "FFFF"] {
        unsound(at(4, 4), reserved);
        unsound(at(1, 4), reserved);
    }
    unsound(at(4, 4), "3F00");
    unsound(at(4, 4), "7F10");
    unsound(at(2, 4), "7F10");
    unsound(at(3, 4), "3F00");
    unsound(at(2, 4), "7F20");
    stays_sound(at(4, 4), "7F20");
    stays_sound(at(2, 4), "6F08");
    stays_sound(at(4, 4), "0000");
    stays_sound(at(4, 4), "BFFF");
}

#[test]
fn parents_and_levels() {
    unsound(at(2, 6), "0002");
    unsound(at(2, 6), "0004");
    unsound(at(2, 6), "0005");
    unsound(at(2, 6), "0010");
    unsound(at(2, 6), "0000");
    stays_sound(at(2, 6), "00000001");
    unsound(at(2, 8), "0001");
    unsound(at(2, 8), "0003");
    unsound(at(1, 6), "0003");
    unsound(at(1, 6), "0001");
    unsound(at(1, 8), "0000");
}

#[test]
fn names() {
    unsound(at(3, 16), "01A0");
    stays_sound(at(3, 16), "02A000");
    stays_sound(at(3, 16), "0000");
    unsound(at(3, 16), "00");
    unsound(at(4, 16), "01A7");
    unsound(at(3, 16), "11");
    stays_sound(at(3, 16), "10");
}

#[test]
fn rules() {
    unsound(at(4, 33), "00");
    unsound(at(4, 33), "11");
    unsound(at(4, 33), "07");
    stays_sound(at(4, 33), "09");
    unsound(at(4, 34), "80");
    unsound(at(4, 34), "FF");
    stays_sound(at(4, 34), "3F");
    stays_sound(at(4, 33), "10");
}

#[test]
fn sizes() {
    unsound(at(4, 12), "00000000");
    unsound(at(4, 10), "0001");
    unsound(at(1, 10), "0001");
    unsound(at(2, 10), "0000");
    unsound(at(2, 10), "000B");
    unsound(at(2, 10), "0100");
    stays_sound(at(2, 10), "0014");
    unsound(at(2, 12), "00000000");
    // The root has 960 - 464 = 496 for the EF: 432 of body.
    stays_sound(at(4, 12), "000001B0");
    unsound(at(4, 12), "000001B1");
    unsound(at(4, 12), "FFFFFFC0");
    unsound(at(4, 12), "FFFFFFFF");
    // 7F10 pays 84 + 164 = 248.
    stays_sound(at(1, 12), "000000F8");
    unsound(at(1, 12), "000000F7");
    unsound(at(3, 12), "00000000");
}
