//! 02, Ticket 4: images of version 3. The record's last two bytes, rules of up
//! to 28 bytes, which starts are sound, the maker, files made again.

use crate::common::*;
use crate::lent::{moved, Lent};
use crate::version_two::fresh_to_the_byte;
use model::lines::hex;
use model::words::*;
use model::{make, report, sound, State};

/// Three EFs in the root, of 10, 20 and 1 bytes, slots 1 to 3; a DF in slot 4.
fn three() -> Lent {
    Lent::with(
        8,
        &[
            create_ef("6F01", 10, OPEN),
            create_ef("6F02", 20, OPEN),
            create_ef("6F03", 1, OPEN),
            create_df("7F10", 100, OPEN),
        ],
    )
}

#[test]
fn a_fresh_card_to_the_byte() {
    fresh_to_the_byte(3, 28);
}

/// A48, A49: 28 bytes of either form by the maker, by CREATE and in a record; 29
/// are too many, which version 2 takes.
#[test]
fn rules_end_at_28_bytes() {
    let rules = |length: usize| [(0, 0x8C, "00".repeat(length)), (1, 0xAB, expanded_of(length))];
    for length in [1, 5, 16, 17, 27, 28, 29, 30, 31] {
        for (form, tag, rule) in rules(length.max(5)) {
            let good = length <= 28;
            let answer = make(&mut [0; 144], 3, 64, form, &bytes(&rule));
            assert_eq!(answer, if good { 0 } else { 4 }, "maker, form {form}, {length} bytes");
            let word = Lent::fresh(8, 448).word(&create_ef_ruled("6F07", &object(tag, &rule)));
            let wanted = if good { SUCCESS } else { WRONG_DATA };
            assert_eq!(word, wanted, "CREATE, form {form}, {length} bytes");
        }
    }
    for length in 1..=30 {
        let mut image = made(2, 4, 192, 0, &"00".repeat(length));
        image[4] = 3;
        assert_eq!(sound(&image), length <= 28, "a record's rule of {length} bytes");
    }
}

#[test]
fn the_maker_checks_2_then_3_then_4() {
    for (length, version, total, rule, wanted) in [
        (145, 3, 0, "80", 2),
        (144, 4, 0, "80", 2),
        (144, 0x0103, 64, OPEN, 2),
        (144, 0x0001_0003, 64, OPEN, 2),
        (144, 3, 0, "80", 3),
        (144, 3, 65, OPEN, 3),
        (144, 3, 64, "80", 4),
        (144, 3, 64, OPEN, 0),
    ] {
        let answer = make(&mut vec![0; length], version, total, 0, &bytes(rule));
        assert_eq!(answer, wanted, "{length} {version} {total} {rule}");
    }
}

/// The start stands in the last two bytes, high byte first.
#[test]
fn the_start_in_the_record() {
    let mut lent = Lent::fresh(64, 64 * 63);
    for (text, start) in [
        (create_ef("6F01", 0x0304, OPEN), "0000"),
        (create_ef("6F02", 1, OPEN), "0304"),
        (create_df("7F10", 1000, OPEN), "0000"),
        (create_ef("6F03", 1, OPEN), "0305"),
    ] {
        assert_eq!(lent.word(&text), SUCCESS);
        let card = lent.card();
        let at = 16 + 64 * card.current_ef.unwrap_or(card.current_df);
        assert_eq!(hex(&lent.image[at + 62..at + 64]), start, "{text}");
        assert!(lent.image[at + 42..at + 62].iter().all(|&b| b == 0), "the rule's padding");
    }
}

#[test]
fn bodies_lie_in_the_pool_and_apart() {
    let lent = three();
    assert!(sound(&lent.image));
    for (starts, good) in [
        ([0, 10, 30], true),
        ([1, 11, 31], true),
        ([0, 9, 30], false),
        ([0, 10, 29], false),
        ([0, 10, 9], false),
        ([0, 10, 10], false),
        ([0, 0, 30], false),
        ([11, 10, 40], false),
        ([30, 10, 40], true),
        ([29, 10, 40], false),
        ([30, 10, 9], true),
        ([21, 1, 0], true),
        ([438, 0, 20], true),
        ([439, 0, 20], false),
        ([0, 428, 20], true),
        ([0, 429, 20], false),
        ([0, 10, 447], true),
        ([0, 10, 448], false),
        ([0, 10, 0xFFFF], false),
        ([0xFFFF, 10, 40], false),
        ([0, 0xFFF0, 40], false),
    ] {
        let changed = moved(&lent, &starts);
        assert_eq!(sound(&changed.image), good, "starts {starts:?}");
        assert_eq!(report(&changed.image).0, if good { 0 } else { 1 }, "starts {starts:?}");
    }
}

/// The root's total counts, not what the slots could hold.
#[test]
fn the_pool_ends_at_the_roots_total() {
    let mut lent = Lent::fresh(8, 300);
    assert_eq!(lent.word(&create_ef("6F01", 10, OPEN)), SUCCESS);
    for (start, good) in [(290, true), (291, false), (438, false)] {
        assert_eq!(sound(&moved(&lent, &[start]).image), good, "start {start}");
    }
    // Files beneath a directory lie in the same pool.
    let mut deep = Lent::with(8, &[create_df("7F10", 200, OPEN), create_ef("6F01", 10, OPEN)]);
    for (start, good) in [(0, true), (200, true), (438, true), (439, false)] {
        deep.set_start(2, start);
        assert_eq!(sound(&deep.image), good, "start {start}");
    }
}

#[test]
fn directories_and_free_records_have_no_start() {
    for (slot, byte) in [(0, 62), (0, 63), (4, 62), (4, 63), (5, 62), (5, 63), (7, 63)] {
        let mut lent = three();
        lent.image[16 + 64 * slot + byte] = 1;
        assert!(!sound(&lent.image), "slot {slot}, byte {byte}");
    }
    // Older versions have no starts at all; the rule may reach so far on 2.
    for version in [1, 2] {
        let mut image = made(version, 8, 448, 0, OPEN);
        assert_eq!(run(&mut image, &create_ef("6F01", 10, OPEN)), SUCCESS);
        image[16 + 64 + 63] = 1;
        assert!(!sound(&image), "version {version}");
    }
}

/// Bodies of older versions cannot overlap: there are none.
#[test]
fn older_versions_have_no_bodies() {
    for version in [1, 2] {
        let mut image = made(version, 8, 448, 0, OPEN);
        for text in [create_ef("6F01", 100, OPEN), create_ef("6F02", 100, OPEN)] {
            assert_eq!(run(&mut image, &text), SUCCESS);
        }
        assert!(sound(&image));
        image[4] = 3;
        assert!(!sound(&image), "two bodies at 0");
    }
}

/// Ticket 2's re-creation: the same record but for parent, level and start.
#[test]
fn a_file_is_made_again_but_for_its_start() {
    let files = [
        create_ef_ruled("6F01", &object(0xAB, &expanded_of(28))),
        create_records("6F02", 0x42, 3, 9),
        create_records("6F03", 0x46, 254, 508),
        create_ef_ruled("6F04", &object(0x8C, &"00".repeat(28))),
    ];
    let mut old = Lent::with(32, &files);
    let before = [create_df("7F77", 1900, OPEN), create_ef("6FFF", 77, OPEN)];
    for (slot, identifier) in [(1, "6F01"), (2, "6F02"), (3, "6F03"), (4, "6F04")] {
        let (outcome, data) = old.ask(&select_fcp(identifier), 256, &State::FULL);
        let mut new = Lent::with(32, &before);
        assert_eq!(new.word(&select("7F77")), SUCCESS);
        let objects = hex(&data[2..outcome.data]);
        assert_eq!(new.word(&create(&objects)), SUCCESS, "{objects}");
        let record = |lent: &Lent, slot: usize| lent.image[16 + 64 * slot..80 + 64 * slot].to_vec();
        let (wanted, mut given) = (record(&old, slot), record(&new, 3));
        assert_eq!(given[62..], 77u16.to_be_bytes(), "above the other file");
        given[6..10].copy_from_slice(&wanted[6..10]);
        given[62..].copy_from_slice(&wanted[62..]);
        assert_eq!(hex(&given), hex(&wanted), "{identifier}");
    }
}
