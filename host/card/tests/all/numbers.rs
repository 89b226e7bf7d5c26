//! The bare numbers: each is written by every call, whatever it answers; and the
//! header's numbers are the wrapper's.

use card::{ffi, largest_total, CommandError, Form, Kind, MakeError, Place, Security};
use card::{FEWEST_SLOTS, HEADER_BYTES, LONGEST_RESPONSE, MOST_SLOTS};
use card::{RECORD_BYTES, REFERENCE_BYTES};

use crate::common::{fresh_of, read, select, select_told, update, CREATE_EF};

const HEADER: &str = include_str!("../../../../include/hullplaiter.h");

const FULL: [u16; 3] = [0xFFFF; 3];

/// Each number is written, also where there is nothing to tell: it would be
/// FFFFFFFF else.
#[test]
fn every_number_is_written_on_every_call() {
    let whole = LONGEST_RESPONSE;
    for (command, length, both, written) in [
        (select(0x3F00), whole, 0x9000, 0),
        (select_told(0x3F00), whole, 0x9000, 27),
        (select_told(0x3F00), 26, 0x5_0000, 0),
        (select_told(0x6F07), whole, 0x6A82, 0),
        (CREATE_EF.to_vec(), whole, 0x9000, 0),
        (Vec::new(), 0, 0x6700, 0),
    ] {
        for kind in Kind::ALL {
            let (mut image, mut pool) = fresh_of(kind).into_parts();
            let mut response = vec![0; length];
            let given = ffi::command(&mut image, &mut pool, &command, &mut response, FULL, 0);
            assert_eq!(given, (both, [written, 0, 0]), "{command:02X?}, {length}, {kind:?}");
        }
    }
    let mut damaged = vec![0; 144];
    let command = select_told(0x3F00);
    let given = ffi::command(&mut damaged, &mut [], &command, &mut [0; 60], FULL, 0);
    assert_eq!(given, (0x1_0000, [0, 0, 0]));
    let (mut image, _) = fresh_of(Kind::VERSION_3).into_parts();
    let given = ffi::command(&mut image, &mut [0; 447], &command, &mut [0; 60], FULL, 0);
    assert_eq!(given, (0x6_0000, [0, 0, 0]));
}

/// A READ tells how many bytes it read. An UPDATE that the file's rule has in no
/// group tells that it is closed.
#[test]
fn a_read_tells_its_length() {
    let (mut image, mut pool) = fresh_of(Kind::VERSION_3).into_parts();
    for (command, length, both, numbers) in [
        (CREATE_EF.to_vec(), 0, 0x9000, [0, 0, 0]),
        (read(0, 9), 8, 0x5_0000, [0, 0, 0]),
        (read(0, 9), 9, 0x9000, [9, 0, 0]),
        (read(8, 1), 256, 0x9000, [1, 0, 0]),
        (read(8, 2), 256, 0x6700, [0, 0, 0]),
        (update(0, &[1; 9]), 0, 0x6982, [0, 2, 0]),
    ] {
        let mut response = vec![0; length];
        let given = ffi::command(&mut image, &mut pool, &command, &mut response, FULL, 0);
        assert_eq!(given, (both, numbers), "{command:02X?}, {length}");
    }
}

#[test]
fn the_header_has_the_same_numbers() {
    let answer = |number: u32| usize::try_from(number).expect("a small number");
    let wrong_pool = CommandError::WrongPool { wanted: 0, given: 0 };
    let longest = |kind: Kind| kind.longest_rule(Form::Compact).expect("a card");
    for (name, value) in [
        ("HULL_HEADER_BYTES", HEADER_BYTES),
        ("HULL_RECORD_BYTES", RECORD_BYTES),
        ("HULL_SLOTS_LEAST", FEWEST_SLOTS),
        ("HULL_SLOTS_MOST", MOST_SLOTS),
        ("HULL_POOL_MOST", answer(largest_total(MOST_SLOTS))),
        ("HULL_RESPONSE_MOST", LONGEST_RESPONSE),
        ("HULL_COMMAND_NUMBERS", ffi::command(&mut [], &mut [], &[], &mut [], FULL, 0).1.len()),
        ("HULL_REPORT_NUMBERS", ffi::report(&[]).1.len()),
        ("HULL_RULE_NUMBERS", ffi::rule(&[], &[], 0).1.len()),
        ("HULL_NOT_SOUND", answer(CommandError::Damaged.answer())),
        ("HULL_VERSION_1", answer(Kind::VERSION_1.number())),
        ("HULL_VERSION_2", answer(Kind::VERSION_2.number())),
        ("HULL_VERSION_3", answer(Kind::VERSION_3.number())),
        ("HULL_RULE_MOST", longest(Kind::VERSION_2)),
        ("HULL_RULE_MOST_1", longest(Kind::VERSION_1)),
        ("HULL_RULE_MOST_3", longest(Kind::VERSION_3)),
        ("HULL_RULE_REFERRED", REFERENCE_BYTES),
        ("HULL_COMPACT", answer(Form::Compact.number())),
        ("HULL_EXPANDED", answer(Form::Expanded.number())),
        ("HULL_REFERRED", answer(Form::Referred.number())),
        ("HULL_BAD_LENGTH", answer(MakeError::Length.answer())),
        ("HULL_BAD_TOTAL", answer(MakeError::Total.answer())),
        ("HULL_BAD_RULE", answer(MakeError::Rule(Form::Compact).answer())),
        ("HULL_SHORT_RESPONSE", answer(CommandError::ShortResponse.answer())),
        ("HULL_WRONG_POOL", answer(wrong_pool.answer())),
        ("HULL_NO_SECURITY_REFUSAL", answer(Security::NoRefusal.number())),
        ("HULL_LACKING", answer(Security::Lacking.number())),
        ("HULL_CLOSED", answer(Security::Closed.number())),
        ("HULL_NOWHERE", answer(Place::Nowhere.number())),
        ("HULL_IN_IMAGE", answer(Place::InImage { from: 0, to: 1 }.number())),
        ("HULL_IN_POOL", answer(Place::InPool { from: 0, to: 1 }.number())),
    ] {
        let line = format!("#define {name} {value}u");
        assert!(HEADER.lines().any(|other| other == line), "{line}");
    }
}
