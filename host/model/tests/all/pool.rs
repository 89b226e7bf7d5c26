//! 02, Ticket 4: the pool as it is lent. Answer 6 and its place, pools of any
//! length on older versions, and that a refusal leaves the pool.

use crate::common::*;
use crate::lent::{pattern, Lent};
use model::words::*;
use model::{command, State};

/// One command of each instruction, and some that are none.
const COMMANDS: [&str; 17] = [
    "-",
    "00A4",
    "80A40000",
    "01A40000",
    "00200000",
    "00A4000C023F00",
    "00A40004023F0000",
    "00E0000002FFFF",
    "00E40000026F01",
    "00440000",
    "00040000",
    "00E80000",
    "00FE0000",
    "00B0000001",
    "00D600000155",
    "00B2010401",
    "00DC01040155",
];

/// An EF of 9 bytes is current; the root's total is not what 8 slots can have.
fn card() -> Lent {
    let mut lent = Lent::fresh(8, 401);
    assert_eq!(lent.word(&create_ef("6F01", 9, OPEN)), SUCCESS);
    lent
}

/// The answer of a command with this pool; it leaves everything.
#[track_caller]
fn answer(image: &[u8], pool: &[u8], text: &str) -> u8 {
    let (mut after, mut pool_after) = (image.to_vec(), pool.to_vec());
    let mut response = [MARK; 64];
    let outcome = command(&mut after, &mut pool_after, &bytes(text), &mut response, &State::FULL);
    assert_eq!((outcome.word, outcome.data), (NO_WORD, 0), "{text}");
    assert_eq!((&*after, &*pool_after), (image, pool), "{text} leaves all");
    assert_eq!(response, [MARK; 64], "{text} leaves the buffer");
    outcome.answer
}

#[test]
fn a_pool_of_a_wrong_length_is_answer_6_for_every_command() {
    let lent = card();
    for length in [0, 1, 9, 400, 402, 448, 65_408] {
        for text in COMMANDS {
            assert_eq!(answer(&lent.image, &pattern(length), text), 6, "{length}: {text}");
        }
    }
    let mut terminated = card();
    assert_eq!(terminated.word(TERMINATE_CARD), SUCCESS);
    assert_eq!(answer(&terminated.image, &[], "00A4000C023F00"), 6);
}

#[test]
fn the_right_length_is_the_roots_total() {
    for total in [1, 63, 64, 448] {
        let mut lent = Lent::fresh(8, total);
        assert_eq!(lent.word(&select("3F00")), SUCCESS, "total {total}");
        for length in [total - 1, total + 1] {
            let pool = pattern(length as usize);
            assert_eq!(answer(&lent.image, &pool, "00A4000C023F00"), 6, "{length} for {total}");
        }
    }
    let mut largest = Lent::fresh(1023, 65_408);
    assert_eq!(largest.word(&create_ef("6F01", 65_344, OPEN)), SUCCESS);
    assert_eq!(answer(&largest.image, &largest.pool[1..], "-"), 6);
}

/// The image is judged first, also where only a start is wrong.
#[test]
fn answer_1_comes_before_answer_6() {
    for at in [0, 16 + 64 + 62] {
        let mut lent = card();
        lent.image[at] ^= 0xFF;
        for length in [0, 400, 401, 402] {
            for text in COMMANDS {
                assert_eq!(answer(&lent.image, &pattern(length), text), 1, "{length}: {text}");
            }
        }
    }
}

/// Versions 1 and 2: no length is wrong, and CREATE and DELETE leave every byte.
#[test]
fn older_versions_leave_a_pool_of_any_length() {
    for version in [1, 2] {
        for length in [0, 1, 447, 448, 449, 70_000] {
            let mut image = made(version, 8, 448, 0, OPEN);
            let mut pool = pattern(length);
            for text in [
                create_ef("6F01", 100, OPEN),
                create_df("7F10", 100, OPEN),
                create_ef("6F02", 30, OPEN),
                select("3F00"),
                delete("6F01"),
                delete("7F10"),
            ] {
                let state = State::FULL;
                let outcome = command(&mut image, &mut pool, &bytes(&text), &mut [], &state);
                assert_eq!((outcome.answer, outcome.word), (0, SUCCESS), "{text}");
                assert_eq!(pool, pattern(length), "{text}");
            }
        }
    }
}

/// A59: unknown at step C there, so after A and B and before D.
#[test]
fn older_versions_do_not_know_read_and_update() {
    for version in [1, 2] {
        let mut image = made(version, 8, 448, 0, OPEN);
        assert_eq!(run(&mut image, &create_ef("6F01", 9, OPEN)), SUCCESS);
        for ins in ["B0", "D6", "B2", "DC"] {
            assert_eq!(run(&mut image, &format!("00{ins}0000")), UNKNOWN_INSTRUCTION);
            assert_eq!(run(&mut image, &format!("00{ins}FFFF01")), UNKNOWN_INSTRUCTION);
            assert_eq!(run(&mut image, &format!("00{ins}0000")[..6]), WRONG_LENGTH);
            assert_eq!(run(&mut image, &format!("80{ins}0000")), UNKNOWN_CLASS);
            assert_eq!(run(&mut image, &format!("02{ins}0000")), CONDITIONS_NOT_SATISFIED);
        }
        assert_eq!(run(&mut image, TERMINATE_CARD), SUCCESS);
        assert_eq!(run(&mut image, "00B0000001"), UNKNOWN_INSTRUCTION);
    }
}

/// `Lent::ask` asserts that a refused command leaves image and pool.
#[test]
fn a_refusal_leaves_the_pool() {
    let mut lent = card();
    for (text, word) in [
        (create_ef("6F02", 401, OPEN), NOT_ENOUGH_MEMORY),
        (create_ef("6F02", u32::MAX, OPEN), NOT_ENOUGH_MEMORY),
        (create_ef("6F01", 9, OPEN), IDENTIFIER_TAKEN),
        (create_ef("6F02", 9, "80"), WRONG_DATA),
        (delete("6F02"), FILE_NOT_FOUND),
        ("00D600000A55555555555555555555".into(), WRONG_LENGTH),
        ("00D600090155".into(), WRONG_PARAMETERS),
        ("00DC01040155".into(), WRONG_STRUCTURE),
    ] {
        assert_eq!(lent.word(&text), word, "{text}");
    }
    let denied = [create_ef("6F02", 9, OPEN), delete("6F01")];
    let mut closed = card();
    closed.image[16 + 33..16 + 62].fill(0);
    closed.image[16 + 33] = 1;
    closed.image[16 + 64 + 33..16 + 64 + 62].fill(0);
    closed.image[16 + 64 + 33] = 1;
    for text in denied.iter().map(String::as_str).chain(["00D600000155", "00B0000001"]) {
        assert_eq!(closed.word(text), SECURITY_NOT_SATISFIED, "{text}");
    }
}
