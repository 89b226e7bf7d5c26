//! 01, "Both sides of each line": W1 to W10 and the whole replay case, through
//! the public calls wherever a call shows the line.

use crate::common::*;
use model::descriptor::{class, measures_fit, Class, Structure};
use model::life_cycle::after_activate;
use model::lines::hex;
use model::rule::{decide, Form, Right};
use model::security::condition_holds;
use model::words::*;
use model::{replay, report, State};

/// Only the user set, only the external set.
fn user(set: u16) -> State {
    State { user: set, ..State::EMPTY }
}

fn external(set: u16) -> State {
    State { external: set, ..State::EMPTY }
}

#[test]
fn w1_always_and_never() {
    assert!(condition_holds(0x00, &State::EMPTY));
    assert!(!condition_holds(0xFF, &State::FULL));
}

#[test]
fn w2_user_bit_1_exactly() {
    for set in 0..=u16::MAX {
        let others = State { messaging: !0, external: !0, user: set, channels: 0 };
        assert_eq!(condition_holds(0x11, &others), set & 2 != 0, "user set {set:04X}");
    }
}

#[test]
fn w3_all_or_one() {
    let both = State { external: 4, user: 4, ..State::EMPTY };
    assert!(condition_holds(0xB2, &both));
    assert!(!condition_holds(0xB2, &user(4)));
    assert!(!condition_holds(0xB2, &external(4)));
    assert!(condition_holds(0x32, &user(4)));
    assert!(condition_holds(0x32, &external(4)));
    assert!(!condition_holds(0x32, &State { messaging: !0, external: !4, user: !4, channels: 0 }));
}

#[test]
fn w4_nothing_named_or_environment_15() {
    assert!(!condition_holds(0x80, &State::FULL));
    assert!(!condition_holds(0x1F, &State::FULL));
}

#[test]
fn w5_df_yes_ef_no() {
    let rule = bytes("0600FF");
    assert!(decide(Form::Compact, &rule, Right::CreateDf, &State::EMPTY).is_granted());
    assert!(!decide(Form::Compact, &rule, Right::CreateEf, &State::FULL).is_granted());
    let mut image = fresh(8, 448, "0600FF");
    assert_eq!(run(&mut image, &create_ef("6F07", 9, OPEN)), SECURITY_NOT_SATISFIED);
    assert_eq!(run(&mut image, &create_df("7F10", 9, OPEN)), SUCCESS);
}

#[test]
fn w6_a_later_group_grants() {
    let rule = bytes("02FF0200");
    assert!(decide(Form::Compact, &rule, Right::CreateEf, &State::EMPTY).is_granted());
    let mut image = fresh(8, 448, "02FF0200");
    assert_eq!(run_under(&mut image, &create_ef("6F07", 9, OPEN), &State::EMPTY), SUCCESS);
}

#[test]
fn w7_the_exact_room_and_one_above() {
    let mut image = fresh(8, 256, OPEN);
    assert_eq!(report(&image), (0, [256, 256, 0, 0]));
    assert_eq!(run(&mut image, &create_ef("6F07", 193, OPEN)), NOT_ENOUGH_MEMORY);
    assert_eq!(report(&image), (0, [256, 256, 0, 0]));
    assert_eq!(run(&mut image, &create_ef("6F07", 192, OPEN)), SUCCESS);
    assert_eq!(report(&image), (0, [256, 0, 1, 1]));
}

#[test]
fn w8_descriptors() {
    assert_eq!(class(0x78), Class::Df);
    assert_eq!(class(0x41), Class::Ef(Structure::Transparent));
    assert_eq!(class(0x42), Class::Ef(Structure::LinearFixed));
    assert_eq!(class(0x46), Class::Ef(Structure::Cyclic));
    assert_eq!(class(0x79), Class::Neither);
    assert_eq!(class(0x21), Class::Neither);
    let count = |wanted: fn(Class) -> bool| (0..=255).filter(|&b| wanted(class(b))).count();
    assert_eq!(count(|c| c == Class::Df), 2);
    assert_eq!(count(|c| matches!(c, Class::Ef(_))), 12);
    assert_eq!(count(|c| c == Class::Neither), 242);
}

#[test]
fn w9_records() {
    let linear = class(0x42);
    assert!(measures_fit(linear, 20, 10));
    assert!(!measures_fit(linear, 25, 10));
    assert!(measures_fit(linear, 254, 1));
    assert!(!measures_fit(linear, 255, 1));
    let create_linear = |length: u16, size: u16| {
        create(&format!("82044221{length:04X} 83026F07 8A0105 8C0100 8002{size:04X}"))
    };
    let word = |length, size| run(&mut roomy(16), &create_linear(length, size));
    assert_eq!(word(10, 20), SUCCESS);
    assert_eq!(word(10, 25), WRONG_DATA);
    assert_eq!(word(1, 254), SUCCESS);
    assert_eq!(word(1, 255), WRONG_DATA);
    assert_eq!(word(0, 20), WRONG_DATA);
    assert_eq!(word(256, 256), WRONG_DATA);
    assert_eq!(word(255, 255), SUCCESS);
}

/// Ticket 1 adds 06 to the table.
#[test]
fn w10_activation() {
    const EF: usize = 16 + 64 + 2;
    assert_eq!(after_activate(0x0C), None);
    for deactivated in [0x04, 0x06] {
        assert_eq!(after_activate(deactivated), Some(0x05));
        let mut image = roomy(8);
        assert_eq!(run(&mut image, &create_ef_with("6F07", deactivated)), SUCCESS);
        assert_eq!(image[EF], deactivated);
        for (text, byte) in
            [(ACTIVATE, 0x05), (DEACTIVATE, 0x04), (ACTIVATE, 0x05), (TERMINATE_EF, 0x0C)]
        {
            assert_eq!(run(&mut image, text), SUCCESS, "{text} from {deactivated:02X}");
            assert_eq!(image[EF], byte, "{text} from {deactivated:02X}");
        }
        assert_eq!(run(&mut image, ACTIVATE), CONDITIONS_NOT_SATISFIED);
        assert_eq!(image[EF], 0x0C);
    }
}

const WHOLE_DF: &str = "00E000001962178202782183027F108A01058C0306000081020100C60100";
const WHOLE_EF: &str = "00E000001562138202412183026F078A01058C02010080020009";

/// A stream for replay.
fn stream(header: &str, commands: &[&str]) -> Vec<u8> {
    let mut out = bytes(header);
    for command in commands {
        let command = bytes(command);
        out.extend((command.len() as u16).to_be_bytes());
        out.extend(command);
    }
    out
}

const WHOLE_HEADER: &str = "554653 0001 0008 000001C0";

#[test]
fn the_whole_replay_case() {
    let input = stream(WHOLE_HEADER, &[WHOLE_DF, WHOLE_EF, WHOLE_EF]);
    assert_eq!(String::from_utf8_lossy(&replay(&input)), "9000\n9000\n6A89\n");
}

#[test]
fn the_whole_case_charges_320_and_73() {
    let mut image = fresh(8, 448, OPEN);
    assert_eq!(run(&mut image, WHOLE_DF), SUCCESS);
    assert_eq!(report(&image), (0, [256, 256, 0, 0]));
    assert_eq!(run(&mut image, WHOLE_EF), SUCCESS);
    assert_eq!(report(&image), (0, [256, 256 - 73, 1, 1]));
    assert_eq!(run(&mut image, &select("3F00")), SUCCESS);
    assert_eq!(report(&image), (0, [448, 448 - 320, 1, 2]));
}

#[test]
fn the_whole_case_to_the_byte() {
    let mut image = fresh(8, 448, OPEN);
    run(&mut image, WHOLE_DF);
    run(&mut image, WHOLE_EF);
    assert_eq!(hex(&image[..16]), "55465400010008000100020000000000");
    let zeros = |count: usize| "00".repeat(count);
    let df = format!("01780500 7F10 0000 0001 0000 00000100 00{} 03060000{}", zeros(16), zeros(27));
    assert_eq!(hex(&image[16 + 64..16 + 128]), df.replace(' ', ""));
    let ef = format!("02410500 6F07 0001 0002 0000 00000009 00{} 020100{}", zeros(16), zeros(28));
    assert_eq!(hex(&image[16 + 128..16 + 192]), ef.replace(' ', ""));
    assert!(image[16 + 192..].iter().all(|&b| b == 0));
}

#[test]
fn replay_big_bad_and_cut() {
    let text = |input: &[u8]| String::from_utf8_lossy(&replay(input)).into_owned();
    let mut input = stream(WHOLE_HEADER, &[WHOLE_DF]);
    assert_eq!(text(&input), "9000\n");
    assert_eq!(text(&bytes(WHOLE_HEADER)), "");
    for length in 0..11 {
        assert_eq!(text(&input[..length]), "BAD\n");
    }
    for length in 12..input.len() {
        assert_eq!(text(&input[..length]), "CUT\n", "cut to {length} bytes");
    }
    input.extend([0, 0, 0]);
    assert_eq!(text(&input), "9000\n6700\nCUT\n");
    for bad in [
        "554654 0001 0008 000001C0",
        "554653 0002 0008 000001C0",
        "554653 0001 0001 00000001",
        "554653 0001 0400 00000001",
        "554653 0001 FFFF 00000001",
        "554653 0001 0008 000001C1",
        "554653 0001 0008 00000000",
    ] {
        assert_eq!(text(&bytes(bad)), "BAD\n", "{bad}");
    }
    assert_eq!(text(&vec![0x55; 32_769]), "BIG\n");
    assert_eq!(text(&vec![0x55; 32_768]), "BAD\n");
    let mut long = stream(WHOLE_HEADER, &[]);
    long.resize(32_768, 0);
    assert_eq!(text(&long), format!("{}CUT\n", "6700\n".repeat((32_768 - 11) / 2)));
    long.push(0);
    assert_eq!(text(&long), "BIG\n");
}
