//! 01, "The order in which a command is judged": each step's word, and that
//! the earlier of two failing steps gives the word.

use crate::common::*;
use model::words::*;
use model::{State, Word};

/// Full sets, channel 1 open too.
const CHANNEL_1: State = State { channels: 0b10, ..State::FULL };

/// A card whose root grants nothing but holds EF 6F07 (current), which grants
/// nothing either.
fn closed() -> Vec<u8> {
    let mut image = roomy(8);
    assert_eq!(run(&mut image, &create_ef("6F07", 9, "00")), SUCCESS);
    image[16 + 33..16 + 50].fill(0);
    image[16 + 33] = 1;
    assert!(model::sound(&image));
    image
}

/// A card with a terminated root.
fn terminated() -> Vec<u8> {
    let mut image = roomy(8);
    assert_eq!(run(&mut image, TERMINATE_CARD), SUCCESS);
    image
}

#[track_caller]
fn gives(image: &[u8], text: &str, state: &State, wanted: Word) {
    let mut after = image.to_vec();
    let word = run_under(&mut after, text, state);
    assert_eq!(format!("{word:04X}"), format!("{wanted:04X}"), "{text}");
    assert_eq!(after, image, "a refusal leaves the image");
}

#[test]
fn step_a_comes_before_the_class() {
    for short in ["-", "80", "80B0", "80B000", "00", "00A4", "00A400"] {
        gives(&roomy(4), short, &State::FULL, WRONG_LENGTH);
        gives(&terminated(), short, &State::FULL, WRONG_LENGTH);
    }
}

#[test]
fn step_b_for_all_classes() {
    for class in 1..=255u8 {
        let wanted = if class <= 3 { CONDITIONS_NOT_SATISFIED } else { UNKNOWN_CLASS };
        gives(&roomy(4), &format!("{class:02X}B09999"), &State::FULL, wanted);
        gives(&terminated(), &format!("{class:02X}B09999"), &State::FULL, wanted);
    }
}

#[test]
fn step_c_for_all_instructions() {
    let known = [0xA4, 0xE0, 0xE4, 0x44, 0x04, 0xE8, 0xE6, 0xFE];
    for ins in 0..=255u8 {
        let text = format!("00{ins:02X}9999");
        if known.contains(&ins) {
            gives(&roomy(4), &text, &State::FULL, WRONG_PARAMETERS);
            gives(&terminated(), &text, &State::FULL, CONDITIONS_NOT_SATISFIED);
        } else {
            gives(&roomy(4), &text, &CHANNEL_1, UNKNOWN_INSTRUCTION);
            gives(&terminated(), &text, &CHANNEL_1, UNKNOWN_INSTRUCTION);
        }
    }
}

#[test]
fn step_e_for_all_channel_bytes() {
    for channels in 0..=255u8 {
        let state = State { channels, ..State::FULL };
        let open = channels & 0b1110 != 0;
        for ins in ["E0", "E4", "E8", "E6", "FE"] {
            let wanted = if open { CONDITIONS_NOT_SATISFIED } else { WRONG_PARAMETERS };
            gives(&roomy(4), &format!("00{ins}0001"), &state, wanted);
        }
        for ins in ["A4", "44", "04"] {
            gives(&roomy(4), &format!("00{ins}0001"), &state, WRONG_PARAMETERS);
        }
    }
}

#[test]
fn step_f_comes_before_the_length() {
    for ins in ["E0", "E4", "44", "04", "E8", "E6", "FE"] {
        for parameters in ["0001", "0100", "000C", "8000", "0080"] {
            gives(&closed(), &format!("00{ins}{parameters}0102"), &State::FULL, WRONG_PARAMETERS);
        }
    }
    for parameters in ["0000", "010C", "040C", "000D", "008C", "0104", "0404", "0005", "0084"] {
        gives(&closed(), &format!("00A4{parameters}0102"), &State::FULL, WRONG_PARAMETERS);
    }
}

#[test]
fn step_f_takes_0c_and_04_of_all_parameters() {
    for parameters in 0..=u16::MAX {
        let wanted = match parameters {
            0x000C | 0x0004 => WRONG_LENGTH,
            _ => WRONG_PARAMETERS,
        };
        gives(&roomy(2), &format!("00A4{parameters:04X}"), &State::FULL, wanted);
    }
}

#[test]
fn step_g_comes_before_the_data() {
    for wrong in [
        "00E00000",
        "00E0000000",
        "00E0000001",
        "00E000000262",
        "00E00000016200",
        "00E40000",
        "00E4000000",
        "00E40000026F",
        "00E4000002AAAA00",
        "00E4000001AA",
        "00E4000003AAAAAA",
        "00E4000003AAAA",
        "00A4000C",
        "00A4000C00",
        "00A4000C02AA",
        "00A4000C02AAAA00",
        "00A4000C03AAAA",
        "00A4000C01AA",
        "00A40004",
        "00A4000400",
        "00A4000402AA",
        "00A4000402AAAA",
        "00A4000402AAAA01",
        "00A4000402AAAAFF",
        "00A4000402AAAA0000",
        "00A4000403AAAA00",
        "00A4000401AA00",
        "00A4000400AAAA00",
        "0044000000",
        "0004000000",
        "00E8000000",
        "00E6000000",
        "00FE000000",
    ] {
        gives(&closed(), wrong, &State::FULL, WRONG_LENGTH);
    }
}

#[test]
fn step_h_comes_before_security() {
    gives(&closed(), &create("82024121"), &State::FULL, WRONG_DATA);
    gives(&closed(), &create_ef("6F07", 9, OPEN), &State::FULL, SECURITY_NOT_SATISFIED);
}

#[test]
fn step_i_comes_before_security() {
    gives(&closed(), &delete("6F08"), &State::FULL, FILE_NOT_FOUND);
    gives(&closed(), &delete("6F07"), &State::FULL, SECURITY_NOT_SATISFIED);
    gives(&closed(), &select("6F08"), &State::FULL, FILE_NOT_FOUND);
    gives(&closed(), &select_fcp("6F08"), &State::FULL, FILE_NOT_FOUND);
    let mut no_ef = closed();
    assert_eq!(run(&mut no_ef, &select("3F00")), SUCCESS);
    gives(&no_ef, TERMINATE_EF, &State::FULL, NO_CURRENT_EF);
    gives(&closed(), TERMINATE_EF, &State::FULL, SECURITY_NOT_SATISFIED);
}

#[test]
fn step_j_comes_before_the_life_cycle() {
    let mut image = closed();
    image[16 + 64 + 2] = 0x0C;
    for text in [ACTIVATE, DEACTIVATE, TERMINATE_EF, TERMINATE_DF, TERMINATE_CARD] {
        gives(&image, text, &State::FULL, SECURITY_NOT_SATISFIED);
    }
    image[16 + 2] = 0x04;
    gives(&image, &create_ef("6F07", 9, OPEN), &State::FULL, SECURITY_NOT_SATISFIED);
}

#[test]
fn step_k_comes_before_step_l() {
    let mut image = roomy(8);
    assert_eq!(run(&mut image, &create_ef("6F07", 9, OPEN)), SUCCESS);
    image[16 + 2] = 0x04;
    for text in [create_ef("6F07", 9, OPEN), create_ef("6F08", 9999, OPEN)] {
        gives(&image, &text, &State::FULL, CONDITIONS_NOT_SATISFIED);
    }
}

#[test]
fn step_l_identifier_then_name_then_memory() {
    let mut image = roomy(16);
    assert_eq!(run(&mut image, &create_named("7F10", "A0", 300)), SUCCESS);
    gives(&image, &create_named("7F10", "A0", 9999), &State::FULL, IDENTIFIER_TAKEN);
    gives(&image, &create_named("3F00", "A0", 9999), &State::FULL, IDENTIFIER_TAKEN);
    gives(&image, &create_named("7F11", "A0", 9999), &State::FULL, NAME_TAKEN);
    gives(&image, &create_named("7F11", "A1", 9999), &State::FULL, NOT_ENOUGH_MEMORY);
    gives(&image, &create_named("7F11", "A000", 237), &State::FULL, NOT_ENOUGH_MEMORY);
    assert_eq!(run(&mut image, &create_named("7F11", "A000", 236)), SUCCESS);
}
