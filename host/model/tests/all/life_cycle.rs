//! 02, Ticket 1: what each command makes of 06 and 07. Which bytes an image
//! may hold is in soundness.rs, which CREATE takes in create_data.rs.

use crate::common::*;
use model::life_cycle::{class, Class};
use model::words::*;
use model::{replay, sound, Word};

/// A file of the card of [`card_with`].
#[derive(Clone, Copy)]
struct Target {
    /// The SELECTs that lead to it from anywhere.
    path: &'static [&'static str],
    /// Where its life-cycle byte stands.
    at: usize,
}

const ROOT: Target = Target { path: &["3F00"], at: 16 + 2 };
const DF: Target = Target { path: &["3F00", "7F10"], at: 16 + 64 + 2 };
const EF: Target = Target { path: &["3F00", "7F10", "6F07"], at: 16 + 128 + 2 };
const TARGETS: [Target; 3] = [ROOT, DF, EF];

/// Selects a file step by step; gives the word of the last SELECT.
fn walk(image: &mut [u8], target: Target) -> Word {
    target.path.iter().fold(0, |_, identifier| run(image, &select(identifier)))
}

/// 3F00 { 7F10 { 6F07 } }, all open to everything; the target is current and
/// has this life-cycle byte, the others are activated.
fn card_with(target: Target, byte: u8) -> Vec<u8> {
    let mut image = roomy(8);
    for text in [create_df("7F10", 256, OPEN), create_ef("6F07", 9, OPEN)] {
        assert_eq!(run(&mut image, &text), SUCCESS);
    }
    assert_eq!(walk(&mut image, target), SUCCESS);
    image[target.at] = byte;
    assert!(sound(&image));
    image
}

/// The command gives this word; the image then differs from before in the
/// target's life-cycle byte, if one is wanted, and in nothing else.
#[track_caller]
fn changes(image: &mut [u8], text: &str, word: Word, target: Target, new: Option<u8>) {
    let mut wanted = image.to_vec();
    wanted[target.at] = new.unwrap_or(wanted[target.at]);
    let given = run(image, text);
    assert_eq!(format!("{given:04X}"), format!("{word:04X}"), "{text}");
    assert_eq!(image, wanted, "{text}");
}

#[test]
fn the_class_of_every_byte() {
    for byte in 0..=255u8 {
        let wanted = match byte {
            0x01 | 0x03 => Some(Class::BeforeUse),
            0x04 | 0x06 => Some(Class::Deactivated),
            0x05 | 0x07 => Some(Class::Activated),
            0x0C => Some(Class::Terminated),
            _ => None,
        };
        assert_eq!(class(byte), wanted, "{byte:02X}");
    }
}

#[test]
fn select_warns_of_06_and_not_of_07() {
    for target in TARGETS {
        for (byte, wanted) in [(0x06, SELECTED_DEACTIVATED), (0x07, SUCCESS)] {
            let current = card_with(target, byte);
            let mut image = current.clone();
            // Away first, so that the walk has something to select.
            let away = if target.at == ROOT.at { "7F10" } else { "3F00" };
            assert_eq!(run(&mut image, &select(away)), SUCCESS);
            assert_ne!(image, current);
            assert_eq!(walk(&mut image, target), wanted, "{byte:02X}");
            assert_eq!(image, current, "selected, and the byte is left");
        }
    }
}

#[test]
fn activate_and_deactivate_write_05_and_04() {
    for target in TARGETS {
        let refused = CONDITIONS_NOT_SATISFIED;
        changes(&mut card_with(target, 0x06), DEACTIVATE, refused, target, None);
        changes(&mut card_with(target, 0x07), ACTIVATE, refused, target, None);
        let mut image = card_with(target, 0x06);
        changes(&mut image, ACTIVATE, SUCCESS, target, Some(0x05));
        changes(&mut image, DEACTIVATE, SUCCESS, target, Some(0x04));
        changes(&mut image, ACTIVATE, SUCCESS, target, Some(0x05));
        let mut image = card_with(target, 0x07);
        changes(&mut image, DEACTIVATE, SUCCESS, target, Some(0x04));
        changes(&mut image, ACTIVATE, SUCCESS, target, Some(0x05));
    }
}

#[test]
fn each_terminate_works_from_both() {
    for (text, target) in [(TERMINATE_EF, EF), (TERMINATE_DF, DF), (TERMINATE_CARD, ROOT)] {
        for byte in [0x06, 0x07] {
            let mut image = card_with(target, byte);
            changes(&mut image, text, SUCCESS, target, Some(0x0C));
            changes(&mut image, text, CONDITIONS_NOT_SATISFIED, target, None);
        }
    }
    for byte in [0x06, 0x07] {
        let mut image = card_with(ROOT, byte);
        changes(&mut image, TERMINATE_DF, CONDITIONS_NOT_SATISFIED, ROOT, None);
    }
}

#[test]
fn create_is_refused_in_06_and_works_in_07() {
    for target in [ROOT, DF] {
        for text in [create_df("7F20", 9, OPEN), create_ef("6F08", 9, OPEN)] {
            let mut deactivated = card_with(target, 0x06);
            changes(&mut deactivated, &text, CONDITIONS_NOT_SATISFIED, target, None);
            let mut activated = card_with(target, 0x07);
            assert_eq!(run(&mut activated, &text), SUCCESS);
            assert_eq!(activated[target.at], 0x07, "the directory's byte is left");
        }
    }
}

#[test]
fn delete_regards_neither() {
    for byte in [0x06, 0x07] {
        let mut of_the_file = card_with(EF, byte);
        assert_eq!(run(&mut of_the_file, &delete("6F07")), SUCCESS);
        assert_eq!(of_the_file[EF.at], 0x00);
        let mut of_the_directory = card_with(DF, byte);
        assert_eq!(run(&mut of_the_directory, &delete("6F07")), SUCCESS);
        assert_eq!(of_the_directory[DF.at], byte);
    }
}

#[test]
fn security_is_asked_before_the_class() {
    for target in TARGETS {
        for byte in [0x06, 0x07] {
            let mut closed = card_with(target, byte);
            let rule = target.at - 2 + 33;
            closed[rule..rule + 17].fill(0);
            closed[rule] = 1;
            for text in [ACTIVATE, DEACTIVATE] {
                changes(&mut closed, text, SECURITY_NOT_SATISFIED, target, None);
            }
            if target.at != EF.at {
                let text = create_ef("6F08", 9, OPEN);
                changes(&mut closed, &text, SECURITY_NOT_SATISFIED, target, None);
            }
        }
    }
}

/// A file made with 06 or 07 is treated by its class from the first moment.
#[test]
fn new_files_go_by_class_at_once() {
    let new = Target { path: &["7F10"], at: 16 + 64 + 2 };
    let inside = create_ef("6F07", 9, OPEN);
    let mut image = roomy(8);
    assert_eq!(run(&mut image, &create_df_with("7F10", 0x06)), SUCCESS);
    changes(&mut image, &inside, CONDITIONS_NOT_SATISFIED, new, None);
    assert_eq!(walk(&mut image, new), SELECTED_DEACTIVATED);
    changes(&mut image, ACTIVATE, SUCCESS, new, Some(0x05));
    assert_eq!(run(&mut image, &inside), SUCCESS);
    let mut image = roomy(8);
    assert_eq!(run(&mut image, &create_df_with("7F10", 0x07)), SUCCESS);
    assert_eq!(run(&mut image, &inside), SUCCESS);
    assert_eq!(walk(&mut image, new), SUCCESS);
    changes(&mut image, DEACTIVATE, SUCCESS, new, Some(0x04));
    assert_eq!(run(&mut image, &create_ef("6F08", 9, OPEN)), CONDITIONS_NOT_SATISFIED);
}

/// The lab's 8A 01 07, by replay.
#[test]
fn replay_takes_07() {
    let mut input = bytes("554653 0001 0008 000001C0");
    for text in [&create_ef_with("6F07", 0x07), ACTIVATE, DEACTIVATE, &select("6F07")] {
        let command = bytes(text);
        input.extend((command.len() as u16).to_be_bytes());
        input.extend(command);
    }
    assert_eq!(String::from_utf8_lossy(&replay(&input)), "9000\n6985\n9000\n6283\n");
}
