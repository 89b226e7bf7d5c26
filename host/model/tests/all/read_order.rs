//! 02, Ticket 4: READ and UPDATE in the order of 01, steps A to K. What comes
//! after K is in reading.rs.

use crate::common::*;
use crate::lent::Lent;
use crate::reading::{card, gives, with};
use model::words::*;
use model::State;

/// Where the record of the card's slot stands.
const fn at(slot: usize, offset: usize) -> usize {
    16 + 64 * slot + offset
}
const DF: usize = 1;
const TRANSPARENT: usize = 2;

/// All 256 instructions: twelve are known, whatever follows.
#[test]
fn step_c() {
    let known = [0xA4, 0xE0, 0xE4, 0x44, 0x04, 0xE8, 0xE6, 0xFE, 0xB0, 0xD6, 0xB2, 0xDC];
    let mut terminated = card();
    terminated.image[at(0, 2)] = 0x0C;
    for ins in 0..=255u8 {
        let (live, dead) = match known.contains(&ins) {
            true => (WRONG_PARAMETERS, CONDITIONS_NOT_SATISFIED),
            false => (UNKNOWN_INSTRUCTION, UNKNOWN_INSTRUCTION),
        };
        gives(&card(), &format!("00{ins:02X}9999"), &State::FULL, live);
        gives(&terminated, &format!("00{ins:02X}9999"), &State::FULL, dead);
    }
}

/// A56: BINARY takes a start under 8000, RECORD only P2 04.
#[test]
fn step_f() {
    let (bytes, records) = (with("6F01"), with("6F02"));
    for high in 0..=255u8 {
        let wanted = if high < 0x80 { WRONG_LENGTH } else { WRONG_PARAMETERS };
        gives(&bytes, &format!("00B0{high:02X}00"), &State::FULL, wanted);
        gives(&bytes, &format!("00D6{high:02X}FF"), &State::FULL, wanted);
        let wanted = if high == 0x04 { WRONG_LENGTH } else { WRONG_PARAMETERS };
        gives(&records, &format!("00B200{high:02X}"), &State::FULL, wanted);
        gives(&records, &format!("00DCFF{high:02X}"), &State::FULL, wanted);
    }
}

/// READ has five bytes, UPDATE 5 + Lc, Lc at least 1.
#[test]
fn step_g() {
    let (bytes, records) = (with("6F01"), with("6F02"));
    for text in ["00B00000", "00B000000100", "00B00000015A", "00D60000", "00D6000000", "00D6000001"]
    {
        gives(&bytes, text, &State::FULL, WRONG_LENGTH);
    }
    for text in ["00D60000025A", "00D60000015A5A", "00D60000005A", "00B0000000000001"] {
        gives(&bytes, text, &State::FULL, WRONG_LENGTH);
    }
    for text in ["00B20104", "00B201040400", "00DC0104", "00DC010400", "00DC0104045A5A5A"] {
        gives(&records, text, &State::FULL, WRONG_LENGTH);
    }
}

/// The four commands, good for 6F01 or 6F02.
fn good(ins: &str) -> (Lent, String) {
    match ins {
        "B0" => (with("6F01"), "00B0000001".into()),
        "D6" => (with("6F01"), "00D60000015A".into()),
        "B2" => (with("6F02"), "00B2010404".into()),
        _ => (with("6F02"), "00DC0104045A5A5A5A".into()),
    }
}
const ALL: [&str; 4] = ["B0", "D6", "B2", "DC"];

/// Each step's word, and that it comes before the next one's.
#[test]
fn the_order() {
    for ins in ALL {
        let (lent, text) = good(ins);
        gives(&lent, &text, &State::FULL, SUCCESS);
        gives(&lent, &text[..6], &State::FULL, WRONG_LENGTH);
        gives(&lent, &format!("80{}", &text[2..]), &State::FULL, UNKNOWN_CLASS);
        gives(&lent, &format!("01{}", &text[2..]), &State::FULL, CONDITIONS_NOT_SATISFIED);
        let mut terminated = lent.clone();
        terminated.image[at(0, 2)] = 0x0C;
        gives(&terminated, &format!("00{ins}FFFF"), &State::FULL, CONDITIONS_NOT_SATISFIED);
        let (no_ef, bad) = (card(), format!("00{ins}FFFF"));
        gives(&no_ef, &bad, &State::FULL, WRONG_PARAMETERS);
        gives(&no_ef, &text[..8], &State::FULL, WRONG_LENGTH);
        gives(&no_ef, &text, &State::EMPTY, NO_CURRENT_EF);
    }
}

/// A15: other open channels do not matter.
#[test]
fn channels_do_not_matter() {
    for ins in ALL {
        let (lent, text) = good(ins);
        gives(&lent, &text, &State { channels: 0xFF, ..State::FULL }, SUCCESS);
    }
}

/// A57: READ by b1, UPDATE by b2 of the EF's own rule, before the life cycle.
#[test]
fn security() {
    for ins in ALL {
        let (lent, text) = good(ins);
        let reads = ["B0", "B2"].contains(&ins);
        let slot = lent.card().current_ef.expect("an EF is current");
        for (rule, read, update) in [
            ("0100", SUCCESS, SECURITY_NOT_SATISFIED),
            ("0200", SECURITY_NOT_SATISFIED, SUCCESS),
            ("0311 00", SUCCESS, SECURITY_NOT_SATISFIED),
            ("0300 11", SECURITY_NOT_SATISFIED, SUCCESS),
            ("7C0000000000", SECURITY_NOT_SATISFIED, SECURITY_NOT_SATISFIED),
            ("01FF 0100", SUCCESS, SECURITY_NOT_SATISFIED),
        ] {
            let mut ruled = lent.clone();
            let rule = bytes(rule);
            ruled.image[at(slot, 33)..at(slot, 62)].fill(0);
            ruled.image[at(slot, 33)] = rule.len() as u8;
            ruled.image[at(slot, 34)..at(slot, 34) + rule.len()].copy_from_slice(&rule);
            let wanted = if reads { read } else { update };
            gives(&ruled, &text, &State::EMPTY, wanted);
            ruled.image[at(slot, 2)] = 0x04;
            let wanted = if wanted == SUCCESS { CONDITIONS_NOT_SATISFIED } else { wanted };
            gives(&ruled, &text, &State::EMPTY, wanted);
        }
    }
}

/// Activated, 05 or 07, and nothing above terminated; this before the structure.
#[test]
fn the_life_cycle() {
    for ins in ALL {
        let (lent, text) = good(ins);
        let slot = lent.card().current_ef.expect("an EF is current");
        for byte in [0x01, 0x03, 0x04, 0x05, 0x06, 0x07, 0x0C] {
            let mut changed = lent.clone();
            changed.image[at(slot, 2)] = byte;
            let activated = [0x05, 0x07].contains(&byte);
            let wanted = if activated { SUCCESS } else { CONDITIONS_NOT_SATISFIED };
            gives(&changed, &text, &State::FULL, wanted);
            let mut above = lent.clone();
            above.image[at(DF, 2)] = byte;
            let wanted = if byte == 0x0C { CONDITIONS_NOT_SATISFIED } else { SUCCESS };
            gives(&above, &text, &State::FULL, wanted);
        }
    }
    let mut lent = with("6F01");
    lent.image[at(TRANSPARENT, 2)] = 0x04;
    for text in ["00B2000401", "00B0012C01", "00D60000015A"] {
        gives(&lent, text, &State::FULL, CONDITIONS_NOT_SATISFIED);
    }
}
