//! 02, Ticket 6: the number of a call. 0 for no security refusal, 1 lacking, 2
//! closed; for every command, by whichever rule it asks.

use crate::common::*;
use crate::lent::Lent;
use model::words::*;
use model::{command, State, Word};

pub const ROOT: usize = 0;
pub const DF: usize = 1;
pub const BYTES: usize = 2;
pub const RECORDS: usize = 3;

/// 3F00 { 7F10 { 6F01 of 9 bytes, 6F02 of 3 records } }, all open; 7F10 is
/// current, and this EF in it.
pub fn card(ef: Option<&str>) -> Lent {
    let mut lent = Lent::with(
        8,
        &[
            create_df("7F10", 300, OPEN),
            create_ef("6F01", 9, OPEN),
            create_records("6F02", 0x42, 3, 9),
        ],
    );
    for text in [Some("7F10"), ef].into_iter().flatten().map(select) {
        assert_eq!(lent.word(&text), SUCCESS);
    }
    lent
}

/// Gives a file another rule.
pub fn set_rule(lent: &mut Lent, slot: usize, form: u8, rule: &str) {
    let (rule, at) = (bytes(rule), 16 + 64 * slot);
    lent.image[at + 3] = form;
    lent.image[at + 33..at + 62].fill(0);
    lent.image[at + 33] = rule.len() as u8;
    lent.image[at + 34..at + 34 + rule.len()].copy_from_slice(&rule);
    assert!(model::sound(&lent.image), "{rule:02X?}");
}

/// Rules that always grant all but one bit, and for that have this SC byte.
fn all_but(bit: u8, sc: u8) -> [(u8, String); 2] {
    let others = (0..7).rev().map(|n| if 1 << n == bit { sc } else { 0x00 });
    let compact = others.map(|byte| format!("{byte:02X}")).collect::<String>();
    let expanded = format!("8001{:02X}9000 8001{bit:02X}9E01{sc:02X}", 0x7F ^ bit);
    [(0, format!("7F{compact}")), (1, expanded.replace(' ', ""))]
}

/// Word and number of a command; what else must hold of it is asserted.
#[track_caller]
pub fn told(lent: &Lent, text: &str, state: &State) -> (Word, u8) {
    let (outcome, _) = lent.clone().ask(text, 256, state);
    assert_eq!(outcome.answer, 0, "{text}");
    (outcome.word, outcome.security)
}

pub const USER_1: State = State { user: 2, ..State::EMPTY };
/// All sets full but for user bit 1.
const ALL_BUT_USER_1: State = State { user: !2, ..State::FULL };

/// The commands with which a rule is asked: the EF that is current, whose rule,
/// which bit of it.
pub fn commands() -> Vec<(Option<&'static str>, String, usize, u8)> {
    vec![
        (None, ACTIVATE.into(), DF, 0x10),
        (Some("6F01"), ACTIVATE.into(), BYTES, 0x10),
        (None, DEACTIVATE.into(), DF, 0x08),
        (Some("6F02"), DEACTIVATE.into(), RECORDS, 0x08),
        (Some("6F01"), TERMINATE_EF.into(), BYTES, 0x20),
        (Some("6F01"), TERMINATE_DF.into(), DF, 0x20),
        (Some("6F01"), TERMINATE_CARD.into(), ROOT, 0x20),
        (Some("6F01"), create_df("7F20", 9, OPEN), DF, 0x04),
        (None, create_ef("6F03", 9, OPEN), DF, 0x02),
        (Some("6F01"), "00B0000001".into(), BYTES, 0x01),
        (Some("6F01"), "00D60000015A".into(), BYTES, 0x02),
        (Some("6F02"), "00B2010403".into(), RECORDS, 0x01),
        (Some("6F02"), "00DC0104035A5A5A".into(), RECORDS, 0x02),
    ]
}

/// Only the bit that the command asks for decides, and only in that file's rule;
/// so in both forms.
#[test]
fn every_command_tells_what_its_rule_lacks() {
    for (ef, text, slot, bit) in commands() {
        for (sc, state, number) in [
            (0x11, State::EMPTY, 1),
            (0x11, ALL_BUT_USER_1, 1),
            (0x11, USER_1, 0),
            (0xF1, USER_1, 1),
            (0xF1, State::FULL, 0),
            (0xFF, State::EMPTY, 2),
            (0xFF, State::FULL, 2),
            (0x1F, State::FULL, 2),
            (0x81, State::FULL, 2),
            (0x00, State::EMPTY, 0),
        ] {
            for (form, rule) in all_but(bit, sc) {
                let mut lent = card(ef);
                set_rule(&mut lent, slot, form, &rule);
                let (word, security) = told(&lent, &text, &state);
                assert_eq!(security, number, "{text} {rule} {state:?}");
                assert_eq!(word == SECURITY_NOT_SATISFIED, number != 0, "{text} {rule} {word:04X}");
            }
        }
    }
}

/// A rule with templates, and a right that no group names.
#[test]
fn templates_and_rights_in_no_group() {
    for (ef, text, slot, bit) in commands() {
        for (conditions, state, number) in [
            ("AF05 9E0111 9700", State::FULL, 2),
            ("AF06 9E0111 9E0142", USER_1, 1),
            ("A005 9700 9E0111", State::EMPTY, 1),
            ("A005 9700 9E011F", State::FULL, 2),
            ("A0 0A 9E0112 AF05 9E0111 9700", USER_1, 1),
        ] {
            let mut lent = card(ef);
            set_rule(&mut lent, slot, 1, &format!("8001{bit:02X}{conditions}").replace(' ', ""));
            let given = told(&lent, &text, &state);
            assert_eq!(given, (SECURITY_NOT_SATISFIED, number), "{text} {conditions}");
        }
        let others = 0x7F ^ bit;
        for (form, rule) in [(0, format!("{others:02X}{}", "00".repeat(6))), (0, "00".into())]
            .into_iter()
            .chain([(1, format!("8001{others:02X}9000"))])
        {
            let mut lent = card(ef);
            set_rule(&mut lent, slot, form, &rule);
            let given = told(&lent, &text, &State::FULL);
            assert_eq!(given, (SECURITY_NOT_SATISFIED, 2), "{text} {rule}");
        }
    }
}

/// "Where DELETE has two rules, lacking wins over closed", in both orders, and
/// granted over both.
#[test]
fn delete_has_two_rules() {
    let (text, open) = (delete("6F01"), 0x00);
    for (own, directory, number) in [
        (0x11, 0x12, 1),
        (0x11, 0xFF, 1),
        (0xFF, 0x11, 1),
        (0xFF, 0xFF, 2),
        (0x1F, 0x80, 2),
        (open, 0xFF, 0),
        (0xFF, open, 0),
        (open, 0x11, 0),
        (0x11, open, 0),
        (open, open, 0),
    ] {
        for (one, other) in [(0, 0), (0, 1), (1, 0), (1, 1)] {
            let mut lent = card(Some("6F01"));
            let (own, directory) = (&all_but(0x40, own)[one], &all_but(0x01, directory)[other]);
            set_rule(&mut lent, BYTES, own.0, &own.1);
            set_rule(&mut lent, DF, directory.0, &directory.1);
            let word = if number == 0 { SUCCESS } else { SECURITY_NOT_SATISFIED };
            assert_eq!(told(&lent, &text, &State::EMPTY), (word, number), "{own:?} {directory:?}");
            let closed = number == 2;
            let at_last = if closed { (SECURITY_NOT_SATISFIED, 2) } else { (SUCCESS, 0) };
            assert_eq!(told(&lent, &text, &State::FULL), at_last, "{own:?} {directory:?}");
        }
    }
}

/// Every rule on the card is closed; nothing but a rule refuses at J.
fn all_closed(ef: Option<&str>) -> Lent {
    let mut lent = card(ef);
    [ROOT, DF, BYTES, RECORDS].iter().for_each(|&slot| set_rule(&mut lent, slot, 0, "00"));
    lent
}

/// A61: words of earlier steps have no number, though the rules are closed.
#[test]
fn earlier_words_have_no_number() {
    let other_channel = State { channels: 2, ..State::FULL };
    for (ef, text, state, word) in [
        (None, "0044".to_string(), State::FULL, WRONG_LENGTH),
        (None, "80440000".into(), State::FULL, UNKNOWN_CLASS),
        (None, "01440000".into(), State::FULL, CONDITIONS_NOT_SATISFIED),
        (None, "00450000".into(), State::FULL, UNKNOWN_INSTRUCTION),
        (None, TERMINATE_DF.into(), other_channel, CONDITIONS_NOT_SATISFIED),
        (None, "00440100".into(), State::FULL, WRONG_PARAMETERS),
        (None, "0044000000".into(), State::FULL, WRONG_LENGTH),
        (None, create("82024121"), State::FULL, WRONG_DATA),
        (None, delete("6F09"), State::FULL, FILE_NOT_FOUND),
        (None, TERMINATE_EF.into(), State::FULL, NO_CURRENT_EF),
        (None, "00B0000001".into(), State::FULL, NO_CURRENT_EF),
        (None, select("6F09"), State::FULL, FILE_NOT_FOUND),
        (None, select("6F01"), State::EMPTY, SUCCESS),
        (Some("6F01"), ACTIVATE.into(), other_channel, SECURITY_NOT_SATISFIED),
    ] {
        let number = if word == SECURITY_NOT_SATISFIED { 2 } else { 0 };
        assert_eq!(told(&all_closed(ef), &text, &state), (word, number), "{text}");
    }
    let mut terminated = all_closed(None);
    terminated.image[16 + 2] = 0x0C;
    assert_eq!(told(&terminated, ACTIVATE, &State::FULL), (CONDITIONS_NOT_SATISFIED, 0));
}

/// A61: so have the words of later steps, which only a granted right reaches.
#[test]
fn later_words_have_no_number() {
    for (ef, text, word) in [
        (Some("6F01"), ACTIVATE.to_string(), CONDITIONS_NOT_SATISFIED),
        (None, create_ef("6F01", 9, OPEN), IDENTIFIER_TAKEN),
        (None, create_ef("6F03", 999, OPEN), NOT_ENOUGH_MEMORY),
        (Some("6F01"), "00B2010403".into(), WRONG_STRUCTURE),
        (Some("6F01"), "00B0000901".into(), WRONG_PARAMETERS),
        (Some("6F02"), "00B2040403".into(), RECORD_NOT_FOUND),
        (Some("6F02"), "00B2010402".into(), WRONG_LENGTH),
    ] {
        assert_eq!(told(&card(ef), &text, &State::EMPTY), (word, 0), "{text}");
    }
}

/// A61: answers 1, 5 and 6 have no number, whatever the rules say.
#[test]
fn other_answers_have_no_number() {
    let mut unsound = all_closed(Some("6F01"));
    unsound.image[15] = 1;
    let mut short = all_closed(Some("6F01"));
    short.pool.pop();
    let outcome = |lent: &Lent, text: &str, length| lent.clone().ask(text, length, &State::EMPTY).0;
    for (lent, text, length, answer) in [
        (&unsound, ACTIVATE, 256, 1),
        (&short, ACTIVATE, 256, 6),
        (&all_closed(None), &select_fcp("6F01"), 4, 5),
        (&card(Some("6F01")), "00B0000009", 8, 5),
    ] {
        let given = outcome(lent, text, length);
        assert_eq!((given.answer, given.word, given.security), (answer, 0, 0), "{text}");
    }
    // A closed READ is refused before the buffer is looked at.
    let given = outcome(&all_closed(Some("6F01")), "00B0000009", 8);
    assert_eq!((given.answer, given.word, given.security), (0, SECURITY_NOT_SATISFIED, 2));
}

/// A62: neither life cycles nor channels are a part of it: a right that would be
/// refused at K under every state still only lacks.
#[test]
fn life_cycles_and_channels_are_no_part_of_it() {
    for (ef, text, slot, bit) in commands() {
        for (sc, number) in [(0x11, 1), (0xFF, 2)] {
            for (form, rule) in all_but(bit, sc) {
                let mut lent = card(ef);
                set_rule(&mut lent, slot, form, &rule);
                for life in [0x01, 0x03, 0x04, 0x05, 0x06, 0x07, 0x0C] {
                    [DF, BYTES, RECORDS].iter().for_each(|s| lent.image[16 + 64 * s + 2] = life);
                    for channels in [0x00, 0x01, 0xF1] {
                        let given = told(&lent, &text, &State { channels, ..State::EMPTY });
                        assert_eq!(given, (SECURITY_NOT_SATISFIED, number), "{text} {life:02X}");
                    }
                }
            }
        }
    }
}

/// A16: the root is never terminated as a DF, which is found only after J.
#[test]
fn the_root_lacks_too() {
    for (rule, number) in [("2011", 1), ("20FF", 2), ("00", 2)] {
        let mut image = fresh(4, 192, rule);
        let outcome = command(&mut image, &mut [], &bytes(TERMINATE_DF), &mut [], &ALL_BUT_USER_1);
        assert_eq!((outcome.word, outcome.security), (SECURITY_NOT_SATISFIED, number), "{rule}");
    }
}
