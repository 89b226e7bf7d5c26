//! 02, Ticket 4: READ and UPDATE, which bytes they read and write, and the words
//! after step K. Steps A to K are in read_order.rs.

use crate::common::*;
use crate::lent::{pattern, Lent};
use model::words::*;
use model::{State, Word};

/// 6F01 transparent of 300 bytes at 0, 6F02 linear fixed of 3 records of 4 bytes
/// at 300, 6F03 cyclic of 254 records of 1 byte at 312, in 7F10; the pool is a
/// pattern, no EF is current.
pub fn card() -> Lent {
    let mut lent = Lent::with(
        32,
        &[
            create_df("7F10", 1500, OPEN),
            create_ef("6F01", 300, OPEN),
            create_records("6F02", 0x42, 4, 12),
            create_records("6F03", 0x46, 1, 254),
            select("7F10"),
        ],
    );
    lent.pool = pattern(lent.pool.len());
    lent
}

/// The card with an EF current.
pub fn with(identifier: &str) -> Lent {
    let mut lent = card();
    assert_eq!(lent.word(&select(identifier)), SUCCESS);
    lent
}

#[track_caller]
pub fn gives(lent: &Lent, text: &str, state: &State, word: Word) {
    let (outcome, _) = lent.clone().ask(text, 300, state);
    assert_eq!(outcome.answer, 0, "{text}");
    assert_eq!(format!("{:04X}", outcome.word), format!("{word:04X}"), "{text}");
}

/// An UPDATE of so many bytes.
fn update(head: &str, length: usize) -> String {
    format!("{head}{length:02X}{}", "5A".repeat(length))
}

#[test]
fn read_binary() {
    let mut lent = with("6F01");
    for (text, bytes) in [
        ("00B0000001", &pattern(300)[0..1]),
        ("00B00000FF", &pattern(300)[0..255]),
        ("00B0000000", &pattern(300)[0..256]),
        ("00B0002C00", &pattern(300)[44..300]),
        ("00B0010010", &pattern(300)[256..272]),
        ("00B0012B01", &pattern(300)[299..300]),
        ("00B0012A02", &pattern(300)[298..300]),
    ] {
        assert_eq!(lent.read(text), model::lines::hex(bytes), "{text}");
        assert_eq!(lent.pool, pattern(lent.pool.len()));
    }
}

/// A55: Le 00 is 256, never "as many as there are".
#[test]
fn bytes_past_the_body() {
    let lent = with("6F01");
    for (text, word) in [
        ("00B0002C00", SUCCESS),
        ("00B0002D00", WRONG_LENGTH),
        ("00B0012B00", WRONG_LENGTH),
        ("00B0012B01", SUCCESS),
        ("00B0012B02", WRONG_LENGTH),
        ("00B0012C01", WRONG_PARAMETERS),
        ("00B0012D01", WRONG_PARAMETERS),
        ("00B07FFF01", WRONG_PARAMETERS),
        ("00B0012C00", WRONG_PARAMETERS),
    ] {
        gives(&lent, text, &State::FULL, word);
        let start = &text[4..8];
        let le = usize::from_str_radix(&text[8..], 16).expect("a number in the test itself");
        if le > 0 {
            gives(&lent, &update(&format!("00D6{start}"), le), &State::FULL, word);
        }
    }
    let mut short = Lent::with(8, &[create_ef("6F01", 255, OPEN)]);
    assert_eq!(short.word("00B0000000"), WRONG_LENGTH);
    assert_eq!(short.word("00B00000FF"), SUCCESS);
}

#[test]
fn update_binary_writes_its_bytes_and_no_other() {
    for (start, length) in [(0, 1), (0, 255), (45, 255), (299, 1), (256, 44)] {
        let mut lent = with("6F01");
        let (image, mut wanted) = (lent.image.clone(), lent.pool.clone());
        assert_eq!(lent.word(&update(&format!("00D6{start:04X}"), length)), SUCCESS);
        wanted[start..start + length].fill(0x5A);
        assert_eq!(lent.pool, wanted, "{length} bytes from {start}");
        assert_eq!(lent.image, image, "no record is changed");
    }
}

/// A58: records of both structures by their number, from 1 on.
#[test]
fn records() {
    for (identifier, from, length, last) in [("6F02", 300, 4, 3), ("6F03", 312, 1, 254)] {
        for number in [1, 2, last - 1, last] {
            let mut lent = with(identifier);
            let record = from + (number - 1) * length..from + number * length;
            let wanted = model::lines::hex(&lent.pool[record.clone()]);
            assert_eq!(lent.read(&format!("00B2{number:02X}04{length:02X}")), wanted);
            let mut pool = lent.pool.clone();
            assert_eq!(lent.word(&update(&format!("00DC{number:02X}04"), length)), SUCCESS);
            pool[record].fill(0x5A);
            assert_eq!(lent.pool, pool, "{identifier}, record {number}");
        }
        let lent = with(identifier);
        for number in [0, last + 1, 255] {
            for le in [length, length + 1, 0] {
                gives(
                    &lent,
                    &format!("00B2{number:02X}04{le:02X}"),
                    &State::FULL,
                    RECORD_NOT_FOUND,
                );
            }
            for lc in [length, length + 1] {
                let text = update(&format!("00DC{number:02X}04"), lc);
                gives(&lent, &text, &State::FULL, RECORD_NOT_FOUND);
            }
        }
    }
}

/// A whole record, no more and no less; Le 00 is no record's length.
#[test]
fn the_length_of_a_record() {
    let lent = with("6F02");
    for length in 0..=255 {
        let wanted = if length == 4 { SUCCESS } else { WRONG_LENGTH };
        gives(&lent, &format!("00B20304{length:02X}"), &State::FULL, wanted);
        gives(&lent, &update("00DC0304", length), &State::FULL, wanted);
    }
    let mut long = Lent::with(16, &[create_records("6F01", 0x42, 255, 510)]);
    assert_eq!(long.word("00B2020400"), WRONG_LENGTH);
    assert_eq!(long.word("00B20204FF"), SUCCESS);
}

/// The response buffer is looked at last, and by READ alone.
#[test]
fn a_short_response_is_answer_5() {
    for (identifier, text, data) in
        [("6F01", "00B0000000", 256), ("6F01", "00B0012B01", 1), ("6F02", "00B2030404", 4)]
    {
        for length in [0, data - 1, data, data + 1] {
            let mut lent = with(identifier);
            let before = lent.clone();
            let (outcome, response) = lent.ask(text, length, &State::FULL);
            let wanted = if length < data { (5, NO_WORD, 0) } else { (0, SUCCESS, data) };
            assert_eq!((outcome.answer, outcome.word, outcome.data), wanted, "{text}, {length}");
            assert_eq!(lent, before);
            assert!(outcome.answer == 0 || response == vec![MARK; length]);
        }
    }
    let mut lent = with("6F02");
    for (text, word) in [
        ("00B2040404", RECORD_NOT_FOUND),
        ("00B2030405", WRONG_LENGTH),
        ("00B0000001", WRONG_STRUCTURE),
        ("00DC0304045A5A5A5A", SUCCESS),
    ] {
        let (outcome, _) = lent.ask(text, 0, &State::FULL);
        assert_eq!((outcome.answer, outcome.word), (0, word), "{text}");
    }
}

#[test]
fn the_wrong_structure() {
    for (identifier, wrong) in
        [("6F01", ["B2", "DC"]), ("6F02", ["B0", "D6"]), ("6F03", ["B0", "D6"])]
    {
        let lent = with(identifier);
        for (ins, parameters) in wrong.into_iter().flat_map(|ins| [(ins, "0004"), (ins, "FF04")]) {
            // A start from 8000 on is refused at step F already.
            let parameters = if ["B0", "D6"].contains(&ins) { "7F04" } else { parameters };
            let data = if ["D6", "DC"].contains(&ins) { "5A" } else { "" };
            gives(&lent, &format!("00{ins}{parameters}01{data}"), &State::FULL, WRONG_STRUCTURE);
        }
    }
}

/// A body keeps what was written, also when it is moved by a later CREATE.
#[test]
fn what_was_written_is_read_again() {
    let mut lent = Lent::with(8, &[create_ef("6F01", 120, OPEN), create_ef("6F02", 2, OPEN)]);
    assert_eq!(lent.read("00B0000002"), "FFFF");
    for text in ["00D6000002 1122", "00A4000C026F01", "00D6007602 3344", "00A4000C026F02"] {
        assert_eq!(lent.word(text), SUCCESS, "{text}");
    }
    assert_eq!(lent.read("00B0000002"), "1122");
    assert_eq!(lent.word(&delete("6F01")), SUCCESS);
    // The body lies at 200, so that neither gap holds the 318 bytes that the
    // room pays.
    lent.set_start(2, 200);
    lent.pool[200..202].copy_from_slice(&[0x11, 0x22]);
    assert_eq!(lent.word(&create_ef("6F03", 318, OPEN)), SUCCESS);
    assert_eq!(lent.read("00B0000001"), "FF");
    assert_eq!(lent.word(&select("6F02")), SUCCESS);
    assert_eq!((lent.read("00B0000002"), lent.body(2)), ("1122".into(), 0..2));
}
