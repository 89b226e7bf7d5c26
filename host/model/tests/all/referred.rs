//! 02, Ticket 7: files with a referred rule, by the maker, CREATE, SELECT and in
//! an image (A68, A71), and the commands that the rule in the file decides.

use crate::common::*;
use crate::lent::Lent;
use crate::security::{card, commands, set_rule, told, BYTES, DF, RECORDS, ROOT, USER_1};
use model::edition::{Edition, Version};
use model::lines::{hex, Case};
use model::rule::{decide, fit, Form, Right};
use model::words::*;
use model::{make, sound, Decision, State, Word};

const REFERENCE: &str = "2F0601";
/// Bytes in a record of the rule file.
const LENGTH: usize = 16;

/// Three bytes, any; on version 3 only.
#[test]
fn which_references_are_fit() {
    for version in Version::ALL {
        let number = u32::from(version.number());
        for (length, byte) in
            (0..=40).flat_map(|length| [0x00, 0x2F, 0x80, 0xFF].map(|b| (length, b)))
        {
            let (rule, good) = (vec![byte; length], length == 3 && number == 3);
            assert_eq!(fit(Edition::of(version), Form::Referred, &rule), good);
            let answer = make(&mut [0x5A; 144], number, 64, 2, &rule);
            assert_eq!(answer, if good { 0 } else { 4 }, "version {number}, {length} bytes");
            let case = Case::Fit { version: number, form: 2, rule };
            assert_eq!(case.result(), format!("W {}", u8::from(good)));
        }
    }
}

/// A reference by itself, whose file is nowhere, opens nothing; of another
/// length it is none.
#[test]
fn a_reference_is_no_rule_by_itself() {
    for rule in [REFERENCE, "7F0000", "800108"] {
        let decided = Right::ALL.map(|r| decide(Form::Referred, &bytes(rule), r, &State::FULL));
        assert_eq!(decided, [Decision::Closed; 7], "{rule}");
        let case = Case::Decide { form: 2, rule: bytes(rule), state: State::FULL };
        assert_eq!(case.result(), "E 2222222");
    }
    for rule in ["-", "2F06", "2F060100", "80017F9000"] {
        let case = Case::Decide { form: 2, rule: bytes(rule), state: State::FULL };
        assert_eq!(case.result(), "E malformed", "{rule}");
    }
}

/// A fresh card, byte by byte.
#[test]
fn the_maker_with_a_reference() {
    let image = made(3, 2, 64, 2, REFERENCE);
    let mut wanted = bytes("5546540003 0002 0000 FFFF 0000000000");
    wanted.extend(bytes("013805023F00 0000 0000 0000 00000040 00"));
    wanted.extend([0; 16]);
    wanted.extend(bytes("03 2F0601"));
    wanted.resize(144, 0);
    assert_eq!(hex(&image), hex(&wanted));
    assert!(sound(&image));
}

/// Record byte 3, and the rule's length with it.
#[test]
fn references_in_an_image() {
    let image = made(3, 4, 192, 2, REFERENCE);
    for byte in 0..=255u8 {
        let mut changed = image.clone();
        changed[16 + 3] = byte;
        assert_eq!(sound(&changed), byte == 2, "form {byte}");
        let mut changed = image.clone();
        changed[16 + 34..16 + 34 + 3].fill(0);
        changed[16 + 33] = byte;
        assert_eq!(sound(&changed), byte == 3, "length {byte}");
    }
    for version in [1, 2] {
        let mut changed = image.clone();
        changed[4] = version;
        assert!(!sound(&changed), "version {version}");
    }
    for at in 37..62 {
        let mut changed = image.clone();
        changed[16 + at] = 1;
        assert!(!sound(&changed), "padding at {at}");
    }
}

fn word(version: u32, text: &str) -> Word {
    let mut image = made(version, 8, 448, 0, OPEN);
    let word = run(&mut image, text);
    assert!(sound(&image), "{text}");
    word
}

/// A71: whether there is such a file is not asked.
#[test]
fn create_takes_8b_on_version_3_only() {
    let texts = |rule: &str| [create_df_ruled("7F10", rule), create_ef_ruled("6F07", rule)];
    for reference in ["2F0601", "000000", "FFFFFF", "6F0701", "7F10FF", "3F0000"] {
        for text in texts(&object(0x8B, reference)) {
            assert_eq!([1, 2, 3].map(|v| word(v, &text)), [WRONG_DATA, WRONG_DATA, SUCCESS]);
        }
    }
    let [compact, expanded, referred] = [(0x8C, OPEN), (0xAB, "80017F9000"), (0x8B, REFERENCE)]
        .map(|(tag, rule)| object(tag, rule));
    let several = [(&compact, &referred), (&referred, &compact), (&expanded, &referred)];
    let several = several.into_iter().chain([(&referred, &expanded), (&referred, &referred)]);
    let mut bad: Vec<String> = several.map(|(one, other)| format!("{one}{other}")).collect();
    bad.extend((0..20).filter(|n| *n != 3).map(|n| object(0x8B, &"01".repeat(n))));
    for text in bad.iter().flat_map(|rule| texts(rule)) {
        assert_eq!([1, 2, 3].map(|version| word(version, &text)), [WRONG_DATA; 3], "{text}");
    }
}

/// 8B stands in 8C's place and nowhere else.
#[test]
fn the_place_of_8b() {
    let rule = object(0x8B, REFERENCE);
    for place in 0..=4 {
        let mut all = vec!["82024121", "83026F07", "8A0105", "80020009"];
        all.insert(place, &rule);
        let wanted = if place == 3 { SUCCESS } else { WRONG_DATA };
        assert_eq!(word(3, &create(&all.concat())), wanted, "place {place}");
    }
}

/// The template tells 8B, and makes the same record again.
#[test]
fn the_record_and_its_template() {
    let rule = object(0x8B, "6F07FE");
    for (text, objects) in [
        (create_ef_ruled("6F07", &rule), format!("82024121 83026F07 8A0105 {rule} 80020009")),
        (create_df_ruled("7F10", &rule), format!("82027821 83027F10 8A0105 {rule} 81020100")),
    ] {
        let mut lent = Lent::with(8, &[text]);
        assert_eq!(lent.image[80 + 3], 2);
        assert_eq!(hex(&lent.image[80 + 33..80 + 38]), "036F07FE00");
        let (outcome, data) = lent.ask(&select_fcp(&objects[13..17]), 256, &State::EMPTY);
        let data = hex(&data[..outcome.data]);
        assert_eq!(data, object(0x62, &objects).replace(' ', ""), "{objects}");
        let pin = if data.contains("8102") { "C60100" } else { "" };
        let again = Lent::with(8, &[create(&format!("{}{pin}", &data[4..]))]);
        assert_eq!(hex(&again.image[80..144]), hex(&lent.image[80..144]));
    }
    let mut root = Lent { image: made(3, 8, 448, 2, REFERENCE), pool: vec![0; 448] };
    let (outcome, data) = root.ask(&select_fcp("3F00"), 256, &State::EMPTY);
    let wanted = "6214 82023821 83023F00 8A0105 8B032F0601 810201C0";
    assert_eq!(hex(&data[..outcome.data]), wanted.replace(' ', ""));
}

/// The card of security.rs with a rule file of one record in its root, slot 4,
/// to which the file in a slot is referred.
fn ruled(slot: usize, ef: Option<&str>, rule: &str) -> Lent {
    let mut lent = card(ef);
    let before = lent.image[7..11].to_vec();
    for text in [select("3F00"), create_records("2F06", 0x42, LENGTH as u16, LENGTH as u16)] {
        assert_eq!(lent.word(&text), SUCCESS);
    }
    lent.image[7..11].copy_from_slice(&before);
    set_rule(&mut lent, slot, 2, REFERENCE);
    write(&mut lent, rule);
    lent
}

/// Puts a rule with padding into record 1 of the rule file.
fn write(lent: &mut Lent, rule: &str) {
    let (mut record, body) = (bytes(rule), lent.body(4));
    record.resize(LENGTH, 0xFF);
    lent.pool[body.start..body.start + LENGTH].copy_from_slice(&record);
}

/// Each is granted, lacking or closed as the rule in the file says, whatever
/// the rest of that rule allows; and closed where there is none.
#[test]
fn every_command_asks_the_rule_in_the_file() {
    for (ef, text, slot, bit) in commands() {
        let user = format!("8001{bit:02X}9E0111");
        let mut lent = ruled(slot, ef, &user);
        let (word, number) = told(&lent, &text, &USER_1);
        assert_eq!(number, 0, "{text}: {word:04X}");
        for (rule, state, wanted) in [
            (user.as_str(), &State::EMPTY, 1),
            (&format!("8001{bit:02X}9700"), &State::FULL, 2),
            (&format!("8001{bit:02X}9E01FF"), &State::FULL, 2),
            (&format!("8001{:02X}9000", 0x7F ^ bit), &State::FULL, 2),
            (&format!("8001{bit:02X}9001"), &State::FULL, 2),
            (&format!("8001{bit:02X}900000"), &State::FULL, 2),
            ("FF", &State::FULL, 2),
            (OPEN, &State::FULL, 2),
        ] {
            write(&mut lent, rule);
            assert_eq!(
                told(&lent, &text, state),
                (SECURITY_NOT_SATISFIED, wanted),
                "{text} {rule}"
            );
        }
        write(&mut lent, &format!("8001{bit:02X}9000"));
        for gone in ["2F0600", "2F0603", "2F0701", "7F1001"] {
            set_rule(&mut lent, slot, 2, gone);
            let given = told(&lent, &text, &State::FULL);
            assert_eq!(given, (SECURITY_NOT_SATISFIED, 2), "{text} {gone}");
        }
    }
}

/// DELETE: the child's rule or the directory's, either of them in the file; of
/// one that is nowhere and one that lacks something, lacking wins.
#[test]
fn delete_with_rules_in_the_file() {
    let lacking = "8001419E0111";
    for (text, child) in [(delete("6F01"), BYTES), (delete("6F02"), RECORDS)] {
        for (slot, other) in [(child, DF), (DF, child)] {
            let mut lent = ruled(slot, None, lacking);
            set_rule(&mut lent, other, 0, "00");
            assert_eq!(told(&lent, &text, &USER_1), (SUCCESS, 0), "{text}");
            assert_eq!(told(&lent, &text, &State::EMPTY), (SECURITY_NOT_SATISFIED, 1));
            set_rule(&mut lent, other, 2, "2F0603");
            assert_eq!(told(&lent, &text, &USER_1), (SUCCESS, 0), "{text}");
            assert_eq!(told(&lent, &text, &State::EMPTY), (SECURITY_NOT_SATISFIED, 1));
            set_rule(&mut lent, slot, 2, "2F0602");
            assert_eq!(told(&lent, &text, &State::FULL), (SECURITY_NOT_SATISFIED, 2));
        }
    }
}

/// UPDATE RECORD of the rule file, and the next command has another outcome;
/// so has one after the file was deleted, or made again.
#[test]
fn the_rule_is_read_when_the_command_comes() {
    let mut lent = ruled(BYTES, Some("6F01"), "8001029000");
    let update = |rule: &str| {
        let mut record = bytes(rule);
        record.resize(LENGTH, 0xFF);
        format!("00DC0104{LENGTH:02X}{}", hex(&record))
    };
    let read = "00B0000009";
    let body = hex(&lent.pool[lent.body(BYTES)]);
    let refused = (SECURITY_NOT_SATISFIED, 2);
    assert_eq!(told(&lent, read, &State::FULL), refused);
    for (rule, wanted) in [("8001019000", (SUCCESS, 0)), ("8001019E01FF", refused), ("-", refused)]
    {
        for text in [select("3F00"), select("2F06"), update(rule), select("7F10"), select("6F01")] {
            assert_eq!(lent.word(&text), SUCCESS, "{text}");
        }
        assert_eq!(told(&lent, read, &State::FULL), wanted, "{rule}");
    }
    write(&mut lent, "8001019000");
    assert_eq!(lent.read(read), body);
    for (text, wanted) in
        [(delete("2F06"), refused), (create_records("2F06", 0x42, 16, 16), refused)]
    {
        assert_eq!(lent.word(&select("3F00")), SUCCESS);
        assert_eq!(lent.word(&text), SUCCESS, "{text}");
        for text in [select("7F10"), select("6F01")] {
            assert_eq!(lent.word(&text), SUCCESS);
        }
        assert_eq!(told(&lent, read, &State::FULL), wanted, "{text}");
    }
    write(&mut lent, "8001019000");
    assert_eq!(lent.read(read), body);
}

/// A rule file can lock itself and, where another may update it, be opened
/// again; its own reference never opens it.
#[test]
fn a_rule_file_that_names_itself_is_closed() {
    let mut lent = ruled(ROOT, None, "80017F9000");
    set_rule(&mut lent, 4, 2, REFERENCE);
    for text in [select("3F00"), select("2F06")] {
        assert_eq!(lent.word(&text), SUCCESS);
    }
    for text in ["00B2010410", ACTIVATE, DEACTIVATE, TERMINATE_EF] {
        assert_eq!(told(&lent, text, &State::FULL), (SECURITY_NOT_SATISFIED, 2), "{text}");
    }
    assert_eq!(told(&lent, TERMINATE_CARD, &State::FULL), (SUCCESS, 0), "the root is open by it");
    assert_eq!(told(&lent, &delete("2F06"), &State::FULL), (SUCCESS, 0), "by the root's b1");
}
