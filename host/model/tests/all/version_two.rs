//! 02, Ticket 3: images of version 2. Record byte 3, longer rules, the maker
//! with version and form, CREATE with AB, and the template that tells it.

use crate::common::*;
use model::lines::hex;
use model::words::*;
use model::{make, sound, State, Word};

/// Everything always, expanded.
const OPEN_EXPANDED: &str = "80017F9000";

/// The word of a CREATE, which leaves the card sound.
fn word(image: &[u8], text: &str) -> Word {
    let mut image = image.to_vec();
    let word = run(&mut image, text);
    assert!(sound(&image), "{text}");
    word
}

#[test]
fn the_maker_knows_versions_and_forms() {
    for (version, form, rule, wanted) in [
        (0, 0, OPEN, 2),
        (4, 0, OPEN, 2),
        (5, 0, OPEN, 2),
        (0x101, 0, OPEN, 2),
        (65_537, 0, OPEN, 2),
        (u32::MAX, 0, OPEN, 2),
        (1, 0, OPEN, 0),
        (1, 1, OPEN_EXPANDED, 4),
        (1, 0, OPEN_EXPANDED, 4),
        (2, 0, OPEN, 0),
        (2, 1, OPEN_EXPANDED, 0),
        (2, 0, OPEN_EXPANDED, 4),
        (2, 1, OPEN, 4),
        (2, 2, OPEN, 4),
        (2, 2, OPEN_EXPANDED, 4),
        (1, 2, "2F0601", 4),
        (2, 2, "2F0601", 4),
        (2, 256, OPEN, 4),
        (2, 257, OPEN_EXPANDED, 4),
        (2, 65_536, OPEN, 4),
        (2, u32::MAX, OPEN, 4),
    ] {
        let mut buffer = vec![0x5A; 144];
        let answer = make(&mut buffer, version, 64, form, &bytes(rule));
        assert_eq!(answer, wanted, "version {version}, form {form}, rule {rule}");
        assert_eq!(answer != 0, buffer.iter().all(|&b| b == 0x5A), "left as it came");
    }
}

/// A48: the version with the length before the total, form and rule last.
#[test]
fn the_maker_checks_2_then_3_then_4() {
    for (length, version, total, form, rule, wanted) in [
        (144, 4, 0, 5, "80", 2),
        (145, 2, 0, 5, "80", 2),
        (144, 2, 0, 5, "80", 3),
        (144, 2, 65, 1, OPEN_EXPANDED, 3),
        (144, 2, 64, 5, OPEN, 4),
        (144, 2, 64, 1, "-", 4),
    ] {
        let answer = make(&mut vec![0; length], version, total, form, &bytes(rule));
        assert_eq!(answer, wanted, "{length} {version} {total} {form} {rule}");
    }
}

/// A fresh card of two slots, byte by byte, with a compact rule of 28 bytes, the
/// version's longest expanded one and a short one.
pub fn fresh_to_the_byte(version: u32, longest: usize) {
    for (form, rule) in [(0, "0E000000".repeat(7)), (1, expanded_of(longest)), (1, expanded_of(5))]
    {
        let rule = bytes(&rule);
        let image = made(version, 2, 64, form, &hex(&rule));
        let head = format!("55465400{version:02X}0002 0000FFFF 0000000000");
        let root = format!("013805{form:02X} 3F00000000000000 00000040 00{}", "00".repeat(16));
        let mut wanted = bytes(&format!("{head}{root}"));
        wanted.push(rule.len() as u8);
        wanted.extend(&rule);
        wanted.resize(16 + 128, 0);
        assert_eq!(hex(&image), hex(&wanted));
        assert!(sound(&image));
    }
}

#[test]
fn a_fresh_card_to_the_byte() {
    fresh_to_the_byte(2, 30);
}

#[test]
fn create_takes_ab_on_version_2_only() {
    let text = |rule: &str| [create_df_ruled("7F10", rule), create_ef_ruled("6F07", rule)];
    for rule in [OPEN_EXPANDED, "800106A0069E01119E0112", &expanded_of(16), &expanded_of(30)] {
        for text in text(&object(0xAB, rule)) {
            assert_eq!(word(&roomy_two(8), &text), SUCCESS, "{text}");
            assert_eq!(word(&roomy(8), &text), WRONG_DATA, "{text}");
        }
    }
    let (compact, expanded) = (object(0x8C, OPEN), object(0xAB, OPEN_EXPANDED));
    for rule in [
        "",
        "AB00",
        "8C00",
        "AB03800108",
        "AB0480010890",
        "AB05 8001089001",
        &object(0xAB, OPEN),
        &object(0x8C, OPEN_EXPANDED),
        &object(0xAB, &expanded_of(31)),
        &object(0xAB, &expanded_of(32)),
        &object(0x8B, "6F0601"),
        &format!("{compact}{expanded}"),
        &format!("{expanded}{compact}"),
        &format!("{expanded}{expanded}"),
    ] {
        for text in text(rule) {
            for image in [roomy(8), roomy_two(8)] {
                assert_eq!(word(&image, &text), WRONG_DATA, "{text}");
            }
        }
    }
}

/// AB stands in 8C's place and nowhere else.
#[test]
fn the_place_of_ab() {
    let objects = ["82024121", "83026F07", "8A0105", "80020009"];
    for place in 0..=objects.len() {
        let mut all = objects.to_vec();
        let rule = object(0xAB, OPEN_EXPANDED);
        all.insert(place, &rule);
        let wanted = if place == 3 { SUCCESS } else { WRONG_DATA };
        assert_eq!(word(&roomy_two(8), &create(&all.concat())), wanted, "place {place}");
    }
}

/// A49: 8C has up to 30 bytes on version 2, up to 16 on version 1.
#[test]
fn longer_compact_rules() {
    for length in 1..=40 {
        let text = create_ef_ruled("6F07", &object(0x8C, &"00".repeat(length)));
        for (image, longest) in [(roomy(8), 16), (roomy_two(8), 30)] {
            let wanted = if length <= longest { SUCCESS } else { WRONG_DATA };
            assert_eq!(word(&image, &text), wanted, "{length} of {longest} bytes");
        }
    }
}

#[test]
fn the_record_and_its_template() {
    for (form, tag, rule) in [
        (0, 0x8C, OPEN.to_string()),
        (0, 0x8C, "00".repeat(30)),
        (1, 0xAB, OPEN_EXPANDED.to_string()),
        (1, 0xAB, expanded_of(30)),
    ] {
        let told = object(tag, &rule);
        let mut image = roomy_two(8);
        assert_eq!(run(&mut image, &create_ef_ruled("6F07", &told)), SUCCESS);
        assert_eq!(image[80 + 3], form);
        assert_eq!(image[80 + 33], bytes(&rule).len() as u8);
        let (word, data) = ask_under(&mut image, &select_fcp("6F07"), &State::EMPTY);
        let wanted = object(0x62, &format!("82024121 83026F07 8A0105 {told} 80020009"));
        assert_eq!((word, hex(&data)), (SUCCESS, wanted.replace(' ', "")));
    }
}

/// 2 + 4 + 4 + 18 + 3 + 32 + 4: the longest template has 67 bytes.
#[test]
fn the_longest_template() {
    let (name, rule) = ("11".repeat(16), expanded_of(30));
    let objects = format!("82023821 83027F10 8410{name} 8A0105 AB1E{rule} 81020001");
    let mut image = roomy_two(32);
    assert_eq!(run(&mut image, &create(&format!("{objects} C60100"))), SUCCESS);
    let (_, data) = ask_under(&mut image, &select_fcp("7F10"), &State::FULL);
    assert_eq!(hex(&data), format!("6241{objects}").replace(' ', ""));
    assert_eq!(data.len(), 67);
}

/// No rule is well formed in both forms: an AM_DO's 80 is no AM byte. So only
/// the form that a record was made with leaves it sound; a reference is none of
/// these versions, of whatever length.
#[test]
fn record_byte_3() {
    for (version, form, rule) in
        [(1, 0, OPEN), (1, 0, "000000"), (2, 0, OPEN), (2, 0, "000000"), (2, 1, OPEN_EXPANDED)]
    {
        let image = made(version, 4, 192, form, rule);
        for byte in 0..=255u8 {
            let mut changed = image.clone();
            changed[16 + 3] = byte;
            assert_eq!(sound(&changed), u32::from(byte) == form, "version {version}, {byte:02X}");
        }
        let mut free = image.clone();
        free[16 + 64 + 3] = 1;
        assert!(!sound(&free), "a free record is all zero");
    }
    let mut as_one = made(2, 4, 192, 1, OPEN_EXPANDED);
    as_one[4] = 1;
    assert!(!sound(&as_one), "form 1 on version 1");
}

/// Bytes 50 to 63 belong to the rule on version 2, and are zero on version 1.
#[test]
fn the_last_bytes_of_a_record() {
    for length in [1, 16, 17, 29, 30] {
        let rule = "00".repeat(length);
        let image = made(2, 4, 192, 0, &rule);
        for offset in 34..64 {
            let mut changed = image.clone();
            changed[16 + offset] = 0x80;
            assert!(!sound(&changed), "padding or a bad AM byte at {offset}");
        }
        let mut longer = image.clone();
        longer[16 + 33] = 31;
        assert!(!sound(&longer));
        let mut as_one = image;
        as_one[4] = 1;
        assert_eq!(sound(&as_one), length <= 16, "{length} bytes on version 1");
    }
}

/// Rules of both forms are asked by every command.
#[test]
fn expanded_rules_decide_commands() {
    let user = |n: u32| State { user: 1 << n, ..State::EMPTY };
    let rule = "800102 9E0111 80017C AF06 9E0111 9E0122";
    let state = State { external: 4, ..user(1) };
    let mut image = made(2, 8, 448, 1, rule);
    let ef = create_ef_ruled("6F07", &object(0xAB, "800170A0069E01139E0122"));
    let df = create_df_ruled("7F10", &object(0xAB, OPEN_EXPANDED));
    assert_eq!(run_under(&mut image, &ef, &user(2)), SECURITY_NOT_SATISFIED);
    assert_eq!(run_under(&mut image, &ef, &user(1)), SUCCESS);
    for text in [ACTIVATE, DEACTIVATE, TERMINATE_EF] {
        assert_eq!(run_under(&mut image, text, &user(1)), SECURITY_NOT_SATISFIED, "{text}");
    }
    assert_eq!(run_under(&mut image, TERMINATE_EF, &user(3)), SUCCESS);
    assert_eq!(run_under(&mut image, &delete("6F07"), &user(2)), SECURITY_NOT_SATISFIED);
    assert_eq!(run_under(&mut image, &delete("6F07"), &user(3)), SUCCESS);
    assert_eq!(run_under(&mut image, &df, &user(1)), SECURITY_NOT_SATISFIED);
    assert_eq!(run_under(&mut image, &df, &state), SUCCESS);
    assert_eq!(run_under(&mut image, TERMINATE_DF, &State::EMPTY), SUCCESS);
    assert_eq!(run_under(&mut image, TERMINATE_CARD, &user(1)), SECURITY_NOT_SATISFIED);
    assert_eq!(run_under(&mut image, TERMINATE_CARD, &state), SUCCESS);
}

/// A35: replay makes version 1 cards, whatever the level; AB is 6A80 there.
#[test]
fn replay_stays_with_version_1() {
    let stream = |version: u16, texts: &[String]| {
        let mut input = bytes("554653");
        input.extend(version.to_be_bytes());
        input.extend(bytes("0008 000001C0"));
        for command in texts.iter().map(|text| bytes(text)) {
            input.extend((command.len() as u16).to_be_bytes());
            input.extend(command);
        }
        String::from_utf8_lossy(&model::replay(&input)).into_owned()
    };
    let expanded = create_ef_ruled("6F07", &object(0xAB, OPEN_EXPANDED));
    let long = create_ef_ruled("6F07", &object(0x8C, &"00".repeat(17)));
    let good = create_ef_ruled("6F07", &object(0x8C, &"00".repeat(16)));
    assert_eq!(stream(1, &[expanded.clone(), long, good]), "6A80\n6A80\n9000\n");
    assert_eq!(stream(2, &[expanded]), "BAD\n");
}
