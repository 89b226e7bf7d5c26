//! 02, Ticket 3: which expanded rules are well formed, and how they decide.

use crate::common::*;
use model::edition::{Edition, Version};
use model::lines::hex;
use model::rule::{decide, fit, groups, Form, Right};
use model::{Decision, State};

/// Only bit n of the user set.
fn user(n: u32) -> State {
    State { user: 1 << n, ..State::EMPTY }
}

/// A rule that names b4 and has these SC_DOs.
fn ruled(conditions: &str) -> Vec<u8> {
    bytes(&format!("800108{conditions}"))
}

#[track_caller]
fn good(conditions: &str) {
    assert!(groups(Form::Expanded, &ruled(conditions)).is_some(), "{conditions}");
}

#[track_caller]
fn bad(conditions: &str) {
    let rule = ruled(conditions);
    assert!(groups(Form::Expanded, &rule).is_none(), "{conditions}");
    for right in Right::ALL {
        let decided = decide(Form::Expanded, &rule, right, &State::FULL);
        assert_eq!(decided, Decision::Closed, "{conditions} denies");
    }
}

/// Whether the conditions open b4 under a state.
fn opens(conditions: &str, state: &State) -> bool {
    good(conditions);
    decide(Form::Expanded, &ruled(conditions), Right::Deactivate, state).is_granted()
}

#[test]
fn every_tag_behind_an_am_do() {
    for tag in 0..=255u8 {
        for (value, takers) in [
            ("", &[0x90, 0x97][..]),
            ("00", &[0x9E]),
            ("0000", &[]),
            ("9000", &[]),
            ("90009000", &[0xA0, 0xAF]),
        ] {
            let conditions = object(tag, value);
            match takers.contains(&tag) {
                true => good(&conditions),
                false => bad(&conditions),
            }
        }
    }
}

#[test]
fn the_am_do() {
    let well_formed = |rule: &str| groups(Form::Expanded, &bytes(rule)).is_some();
    for am in 0..=255u8 {
        assert_eq!(well_formed(&format!("8001{am:02X}9000")), am < 0x80, "AM {am:02X}");
    }
    for (rule, wanted) in [
        ("80", false),
        ("8001", false),
        ("80017F", false),
        ("80009000", false),
        ("8002080890 00", false),
        ("9000", false),
        ("9000 80010890 00", false),
        ("800108 800104 9000", false),
        ("800108 9000 800104", false),
        ("810108 9000", false),
        ("9C0108 9000", false),
        ("800108 9000", true),
        ("800108 9000 800108 9700", true),
        ("800100 9000", true),
        ("800108 9000 9E0111 800104 97 00 AF04 9000 9000", true),
    ] {
        assert_eq!(well_formed(rule), wanted, "{rule}");
    }
}

/// Templates so deep inside one another, each with this tag.
fn nested(tag: u8, depth: usize) -> String {
    (0..depth).fold("9000".to_string(), |inside, _| object(tag, &format!("9000{inside}")))
}

/// A42: four inside one another, the outermost counted; how many stand beside
/// one another does not matter.
#[test]
fn templates_nest_four_deep() {
    for tag in [0xA0, 0xAF] {
        for depth in 0..=4 {
            good(&nested(tag, depth));
            good(&nested(tag, depth).repeat(3));
        }
        for depth in 5..=9 {
            bad(&nested(tag, depth));
            bad(&format!("9000{}", nested(tag, depth)));
        }
    }
    let four = nested(0xA0, 4);
    bad(&object(0xAF, &format!("{four}9000")));
    bad(&object(0xAF, &format!("9000{four}")));
    let three = nested(0xAF, 3);
    good(&object(0xA0, &format!("{three}{three}{three}")));
}

/// A47: counted directly in the template.
#[test]
fn templates_hold_at_least_two() {
    for tag in [0xA0, 0xAF] {
        let two = object(tag, "90009700");
        bad(&object(tag, ""));
        for one in ["9000", "9700", "9E0100", &two] {
            bad(&object(tag, one));
            bad(&object(tag, &format!("9000{}", object(tag, one))));
            good(&object(tag, &format!("{one}9000")));
            good(&object(tag, &format!("9E0111{one}")));
        }
        good(&object(tag, "900097009E0111"));
    }
}

/// A43, A47: lengths of one byte, 00-7F, that fit what is around them.
#[test]
fn lengths() {
    for cut in ["90", "9E", "9E01", "A0", "A0049000", "A00490009E", "A0059000 9E01"] {
        bad(cut);
    }
    // The outer ends in the middle of the inner.
    bad("A004 9000 9E0111");
    bad("A005 9000 AF04 90009000");
    bad("AF07 9000 A005 9000 9000");
    for long in ["80", "8100", "81049000 9000", "FF"] {
        bad(&format!("A0{long}"));
        bad(&format!("90{long}"));
    }
    let many = "9000".repeat(63);
    good(&object(0xA0, &many));
    good(&many);
    bad(&format!("A080{}", "9000".repeat(64)));
    assert!(groups(Form::Expanded, &bytes(&format!("800108{}", "9000".repeat(500)))).is_some());
}

#[test]
fn each_condition_decides() {
    for state in [State::EMPTY, State::FULL, user(1)] {
        assert!(opens("9000", &state));
        assert!(!opens("9700", &state));
    }
    for sc in 0..=255u8 {
        for state in [State::EMPTY, State::FULL, user(1), State { external: 4, ..State::EMPTY }] {
            let wanted = model::security::condition_holds(sc, &state);
            assert_eq!(opens(&format!("9E01{sc:02X}"), &state), wanted, "SC {sc:02X}");
        }
    }
}

/// A46: of several in a row one suffices, wherever it stands.
#[test]
fn one_of_a_row_suffices() {
    for (row, wanted) in [
        ("9700 9000", true),
        ("9000 9700", true),
        ("9700 9700 9E0111", true),
        ("9E0112 9E0113", false),
        ("9E0112 9E0111 9E0113", true),
        ("AF04 9000 9700 9000", true),
        ("AF04 9000 9700 9700", false),
    ] {
        assert_eq!(opens(row, &user(1)), wanted, "{row}");
    }
}

#[test]
fn one_of_and_all_of() {
    let both = State { user: 0b110, ..State::EMPTY };
    for (inside, by_1, by_both) in [
        ("9E0111 9E0112", [true, false], [true, true]),
        ("9E0112 9E0111", [true, false], [true, true]),
        ("9E0111 9000", [true, true], [true, true]),
        ("9E0113 9700", [false, false], [false, false]),
        ("9000 9700", [true, false], [true, false]),
        ("9E0111 9E0111 9E0112", [true, false], [true, true]),
        ("9700 A006 9E0111 9E0112", [true, false], [true, false]),
        ("9000 AF06 9E0111 9E0112", [true, false], [true, true]),
        ("9700 AF06 9E0111 9E0112", [false, false], [true, false]),
    ] {
        let inside = inside.replace(' ', "");
        for (tag, place) in [(0xA0, 0), (0xAF, 1)] {
            let conditions = object(tag, &inside);
            assert_eq!(opens(&conditions, &user(1)), by_1[place], "{conditions}");
            assert_eq!(opens(&conditions, &both), by_both[place], "{conditions}");
        }
    }
}

/// The innermost of four templates decides.
#[test]
fn the_innermost_decides() {
    for (inside, wanted) in [("9E0111", true), ("9E0112", false)] {
        let one_of = |inside: &str| object(0xA0, &format!("9700{inside}"));
        let all_of = |inside: &str| object(0xAF, &format!("{inside}9000"));
        assert_eq!(opens(&one_of(&all_of(&one_of(&all_of(inside)))), &user(1)), wanted);
        assert_eq!(opens(&all_of(&one_of(&all_of(&one_of(inside)))), &user(1)), wanted);
    }
}

/// A45: groups are alternatives, and each speaks of its own rights only.
#[test]
fn groups_are_alternatives() {
    let rule = bytes("800108 9700 80010C 9E0111 800104 9700");
    let decided = |right, state: &State| decide(Form::Expanded, &rule, right, state).is_granted();
    assert!(decided(Right::Deactivate, &user(1)));
    assert!(decided(Right::CreateDf, &user(1)));
    assert!(!decided(Right::CreateDf, &user(2)));
    for right in [Right::DeleteSelf, Right::Terminate, Right::Activate, Right::CreateEf] {
        assert!(!decided(right, &State::FULL), "{right:?} is in no group");
    }
    let nothing = bytes("800100 9000");
    let granted = |right: &Right| decide(Form::Expanded, &nothing, *right, &State::FULL);
    assert!(!Right::ALL.iter().any(|right| granted(right).is_granted()));
}

#[test]
fn each_right_has_its_bit() {
    for (place, right) in Right::ALL.into_iter().enumerate() {
        let rule = bytes(&format!("8001{:02X}9000", 0x40 >> place));
        for asked in Right::ALL {
            let decided = decide(Form::Expanded, &rule, asked, &State::EMPTY);
            assert_eq!(decided.is_granted(), asked == right);
        }
    }
}

/// The expanded writing of a compact rule: per SC byte, 80 with one bit and 9E.
fn expanded_writing(rule: &[u8]) -> Vec<u8> {
    let mut out = Vec::new();
    let mut left = rule.iter();
    while let Some(am) = left.next() {
        for bit in (0..7).rev().map(|b| 1u8 << b).filter(|bit| am & bit != 0) {
            let sc = left.next().expect("a well-formed rule in the test itself");
            out.extend([0x80, 0x01, bit, 0x9E, 0x01, *sc]);
        }
    }
    out
}

/// The ticket's last sentence, with every SC byte, at lengths past any record's.
#[test]
fn a_compact_rule_and_its_expanded_writing_decide_alike() {
    let open = "7F00000000000000";
    let mut rules: Vec<Vec<u8>> = (0..=255).map(|sc| vec![0x24, sc, !sc]).collect();
    rules.extend((0..=255).map(|sc| [vec![0x00, 0x7F], vec![sc; 7], vec![0x08, !sc]].concat()));
    rules.extend(["02FF0200", "00", "000000", "-", &open.repeat(100)].map(bytes));
    let states = [State::EMPTY, State::FULL, user(1), State { messaging: 6, ..user(2) }];
    for compact in rules {
        let expanded = expanded_writing(&compact);
        for (right, state) in Right::ALL.into_iter().flat_map(|r| states.map(|s| (r, s))) {
            let one = decide(Form::Compact, &compact, right, &state);
            let other = decide(Form::Expanded, &expanded, right, &state);
            assert_eq!(one, other, "{} {right:?} {state:?}", hex(&compact));
        }
    }
}

/// A50: an empty rule breaks nothing and grants nothing; it fits no record.
#[test]
fn an_empty_rule_denies() {
    for form in Form::DECIDING {
        assert_eq!(groups(form, &[]), Some(vec![]));
        let closed = |right: &Right| decide(form, &[], *right, &State::FULL) == Decision::Closed;
        assert!(Right::ALL.iter().all(closed));
        assert!(!fit(Edition::of(Version::Two), form, &[]));
    }
}

/// A48, A49: lengths by version, for both forms.
#[test]
fn lengths_by_version() {
    for (version, longest, takes_expanded) in
        [(Version::One, 16, false), (Version::Two, 30, true), (Version::Three, 28, true)]
    {
        let edition = Edition::of(version);
        for length in 0..=40 {
            let within = (1..=longest).contains(&length);
            assert_eq!(fit(edition, Form::Compact, &vec![0; length]), within, "{length} bytes");
        }
        for length in 5..=40 {
            let wanted = takes_expanded && length <= longest;
            let rule = bytes(&expanded_of(length));
            assert_eq!(fit(edition, Form::Expanded, &rule), wanted, "{length} bytes");
        }
    }
}
