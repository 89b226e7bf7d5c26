//! What is told of a rule that no card takes: where, and why.

use super::super::*;
use crate::hex;

fn refused(row: &str) -> String {
    explain(&hex::bytes(row).expect("hex")).expect_err(row)
}

/// What is told of each contains this.
fn all_refused(rows: &[(&str, &str)]) {
    for (row, told) in rows {
        let given = refused(row);
        assert!(given.contains(told), "{row}: {given}");
    }
}

#[test]
fn what_is_wrong_with_a_compact_rule_is_told() {
    all_refused(&[
        ("0300", "this compact rule (8C) is malformed: byte 1 of 2: the AM byte 03 asks for 2 SC"),
        ("0300", "bytes: 1 follow"),
        ("01008601", "byte 3 of 4: the AM byte 86 has b8 set"),
        ("8C0401008601", "byte 5 of 6: the AM byte 86 has b8 set"),
        ("8C", "byte 1 of 1: behind the tag 8C a length is missing"),
        ("9E0111", "byte 1 of 3: 9E begins no rule"),
        ("8C00", "compact rule (8C) has no byte: a card takes 1 to 30"),
        ("8C800100", "byte 2 of 4: the length 80 of object 8C is over 7F"),
    ]);
    assert_eq!(refused(""), "a rule has at least one byte");
    let long = refused(&"00".repeat(31));
    assert_eq!(long, "this compact rule (8C) has 31 bytes: a card takes 1 to 30");
}

#[test]
fn what_is_wrong_with_an_expanded_rule_is_told() {
    all_refused(&[
        ("80", "this expanded rule (AB) is malformed: byte 1 of 1: behind the tag 80 a length is"),
        ("80017F", "byte 1 of 3: behind object 80 stands no condition"),
        ("AB0380017F", "byte 3 of 5: behind object 80 stands no condition"),
        ("80017F800101 9000", "byte 1 of 8: behind object 80 stands no condition"),
        ("AB029000", "byte 3 of 4: a rule begins with object 80, not 90"),
        ("8002017F9000", "byte 1 of 6: object 80 must have 1 byte, not 2"),
        ("8001869000", "byte 1 of 5: the AM byte 86 of object 80 has b8 set"),
        ("80017F900100", "byte 4 of 6: object 90 must have no byte, not 1"),
        ("80017F970100", "byte 4 of 6: object 97 must have no byte, not 1"),
        ("80017F9E00", "byte 4 of 5: object 9E must have 1 byte, not 0"),
        ("80017F9E01", "byte 4 of 5: object 9E says that it has 1 byte: 0 follow"),
        ("80017F9000 9E80", "byte 6 of 7: the length 80 of object 9E is over 7F"),
        ("80017F A4029000", "byte 4 of 7: object A4 is no condition: 90, 97, 9E, A0 or AF"),
        ("AB0380017F9000", "byte 2 of 7: the length 03 of object AB is 3, and 5 follow"),
        ("AB00", "expanded rule (AB) has no byte: a card takes 1 to 30"),
        ("AB8180017F9000", "byte 2 of 7: the length 81 of object AB is over 7F"),
    ]);
    // Also where as many bytes follow.
    let long = refused(&format!("AB80{}", "9000".repeat(64)));
    assert_eq!(long, "byte 2 of 130: the length 80 of object AB is over 7F");
}

#[test]
fn what_is_wrong_inside_a_template_is_told() {
    all_refused(&[
        ("80017F A000", "byte 4 of 5: object A0 holds no condition: at least two are wanted"),
        ("80017F AF029000", "byte 4 of 7: object AF holds one condition: at least two are wanted"),
        (
            "80017F A009 9000 AF05 9000 800101",
            "byte 12 of 14 (in object AF of byte 8): object 80 is no condition",
        ),
        (
            "80017F A005 9000 9E0211",
            "byte 8 of 10 (in object A0 of byte 4): object 9E says that it has 2 bytes: 1 follow",
        ),
        (
            "80017F A014 AF10 A00C AF08 A004 90009000 9000 9000 9000 9000",
            "byte 12 of 25 (in object AF of byte 10): object A0 stands inside 4 others",
        ),
    ]);
}

/// The first byte tells how a rule is written, and each way gives the same
/// rule.
#[test]
fn object_and_bare_value_are_one_rule() {
    for (object, bare, form, row) in [
        ("8C020100", "0100", Form::Compact, "0100"),
        ("AB0580017F9000", "80017F9000", Form::Expanded, "AB0580017F9000"),
    ] {
        let read = |row| read(&hex::bytes(row).expect("hex")).expect("a rule");
        let (object, bare) = (read(object), read(bare));
        assert_eq!(object.rule(), bare.rule());
        assert_eq!((bare.rule().form, object.before(), bare.before()), (form, 2, 0));
        assert_eq!((object.row().as_str(), bare.row().as_str()), (row, row));
    }
    for first in 0..=0xFF {
        let form = read(&[first, 0x00]).ok().map(|written| written.rule().form);
        let wanted = match first {
            0x00..=0x7F | 0x8C => Some(Form::Compact),
            0x80 | 0xAB => Some(Form::Expanded),
            0x8B => Some(Form::Referred),
            _ => None,
        };
        assert_eq!(form, wanted, "{first:02X}");
    }
}

/// Which cards take a rule goes by its length and its form.
#[test]
fn the_versions_that_take_a_rule_are_told() {
    let zeros = |many| "00".repeat(many);
    let always = |many| format!("80017F{}", "9000".repeat(many));
    for (row, told) in [
        (zeros(1), "compact rule (8C) of 1 byte, for cards of version 1, 2 and 3\n"),
        (zeros(16), "compact rule (8C) of 16 bytes, for cards of version 1, 2 and 3\n"),
        (zeros(17), "compact rule (8C) of 17 bytes, for cards of version 2 and 3\n"),
        (always(1), "expanded rule (AB) of 5 bytes, for cards of version 2 and 3\n"),
        (zeros(28), "compact rule (8C) of 28 bytes, for cards of version 2 and 3\n"),
        (zeros(29), "compact rule (8C) of 29 bytes, for cards of version 2\n"),
        (always(13), "expanded rule (AB) of 29 bytes, for cards of version 2\n"),
    ] {
        let given = explain(&hex::bytes(&row).expect("hex")).expect("a good rule");
        assert!(given.starts_with(told), "{given}");
    }
    // Longer ones only records can hold that keep rules.
    for (many, length) in [(14, 31), (126, 255)] {
        let given = explain(&hex::bytes(&always(many)).expect("hex")).expect("a good rule");
        let told = "for a record to which rules refer (8B), on cards of version 3\n";
        let told = format!("expanded rule (AB) of {length} bytes, {told}");
        assert!(given.starts_with(&told), "{given}");
    }
    assert!(refused(&always(127)).contains("has 257 bytes: a card takes 1 to 30"));
}

#[test]
fn what_is_wrong_with_a_reference_is_told() {
    all_refused(&[
        ("8B", "byte 1 of 1: behind the tag 8B a length is missing"),
        ("8B00", "this referred rule (8B) is malformed: byte 2 of 2: a reference has 3 bytes"),
        ("8B026F06", "byte 2 of 4: a reference has 3 bytes, a file's identifier and a record"),
        ("8B046F060102", "number, not 4"),
        ("8B036F0601FF", "byte 2 of 6: the length 03 of object 8B is 3, and 4 follow"),
    ]);
    let reference = read(&hex::bytes("8B036F0601").expect("hex")).expect("a rule");
    assert_eq!(reference.rule(), Rule::referred(&[0x6F, 0x06, 0x01]));
    assert_eq!((reference.row().as_str(), reference.before()), ("8B036F0601", 2));
}
