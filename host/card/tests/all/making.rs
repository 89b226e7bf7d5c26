//! The maker: what it is told, the order in which it refuses, and what an error
//! says.

use card::{ffi, image_length, lent, Card, Form, Kind, MakeError, Rule};

use crate::common::{fresh_of, noise, run, CREATE_DF};

/// All rights, always.
const OPEN: Rule = Rule::expanded(&[0x80, 0x01, 0x7F, 0x90, 0x00]);

fn refused(slots: usize, kind: Kind, total: u32, rule: Rule) -> Option<MakeError> {
    Card::make(slots, kind, total, rule).err()
}

#[test]
fn the_maker_refuses_in_its_order() {
    let (one, none) = (Kind::VERSION_1, Kind::of_version(4));
    let empty = Rule::compact(&[]);
    for slots in [0, 1, 1024, usize::MAX] {
        assert_eq!(refused(slots, none, 0, empty), Some(MakeError::Length), "{slots}");
        assert_eq!(refused(slots, one, 1, Rule::OPEN), Some(MakeError::Length), "{slots}");
    }
    for version in [0, 4, 0x0101, 0x0300, u16::MAX] {
        let kind = Kind::of_version(version);
        assert_eq!(refused(2, kind, 0, empty), Some(MakeError::Version(version)));
        assert_eq!(refused(2, kind, 64, Rule::OPEN), Some(MakeError::Version(version)));
    }
    for kind in Kind::ALL {
        assert_eq!(refused(2, kind, 0, empty), Some(MakeError::Total));
        assert_eq!(refused(2, kind, 65, OPEN), Some(MakeError::Total));
        assert_eq!(
            refused(2, kind, 64, Rule::compact(&[0x80])),
            Some(MakeError::Rule(Form::Compact))
        );
    }
    assert_eq!(refused(2, one, 64, OPEN), Some(MakeError::Form(1, Form::Expanded)));
    for kind in [Kind::VERSION_2, Kind::VERSION_3] {
        assert_eq!(refused(2, kind, 64, OPEN), None);
    }
}

#[test]
fn a_rule_is_as_long_as_its_version_allows() {
    let kinds = Kind::ALL.into_iter().zip([16, 30, 28]);
    for (kind, longest) in kinds {
        assert_eq!(kind.longest_rule(Form::Compact), Some(longest));
        for length in 0..=40 {
            let rule = vec![0; length];
            let wanted = match (1..=longest).contains(&length) {
                true => None,
                false => Some(MakeError::RuleLength(longest)),
            };
            assert_eq!(refused(2, kind, 64, Rule::compact(&rule)), wanted, "{length} bytes");
        }
    }
    // A group of 5 bytes and conditions of 2 after it.
    for (kind, longest, most) in [(Kind::VERSION_2, 30, 13), (Kind::VERSION_3, 28, 12)] {
        for conditions in 0..=20 {
            let rule = [&[0x80, 0x01, 0x7F][..], &[0x90, 0x00].repeat(conditions)].concat();
            let wanted = match conditions {
                0 => Some(MakeError::Rule(Form::Expanded)),
                _ if conditions <= most => None,
                _ => Some(MakeError::RuleLength(longest)),
            };
            assert_eq!(refused(2, kind, 64, Rule::expanded(&rule)), wanted, "{rule:02X?}");
        }
    }
    assert_eq!(Kind::of_version(4).longest_rule(Form::Compact), None);
    assert_eq!(Kind::VERSION_1.longest_rule(Form::Expanded), None);
}

#[test]
fn every_error_says_what_to_do() {
    for (error, answer, advice) in [
        (MakeError::Length, 2, "2 to 1,023 slots"),
        (MakeError::Version(4), 2, "no card of version 4: choose 1, 2 or 3"),
        (MakeError::Total, 3, "64 bytes for each slot but the root"),
        (MakeError::Form(1, Form::Expanded), 4, "version 1 takes no rule of tag AB"),
        (MakeError::Form(2, Form::Referred), 4, "takes no rule of tag 8B: version 1 takes 8C"),
        (MakeError::RuleLength(30), 4, "1 to 30 bytes"),
        (MakeError::Rule(Form::Compact), 4, "one SC byte for each of its bits"),
        (MakeError::Rule(Form::Expanded), 4, "four deep at most"),
        (MakeError::Rule(Form::Referred), 4, "three bytes, the identifier of a file"),
        (MakeError::Unknown(9), 9, "build both anew"),
    ] {
        assert_eq!(error.answer(), answer);
        assert!(error.to_string().contains(advice), "{error}");
    }
}

/// The library's own numbers: a kind or a form that is none, also one that
/// differs from a known one only in its higher bits.
#[test]
fn unknown_numbers_are_refused() {
    let made = |kind, form, rule: &[u8]| ffi::make(&mut [0; 144], kind, 64, form, rule);
    for kind in [0, 4, 255, 0x0001_0001, 0x0100_0003, u32::MAX] {
        assert_eq!(made(kind, 0, Rule::OPEN.bytes), 2, "{kind:X}");
    }
    for form in [3, 4, 0x0100, 0x0102, 0x0001_0000, 0x0001_0002, u32::MAX] {
        for kind in [2, 3] {
            assert_eq!(made(kind, form, Rule::OPEN.bytes), 4, "{form:X}");
            assert_eq!(made(kind, form, OPEN.bytes), 4, "{form:X}");
            assert_eq!(made(kind, form, &OPEN.bytes[..3]), 4, "{form:X}");
        }
    }
    assert_eq!([1, 2, 3].map(|kind| made(kind, 0, Rule::OPEN.bytes)), [0, 0, 0]);
    assert_eq!([1, 2, 3].map(|kind| made(kind, 1, OPEN.bytes)), [4, 0, 0]);
    assert_eq!([1, 2, 3].map(|kind| made(kind, 2, &OPEN.bytes[..3])), [4, 4, 0]);
    // Each form read as the other.
    assert_eq!([2, 3].map(|kind| made(kind, 1, Rule::OPEN.bytes)), [4, 4]);
    assert_eq!([2, 3].map(|kind| made(kind, 0, OPEN.bytes)), [4, 4]);
    assert_eq!([2, 3].map(|kind| made(kind, 2, OPEN.bytes)), [4, 4]);
    assert_eq!([2, 3].map(|kind| made(kind, 2, Rule::OPEN.bytes)), [4, 4]);
}

#[test]
fn a_refused_buffer_is_left_alone() {
    let mut short = vec![0xA5; image_length(2) - 1];
    let given = lent::make(&mut short, Kind::VERSION_1, 64, Rule::OPEN);
    assert_eq!(given, Err(MakeError::Length));
    assert!(short.iter().all(|&byte| byte == 0xA5));
    let mut whole = vec![0xA5; image_length(2)];
    for (kind, total, rule) in [
        (Kind::of_version(9), 64, Rule::OPEN),
        (Kind::VERSION_2, 65, Rule::OPEN),
        (Kind::VERSION_1, 64, OPEN),
        (Kind::VERSION_2, 64, Rule::expanded(&[0x90, 0x00])),
        (Kind::VERSION_3, 64, Rule::compact(&[0; 29])),
        (Kind::VERSION_3, 64, Rule::referred(&[0; 4])),
    ] {
        assert!(lent::make(&mut whole, kind, total, rule).is_err(), "{kind:?} {rule:?}");
        assert!(whole.iter().all(|&byte| byte == 0xA5), "{kind:?} {rule:?}");
    }
}

/// Version and form stand where the documents say; every other byte is that of
/// a card of version 1.
#[test]
fn an_image_tells_its_kind() {
    for (kind, rule) in [
        (Kind::VERSION_1, Rule::OPEN),
        (Kind::VERSION_2, Rule::OPEN),
        (Kind::VERSION_2, OPEN),
        (Kind::VERSION_3, Rule::OPEN),
        (Kind::VERSION_3, OPEN),
        (Kind::VERSION_3, Rule::referred(&[0x6F, 0x06, 0x02])),
    ] {
        let card = Card::make(2, kind, 64, rule).expect("a card");
        assert_eq!(card.kind(), kind);
        let mut wanted = vec![0; image_length(2)];
        wanted[..12].copy_from_slice(b"UFT\x00\x00\x00\x02\x00\x00\xFF\xFF\x00");
        wanted[4] = kind.version as u8;
        let root = &mut wanted[16..];
        let head = [1, 0x38, 0x05, rule.form.number() as u8, 0x3F, 0x00];
        root[..6].copy_from_slice(&head);
        (root[15], root[33]) = (64, rule.bytes.len() as u8);
        root[34..34 + rule.bytes.len()].copy_from_slice(rule.bytes);
        assert_eq!(card.image(), wanted, "{kind:?} {rule:?}");
    }
    for kind in Kind::ALL {
        let mut card = fresh_of(kind);
        run(&mut card, CREATE_DF);
        assert_eq!(card.kind(), kind, "no command changes it");
    }
    let short = Kind::of_version(0);
    assert_eq!([&[][..], b"UFT", b"UFT\x00"].map(Kind::of_image), [short; 3]);
    assert_eq!(Kind::of_image(b"UFT\x00\x02"), Kind::VERSION_2);
    assert_eq!(Kind::default(), Kind::VERSION_1);
}

/// Any kind, form, total and rule: an answer, and a sound card if it is 0.
#[test]
fn no_bytes_make_the_maker_panic() {
    let mut made = 0;
    for seed in 0..4000 {
        let mut noise = noise(seed);
        let mut byte = || noise.next().unwrap_or_default();
        let (kind, form) = (u32::from(byte() % 5), u32::from(byte() % 4));
        let total = u32::from(byte());
        let rule: Vec<u8> = (0..byte() % 34).map(|_| byte() % 0x14).collect();
        let mut image = vec![0xA5; image_length(2 + usize::from(byte() % 4))];
        match ffi::make(&mut image, kind, total, form, &rule) {
            0 => {
                assert!(lent::is_sound(&image), "{rule:02X?}");
                made += 1;
            }
            answer => {
                assert!((2..=4).contains(&answer), "{answer}");
                assert!(image.iter().all(|&byte| byte == 0xA5), "{rule:02X?}");
            }
        }
    }
    assert!(made > 50, "{made} cards were made");
}
