//! Cards that get Ticket 3 of 02 wrong are found, and told in a small form: the
//! grammar of expanded rules, how they decide, versions and forms.

use crate::impostor::{
    found, found_small_in, respelled, Came, Impostor, Left, Maker, Spoil, HONEST,
};
use crate::quirks::{deciding, lenient, objects_sent, Quirks, RIGHT};
use cases::template::{create_command, template};
use cases::{Kind, Random, Rule};
use compare::{Model, Pair, Told};
use model::edition::{Edition, Version};
use model::rule::{Form, Right};

/// Cards that take rules that are none.
const LENIENT: [(&str, Spoil); 9] = [
    ("depth five", |c, l, t| lenient(c, l, t, &Quirks { deepest: 5, ..RIGHT })),
    ("a template of one condition", |c, l, t| lenient(c, l, t, &Quirks { fewest: 1, ..RIGHT })),
    ("an empty template", |c, l, t| lenient(c, l, t, &Quirks { fewest: 0, ..RIGHT })),
    ("past its template's end", |c, l, t| {
        lenient(c, l, t, &Quirks { past_the_end: true, ..RIGHT })
    }),
    ("90 and 97 with a value", |c, l, t| lenient(c, l, t, &Quirks { any_value: true, ..RIGHT })),
    ("AM with b8", |c, l, t| lenient(c, l, t, &Quirks { b8: true, ..RIGHT })),
    ("an AM_DO without SC_DO", |c, l, t| lenient(c, l, t, &Quirks { fewest_of_a_row: 0, ..RIGHT })),
    ("one byte too many", |c, l, t| lenient(c, l, t, &Quirks { more_bytes: 1, ..RIGHT })),
    ("AB on version 1", |c, l, t| lenient(c, l, t, &Quirks { on_version_1: true, ..RIGHT })),
];

/// Cards on which expanded rules decide wrongly.
const DECIDING: [(&str, Spoil); 6] = [
    ("all of a row", |c, l, t| deciding(c, l, t, &Quirks { all_of_a_row: true, ..RIGHT })),
    ("AF as one of", |c, l, t| deciding(c, l, t, &Quirks { all_as_one: true, ..RIGHT })),
    ("A0 as all of", |c, l, t| deciding(c, l, t, &Quirks { one_as_all: true, ..RIGHT })),
    ("97 as always", |c, l, t| deciding(c, l, t, &Quirks { never_holds: true, ..RIGHT })),
    ("the first group alone", |c, l, t| deciding(c, l, t, &Quirks { first_group: true, ..RIGHT })),
    ("templates deny", |c, l, t| deciding(c, l, t, &Quirks { deepest: 0, ..RIGHT })),
];

/// The card as it is with these bytes 3, and what the model makes of that.
fn with_byte_3(came: &Came, left: &mut Left, byte: impl Fn(u8) -> u8) -> Told {
    let mut image = came.image.to_vec();
    let places = || (19..came.image.len()).step_by(64);
    for at in places() {
        image[at] = byte(image[at]);
    }
    let mut given = came.given_on(&image, came.command);
    for at in places() {
        // A record that is neither new nor deleted.
        if (given.image[at - 3] == 0) == (came.image[at - 3] == 0) {
            given.image[at] = came.image[at];
        }
    }
    if given.told.answer != 0 {
        given.image.copy_from_slice(came.image);
    }
    left.replace(&given)
}

/// Cards with versions, forms and templates that are wrong, and the kind of
/// cases that shows each.
const OTHERS: [(&str, Kind, Spoil); 7] = [
    ("byte 3 is ignored", Kind::SoundCommand, |came, left, _| with_byte_3(came, left, |_| 0)),
    ("any byte 3 but 0 is expanded", Kind::DamagedCommand, |came, left, _| {
        with_byte_3(came, left, |byte| byte.min(1))
    }),
    ("version 1 is read as version 2", Kind::DamagedCommand, |came, left, told| {
        if told.answer == 1 && came.image.starts_with(b"UFT\x00\x01") {
            let image = [&b"UFT\x00\x02"[..], &came.image[5..]].concat();
            let told = left.replace(&came.given_on(&image, came.command));
            left.image[4] = 1;
            return told;
        }
        told
    }),
    ("8C told for form 1", Kind::SoundCommand, |came, left, told| {
        respelled(came, left, told, |objects| {
            objects.iter_mut().filter(|(tag, _)| *tag == 0xAB).for_each(|(tag, _)| *tag = 0x8C)
        })
    }),
    ("byte 3 is not written", Kind::Template, |came, left, told| {
        let slot = (1..came.image.len() / 64).find(|slot| came.image[16 + 64 * slot] == 0);
        if let (Some(0xE0), 0x9000, Some(slot)) = (came.command.get(1), told.word, slot) {
            left.image[16 + 64 * slot + 3] = 0;
        }
        told
    }),
    ("long rules are cut to 16 bytes", Kind::Template, |came, left, told| {
        let slot = (1..came.image.len() / 64).find(|slot| came.image[16 + 64 * slot] == 0);
        if let (Some(0xE0), 0x9000, Some(slot)) = (came.command.get(1), told.word, slot) {
            left.image[16 + 64 * slot + 50..80 + 64 * slot].fill(0);
        }
        told
    }),
    ("both 8C and AB", Kind::Template, |came, left, told| {
        let mut sent = objects_sent(came.command).unwrap_or_default();
        let compact = sent.iter().position(|(tag, _)| *tag == 0x8C);
        match compact.filter(|_| sent.iter().any(|(tag, _)| *tag == 0xAB)) {
            Some(at) if told.word == 0x6A80 => drop(sent.remove(at)),
            _ => return told,
        }
        left.replace(&came.given(&create_command(&template(&sent))))
    }),
];

#[test]
fn every_lenient_card_is_found() {
    for (title, command) in LENIENT {
        found_small_in(title, command, Kind::Template, 8);
    }
}

#[test]
fn every_wrong_decision_is_found() {
    for (title, command) in DECIDING {
        for kind in [Kind::Rule, Kind::SoundCommand, Kind::History] {
            found_small_in(title, command, kind, 8);
        }
    }
}

#[test]
fn wrong_versions_forms_and_templates_are_found() {
    for (title, kind, command) in OTHERS {
        found_small_in(title, command, kind, 8);
    }
}

#[test]
fn wrong_makers_are_found() {
    let makers: [(&str, Maker); 5] = [
        ("16 bits of the version", Maker(|version, form| (version & 0xFFFF, form))),
        ("8 bits of the form", Maker(|version, form| (version, form & 0xFF))),
        ("any form but 0 is 1", Maker(|version, form| (version, form.min(1)))),
        ("version 4 is 3", Maker(|version, form| (if version == 4 { 3 } else { version }, form))),
        ("form 1 on version 1", Maker(|v, form| (if form == 1 { v.max(2) } else { v }, form))),
    ];
    for (title, maker) in &makers {
        let pair = Pair { card: maker, model: &Model };
        let found = found(pair, Some(Kind::Make));
        assert!(found.is_some(), "{title}");
    }
}

/// The reader without a quirk is the model's: it takes and decides the same.
#[test]
fn without_a_quirk_nothing_is_wrong() {
    let mut random = Random::new(21);
    for _ in 0..4000 {
        let Rule { form, bytes } = cases::rules::any(&mut random);
        let state = cases::states::any(&mut random);
        for version in Version::ALL {
            let fit = model::rule::fit(Edition::of(version), Form::Expanded, &bytes);
            assert_eq!(RIGHT.fits(version, &bytes), fit, "{version:?} {form:?} {bytes:02X?}");
        }
        for right in Right::ALL {
            let decided = model::rule::decide(Form::Expanded, &bytes, right, &state);
            assert_eq!(RIGHT.decides(&bytes, right, &state), decided, "{bytes:02X?}");
        }
    }
    let spoils: [Spoil; 3] = [
        |c, l, t| lenient(c, l, t, &RIGHT),
        |c, l, t| deciding(c, l, t, &RIGHT),
        |c, l, _| with_byte_3(c, l, |byte| byte),
    ];
    for command in spoils {
        let honest = Impostor { command, ..HONEST };
        let pair = Pair { card: &honest, model: &Model };
        let kinds = [Kind::Template, Kind::SoundCommand, Kind::DamagedCommand, Kind::Security];
        for kind in kinds.into_iter().chain([Kind::Referred]) {
            assert_eq!(found(pair, Some(kind)), None);
        }
    }
}
