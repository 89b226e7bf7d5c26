//! Expanded rules: which versions take them, what they decide, and what SELECT
//! tells of them.

use card::{Card, Kind, Rule, State};

use crate::common::{create, fresh_of, run, select, told};

/// The data of a CREATE of the EF 6F07 with a rule.
fn file(tag: u8, rule: &[u8]) -> Vec<u8> {
    let objects = [
        &[0x82, 2, 0x41, 0x21, 0x83, 2, 0x6F, 0x07, 0x8A, 1, 0x05, tag, rule.len() as u8][..],
        rule,
        &[0x80, 2, 0x00, 0x09],
    ];
    let objects = objects.concat();
    [&[0x62, objects.len() as u8], &objects[..]].concat()
}

/// The word of a CREATE with this rule on an open card.
fn word(kind: Kind, tag: u8, rule: &[u8]) -> u16 {
    run(&mut fresh_of(kind), &create(&file(tag, rule)))
}

/// `templates` A0 inside one another, around two conditions.
fn nested(templates: usize) -> Vec<u8> {
    let mut inside = vec![0x90, 0x00, 0x97, 0x00];
    for _ in 0..templates {
        let length = inside.len() as u8;
        inside = [&[0xA0, length][..], &inside, &[0x97, 0x00]].concat();
    }
    inside.truncate(inside.len() - 2);
    [&[0x80, 0x01, 0x01][..], &inside].concat()
}

#[test]
fn each_version_takes_its_rules() {
    let (one, two, three) = (Kind::VERSION_1, Kind::VERSION_2, Kind::VERSION_3);
    let always = [0x80, 0x01, 0x7F, 0x90, 0x00];
    assert_eq!([word(one, 0x8C, &[0x01, 0x00]), word(two, 0x8C, &[0x01, 0x00])], [0x9000; 2]);
    assert_eq!([word(one, 0xAB, &always), word(two, 0xAB, &always)], [0x6A80, 0x9000]);
    assert_eq!([word(one, 0x8C, &[0; 16]), word(one, 0x8C, &[0; 17])], [0x9000, 0x6A80]);
    assert_eq!([word(two, 0x8C, &[0; 30]), word(two, 0x8C, &[0; 31])], [0x9000, 0x6A80]);
    assert_eq!([word(three, 0x8C, &[0; 28]), word(three, 0x8C, &[0; 29])], [0x9000, 0x6A80]);
    assert_eq!([word(two, 0xAB, &nested(4)), word(two, 0xAB, &nested(5))], [0x9000, 0x6A80]);
    assert_eq!([word(three, 0xAB, &always), word(three, 0xAB, &nested(5))], [0x9000, 0x6A80]);
    for malformed in [
        &[][..],
        &[0x90, 0x00],
        &[0x80, 0x01, 0x7F],
        &[0x80, 0x01, 0x80, 0x90, 0x00],
        &[0x80, 0x02, 0x7F, 0x00, 0x90, 0x00],
        &[0x80, 0x01, 0x7F, 0x90, 0x01, 0x00],
        &[0x80, 0x01, 0x7F, 0xA0, 0x02, 0x90, 0x00],
        &[0x80, 0x01, 0x7F, 0xA4, 0x02, 0x90, 0x00],
        &[0x80, 0x01, 0x7F, 0x9E, 0x01],
    ] {
        assert_eq!(word(two, 0xAB, malformed), 0x6A80, "{malformed:02X?}");
    }
}

/// The rule of the ticket's own words: user 1, or both messaging 2 and
/// external 2, for CREATE of an EF; in a second group never.
#[test]
fn an_expanded_rule_decides() {
    let rule = [
        0x80, 0x01, 0x06, 0x9E, 0x01, 0x11, 0xAF, 0x06, 0x9E, 0x01, 0x42, 0x9E, 0x01, 0x22, 0x80,
        0x01, 0x02, 0x97, 0x00,
    ];
    let card = Card::make(8, Kind::VERSION_2, 448, Rule::expanded(&rule)).expect("a card");
    let word = |messaging, external, user| {
        let state = State { messaging, external, user, channels: 0 };
        let data = create(&file(0x8C, &[0x01, 0x00]));
        card.clone().command(&data, &state).expect("a sound card").word.0
    };
    for (messaging, external, user, wanted) in [
        (0, 0, 0, 0x6982),
        (0, 0, 2, 0x9000),
        (4, 0, 0, 0x6982),
        (0, 4, 0, 0x6982),
        (4, 4, 0, 0x9000),
        (!4, !4, !2, 0x6982),
        (4, 4, 2, 0x9000),
    ] {
        assert_eq!(word(messaging, external, user), wanted, "{messaging} {external} {user}");
    }
}

/// The template has AB in 8C's place, and makes the same file again.
#[test]
fn an_expanded_rule_is_told() {
    let data = file(0xAB, &nested(4));
    let mut card = fresh_of(Kind::VERSION_2);
    assert_eq!(run(&mut card, &create(&data)), 0x9000);
    assert_eq!(told(&mut card, 0x6F07), (0x9000, data.clone()));
    let mut again = fresh_of(Kind::VERSION_2);
    assert_eq!(run(&mut again, &create(&data)), 0x9000);
    assert_eq!(run(&mut again, &select(0x6F07)), 0x9000);
    assert_eq!(again, card);
}
