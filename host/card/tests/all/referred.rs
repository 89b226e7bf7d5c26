//! Rules that a record of a file keeps: which versions take them, what decides,
//! and that an UPDATE of the record changes what the next command may do.

use card::{Card, Form, Kind, MakeError, Rule, Security, State, Word};

use crate::common::{create, create_open, fresh_of, read, run, select, told, update_record};

/// READ and UPDATE always.
const OPEN: [u8; 8] = [0x80, 0x01, 0x03, 0x90, 0x00, 0xFF, 0xFF, 0xFF];
/// READ with user authentication 1.
const ASKING: [u8; 8] = [0x80, 0x01, 0x01, 0x9E, 0x01, 0x11, 0xFF, 0xFF];
/// READ never: an SC byte FF, which is no padding.
const NEVER: [u8; 8] = [0x80, 0x01, 0x01, 0x9E, 0x01, 0xFF, 0xFF, 0xFF];

/// The data of a CREATE of an EF with a rule in an object of this tag.
fn file(identifier: u16, tag: u8, rule: &[u8]) -> Vec<u8> {
    let [high, low] = identifier.to_be_bytes();
    let objects = [
        &[0x82, 2, 0x41, 0x21, 0x83, 2, high, low, 0x8A, 1, 0x05, tag, rule.len() as u8][..],
        rule,
        &[0x80, 2, 0x00, 0x09],
    ];
    let objects = objects.concat();
    [&[0x62, objects.len() as u8], &objects[..]].concat()
}

/// A card with the rule file 6F06 of two records, and 6F07 that is ruled by one
/// of them; 6F07 is current.
fn ruled_by(record: u8) -> Card {
    let mut card = fresh_of(Kind::VERSION_3);
    assert_eq!(run(&mut card, &create_open(0x6F06, 8, 16)), 0x9000);
    assert_eq!(run(&mut card, &create(&file(0x6F07, 0x8B, &[0x6F, 0x06, record]))), 0x9000);
    card
}

/// Writes a record of 6F06, and makes 6F07 current again.
fn write_rule(card: &mut Card, record: u8, rule: &[u8]) {
    for command in [select(0x6F06), update_record(record, rule), select(0x6F07)] {
        assert_eq!(run(card, &command), 0x9000);
    }
}

/// Word and number of a READ.
fn reads(card: &Card, state: &State) -> (Word, Security) {
    let reply = card.clone().command(&read(0, 9), state).expect("a sound card");
    (reply.word, reply.security)
}

#[test]
fn the_maker_takes_three_bytes_on_version_3() {
    for kind in Kind::ALL {
        for length in 0..=5 {
            let made = Card::make(2, kind, 64, Rule::referred(&[0x6F, 0x06, 1, 1, 1][..length]));
            let wanted = match (kind, length) {
                (Kind::VERSION_3, 3) => None,
                (Kind::VERSION_3, _) => Some(MakeError::Rule(Form::Referred)),
                _ => Some(MakeError::Form(kind.version, Form::Referred)),
            };
            assert_eq!(made.err(), wanted, "{kind:?}, {length} bytes");
        }
        let length = kind.longest_rule(Form::Referred);
        assert_eq!(length, (kind == Kind::VERSION_3).then_some(card::REFERENCE_BYTES));
    }
    // A reference to nothing closes the root.
    let root = Card::make(8, Kind::VERSION_3, 448, Rule::referred(&[0x6F, 0x06, 1]));
    let mut root = root.expect("three bytes");
    assert_eq!(run(&mut root, &create_open(0x6F06, 8, 16)), 0x6982);
}

#[test]
fn create_takes_three_bytes_on_version_3() {
    for kind in Kind::ALL {
        for length in 0..=5 {
            let data = file(0x6F07, 0x8B, &[0x6F, 0x06, 1, 1, 1][..length]);
            let wanted = if (kind, length) == (Kind::VERSION_3, 3) { 0x9000 } else { 0x6A80 };
            let word = run(&mut fresh_of(kind), &create(&data));
            assert_eq!(word, wanted, "{kind:?}, {length} bytes");
        }
    }
}

#[test]
fn the_template_tells_the_reference() {
    let data = file(0x6F07, 0x8B, &[0x6F, 0x06, 0x02]);
    let mut card = fresh_of(Kind::VERSION_3);
    assert_eq!(run(&mut card, &create(&data)), 0x9000);
    assert_eq!(told(&mut card, 0x6F07), (0x9000, data.clone()));
    let mut again = fresh_of(Kind::VERSION_3);
    assert_eq!(run(&mut again, &create(&data)), 0x9000);
    assert_eq!(again, card);
}

/// The rule is read as the command comes: the same READ of the same file, which
/// nobody touched between.
#[test]
fn an_update_of_the_record_changes_the_next_command() {
    let mut card = ruled_by(2);
    let closed = (Word::SECURITY, Security::Closed);
    let lacking = (Word::SECURITY, Security::Lacking);
    let done = (Word::DONE, Security::NoRefusal);
    let user = State { user: 2, ..State::EMPTY };
    for (rule, empty, with_user) in [
        (&[0xFF; 8], closed, closed),
        (&OPEN, done, done),
        (&ASKING, lacking, done),
        (&NEVER, closed, closed),
        (&OPEN, done, done),
        (&[0x00; 8], closed, closed),
        (&ASKING, lacking, done),
    ] {
        write_rule(&mut card, 2, rule);
        assert_eq!(reads(&card, &State::EMPTY), empty, "{rule:02X?}");
        assert_eq!(reads(&card, &user), with_user, "{rule:02X?}");
    }
    // Record 1 rules nothing.
    write_rule(&mut card, 1, &OPEN);
    assert_eq!(reads(&card, &State::EMPTY), lacking);
    // Without the file nothing is opened; with another one it is FF again.
    for (command, word) in [
        (vec![0x00, 0xE4, 0x00, 0x00, 0x02, 0x6F, 0x06], 0x9000),
        (create_open(0x6F06, 8, 16), 0x9000),
    ] {
        assert_eq!(run(&mut card, &command), word);
        assert_eq!(run(&mut card, &select(0x6F07)), 0x9000);
        assert_eq!(reads(&card, &user), closed);
    }
}

/// Deactivated and terminated it rules on.
#[test]
fn the_rule_file_need_not_be_activated() {
    let mut card = ruled_by(1);
    write_rule(&mut card, 1, &OPEN);
    for change in [0x04, 0xE8] {
        assert_eq!(run(&mut card, &select(0x6F06)), 0x9000);
        assert_eq!(run(&mut card, &[0x00, change, 0x00, 0x00]), 0x9000);
        assert_eq!(run(&mut card, &select(0x6F07)), 0x9000);
        assert_eq!(reads(&card, &State::EMPTY).0, Word::DONE);
        if change == 0x04 {
            assert_eq!(run(&mut card, &select(0x6F06)), 0x6283);
            assert_eq!(run(&mut card, &[0x00, 0x44, 0x00, 0x00]), 0x9000);
        }
    }
}
