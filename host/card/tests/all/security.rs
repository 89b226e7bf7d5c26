//! What a security refusal lacks: one of three with every command, and none with
//! another word or answer.

use std::collections::BTreeSet;

use card::{ffi, Card, Kind, Rule, Security, State, Word, LONGEST_RESPONSE};

use crate::common::{create, create_open, fresh_of, noise, read, read_record, run, select};
use crate::common::{select_told, update, CREATE_DF, CREATE_EF};

/// User authentication of environment 1.
const USER_1: u8 = 0x11;
const WITH_USER_1: State = State { user: 2, ..State::EMPTY };

/// The slots of the root, of 7F10 in it, and of 6F07 in that.
const ROOT: usize = 0;
const DIRECTORY: usize = 1;
const FILE: usize = 2;

/// A card of version 3 with these three files, 6F07 being current, and these rules
/// in place of their own, which allow everything.
fn with_rules(rules: &[(usize, Rule)]) -> Card {
    let mut card = fresh_of(Kind::VERSION_3);
    assert_eq!(run(&mut card, CREATE_DF), 0x9000);
    assert_eq!(run(&mut card, &create_open(0x6F07, 0, 9)), 0x9000);
    let (mut image, pool) = card.into_parts();
    for (slot, rule) in [(DIRECTORY, Rule::OPEN)].iter().chain(rules) {
        let record = &mut image[16 + 64 * slot..][..64];
        record[3] = rule.form.number() as u8;
        record[33] = rule.bytes.len() as u8;
        record[34..62].fill(0);
        record[34..34 + rule.bytes.len()].copy_from_slice(rule.bytes);
    }
    Card::from_parts(image, pool).expect("good rules")
}

/// What a command gives on a copy of the card.
fn told(card: &Card, command: &[u8], state: &State) -> (u16, Security) {
    let reply = card.clone().command(command, state).expect("a sound card");
    (reply.word.0, reply.security)
}

/// CREATE of the DF 7F20.
fn create_df() -> Vec<u8> {
    let mut command = CREATE_DF.to_vec();
    (command[14], command[25], command[26]) = (0x20, 0x00, 0x40);
    command
}

/// Every command that asks one rule: whose, for which right, and its word once it
/// is granted.
fn commands() -> Vec<(Vec<u8>, usize, u8, u16)> {
    vec![
        (create_df(), DIRECTORY, 0x04, 0x9000),
        (create_open(0x6F08, 0, 1), DIRECTORY, 0x02, 0x9000),
        (vec![0x00, 0x44, 0x00, 0x00], FILE, 0x10, 0x6985),
        (vec![0x00, 0x04, 0x00, 0x00], FILE, 0x08, 0x9000),
        (vec![0x00, 0xE8, 0x00, 0x00], FILE, 0x20, 0x9000),
        (vec![0x00, 0xE6, 0x00, 0x00], DIRECTORY, 0x20, 0x9000),
        (vec![0x00, 0xFE, 0x00, 0x00], ROOT, 0x20, 0x9000),
        (read(0, 9), FILE, 0x01, 0x9000),
        (update(0, &[1]), FILE, 0x02, 0x9000),
    ]
}

#[test]
fn each_of_the_three_has_a_number_and_a_meaning_of_its_own() {
    assert_eq!([0, 1, 2].map(Security::of_number), Security::ALL.map(Some));
    assert_eq!([3, 255, 256, u32::MAX].map(Security::of_number), [None; 4]);
    let meanings: BTreeSet<_> = Security::ALL.into_iter().map(Security::meaning).collect();
    assert_eq!(meanings.len(), 3);
}

#[test]
fn a_rule_that_some_state_opens_is_lacking() {
    for (command, slot, right, word) in commands() {
        let (compact, expanded) = ([right, USER_1], [0x80, 0x01, right, 0x9E, 0x01, USER_1]);
        for rule in [Rule::compact(&compact), Rule::expanded(&expanded)] {
            let card = with_rules(&[(slot, rule)]);
            for state in [State::EMPTY, State { user: !2, ..State::FULL }] {
                let given = told(&card, &command, &state);
                assert_eq!(given, (0x6982, Security::Lacking), "{command:02X?}, {rule:02X?}");
            }
            let given = told(&card, &command, &WITH_USER_1);
            assert_eq!(given, (word, Security::NoRefusal), "{command:02X?}, {rule:02X?}");
        }
    }
}

#[test]
fn a_rule_that_no_state_opens_is_closed() {
    // A right that none of these commands asks for.
    let other = 0x40;
    for (command, slot, right, _) in commands() {
        let group = |conditions: &[u8]| [&[0x80, 0x01, right], conditions].concat();
        let compact = [
            vec![0x00],
            vec![other, 0x00],
            vec![right, 0xFF],
            vec![right, 0x80],
            vec![right, 0x1F],
            vec![right, 0xFF, right, 0x0F],
        ];
        let expanded = [
            vec![0x80, 0x01, other, 0x90, 0x00],
            group(&[0x97, 0x00]),
            group(&[0x9E, 0x01, 0x7F]),
            group(&[0xAF, 0x05, 0x9E, 0x01, USER_1, 0x97, 0x00]),
            group(&[0xA0, 0x04, 0x97, 0x00, 0x97, 0x00, 0x97, 0x00]),
        ];
        let rules = compact.iter().map(|rule| Rule::compact(rule));
        for rule in rules.chain(expanded.iter().map(|rule| Rule::expanded(rule))) {
            let card = with_rules(&[(slot, rule)]);
            for state in [State::EMPTY, WITH_USER_1, State::FULL] {
                let given = told(&card, &command, &state);
                assert_eq!(given, (0x6982, Security::Closed), "{command:02X?}, {rule:02X?}");
            }
        }
    }
}

/// The file's own rule and its directory's, each open, lacking or closed.
#[test]
fn lacking_wins_over_closed_where_delete_asks_two_rules() {
    let delete = [0x00, 0xE4, 0x00, 0x00, 0x02, 0x6F, 0x07];
    let own = [[0x40, 0x00], [0x40, USER_1], [0x40, 0xFF]];
    let above = [[0x01, 0x00], [0x01, USER_1], [0x01, 0xFF]];
    for (one, own) in own.iter().enumerate() {
        for (other, above) in above.iter().enumerate() {
            let card = with_rules(&[(FILE, Rule::compact(own)), (DIRECTORY, Rule::compact(above))]);
            let wanted = match (one, other) {
                (0, _) | (_, 0) => (0x9000, Security::NoRefusal),
                (1, _) | (_, 1) => (0x6982, Security::Lacking),
                _ => (0x6982, Security::Closed),
            };
            assert_eq!(told(&card, &delete, &State::EMPTY), wanted, "{own:02X?}, {above:02X?}");
            let opened =
                if wanted.1 == Security::Closed { wanted } else { (0x9000, Security::NoRefusal) };
            assert_eq!(told(&card, &delete, &WITH_USER_1), opened, "{own:02X?}, {above:02X?}");
        }
    }
}

/// A card, a command, and its word.
type Row = (Card, Vec<u8>, u16);

/// Words that come before security, on a card that is closed to the empty state,
/// and what asks no rule.
fn before_security() -> Vec<Row> {
    let user = [0x7F, USER_1, USER_1, USER_1, USER_1, USER_1, USER_1, USER_1];
    let card = Card::make(8, Kind::VERSION_3, 448, Rule::compact(&user)).expect("a card");
    assert_eq!(told(&card, CREATE_EF, &State::EMPTY), (0x6982, Security::Lacking));
    let rows = [
        (vec![], 0x6700),
        (vec![0x80, 0xE0, 0x00, 0x00], 0x6E00),
        (vec![0x01, 0xE0, 0x00, 0x00], 0x6985),
        (vec![0x00, 0xB1, 0x00, 0x00], 0x6D00),
        ([&[0x00, 0xE0, 0x01], &CREATE_EF[3..]].concat(), 0x6B00),
        (create(&[0x62, 0x00]), 0x6A80),
        (vec![0x00, 0xE4, 0x00, 0x00, 0x02, 0x6F, 0x07], 0x6A82),
        (vec![0x00, 0xE8, 0x00, 0x00], 0x6986),
        (select(0x3F00), 0x9000),
    ];
    rows.map(|(command, word)| (card.clone(), command, word)).into()
}

/// Words that come after security, on cards that are open; each is made ready by
/// commands.
fn after_security() -> Vec<Row> {
    let named = |identifier: u8| {
        let head = [0x82, 2, 0x38, 0x21, 0x83, 2, 0x7F, identifier, 0x84, 1, 0xA0, 0x8A, 1, 0x05];
        let objects = [&head[..], &[0x8C, 1, 0x00, 0x81, 2, 0, 1, 0xC6, 1, 0]].concat();
        create(&[&[0x62, objects.len() as u8], &objects[..]].concat())
    };
    let (deactivate, terminate) = (vec![0x00, 0x04, 0x00, 0x00], vec![0x00, 0xE8, 0x00, 0x00]);
    let rows = [
        (vec![], vec![0x00, 0x44, 0x00, 0x00], 0x6985),
        (vec![], create_open(0x6F07, 0, 1), 0x6A89),
        (vec![named(0x30), select(0x7F10)], named(0x31), 0x6A8A),
        (vec![], create_open(0x6F08, 0, 250), 0x6A84),
        (vec![], read_record(1, 1), 0x6981),
        (vec![], read(9, 1), 0x6B00),
        (vec![create_open(0x6F3A, 5, 10)], read_record(3, 5), 0x6A83),
        (vec![], read(8, 2), 0x6700),
        (vec![deactivate], select_told(0x6F07), 0x6283),
        (vec![terminate], select_told(0x6F07), 0x6285),
    ];
    let ready = |(before, command, word): (Vec<Vec<u8>>, Vec<u8>, u16)| {
        let mut card = with_rules(&[]);
        before.iter().for_each(|command| assert_eq!(run(&mut card, command), 0x9000));
        (card, command, word)
    };
    rows.map(ready).into()
}

#[test]
fn other_words_have_no_number() {
    let mut words = BTreeSet::from([0x6982]);
    for (card, command, word) in before_security().into_iter().chain(after_security()) {
        let given = told(&card, &command, &State::EMPTY);
        assert_eq!(given, (word, Security::NoRefusal), "{command:02X?}");
        words.insert(word);
    }
    assert!(Word::all().all(|word| words.contains(&word.0)), "a word is missing: {words:04X?}");
}

/// A command that its rule refuses, where an answer comes before its word.
#[test]
fn other_answers_have_no_number() {
    let (image, pool) = with_rules(&[(DIRECTORY, Rule::compact(&[0x02, USER_1]))]).into_parts();
    let call = |mut image: Vec<u8>, mut pool: Vec<u8>, command: &[u8], response: &mut [u8]| {
        ffi::command(&mut image, &mut pool, command, response, [0; 3], 0)
    };
    let whole = &mut [0; LONGEST_RESPONSE];
    assert_eq!(call(image.clone(), pool.clone(), CREATE_EF, whole), (0x6982, [0, 1, 0]));
    let mut damaged = image.clone();
    damaged[15] = 1;
    assert_eq!(call(damaged, pool.clone(), CREATE_EF, whole), (0x1_0000, [0; 3]));
    assert_eq!(call(image.clone(), vec![0; 447], CREATE_EF, whole), (0x6_0000, [0; 3]));
    assert_eq!(call(image, pool, &select_told(0x3F00), &mut []), (0x5_0000, [0; 3]));
}

/// Such a caller looked at the word, at the bytes and at the first number; the
/// third is kept still.
#[test]
fn a_caller_that_knows_no_such_number_finds_all_else_as_it_was() {
    for rule in [[0x02, USER_1], [0x02, 0xFF]] {
        let before = with_rules(&[(FILE, Rule::compact(&rule))]).into_parts();
        let (mut image, mut pool) = before.clone();
        let mut response = [0xA5; LONGEST_RESPONSE];
        let (both, [written, _, kept]) =
            ffi::command(&mut image, &mut pool, &update(0, &[1]), &mut response, [0; 3], 0);
        assert_eq!((both, written, kept), (0x6982, 0, 0), "{rule:02X?}");
        assert_eq!((image, pool), before, "{rule:02X?}");
        assert_eq!(response, [0xA5; LONGEST_RESPONSE], "{rule:02X?}");
    }
}

/// The bytes of a good rule at random; an expanded one begins with 80.
fn random_rule(noise: &mut impl Iterator<Item = u8>) -> Vec<u8> {
    let mut byte = || noise.next().unwrap_or_default();
    let mut rule = Vec::new();
    let expanded = byte() % 2 == 0;
    for _ in 0..1 + byte() % 3 {
        let rights = byte() & 0x7F;
        // Few of the conditions are open, so that rules refuse.
        let mut condition = || [0xFF, 0x0F, 0x11, 0x92, byte() | 0x10][usize::from(byte() % 5)];
        let group = if expanded {
            let (one, other) = (condition(), condition());
            vec![0x80, 0x01, rights, 0xAF, 0x06, 0x9E, 0x01, one, 0x9E, 0x01, other]
        } else {
            [vec![rights], (0..rights.count_ones()).map(|_| condition()).collect()].concat()
        };
        if rule.len() + group.len() <= 28 {
            rule.extend(group);
        }
    }
    rule
}

/// Conditions never ask that something is missing; so a refusal is lacking
/// exactly if it is none in the state in which everything holds.
#[test]
fn lacking_is_what_the_full_state_opens() {
    let mut noise = noise(6);
    let mut counts = [0; 3];
    for _ in 0..3000 {
        let bytes = random_rule(&mut noise);
        let form = if bytes[0] == 0x80 { Rule::expanded } else { Rule::compact };
        let [high, low] = [0; 2].map(|_: u8| noise.next().unwrap_or_default());
        let set = u16::from_be_bytes([high, low]);
        let state = State { messaging: set, external: set.rotate_left(5), user: !set, channels: 0 };
        for (command, slot, _, _) in commands() {
            let card = with_rules(&[(slot, form(&bytes))]);
            let (word, security) = told(&card, &command, &state);
            let opened = told(&card, &command, &State::FULL).0 != 0x6982;
            let wanted = match (word, opened) {
                (0x6982, true) => Security::Lacking,
                (0x6982, false) => Security::Closed,
                _ => Security::NoRefusal,
            };
            assert_eq!(security, wanted, "{command:02X?}, {bytes:02X?}, {state:?}");
            counts[security.number() as usize] += 1;
        }
    }
    assert!(counts.iter().all(|&count| count > 1000), "{counts:?}");
}
