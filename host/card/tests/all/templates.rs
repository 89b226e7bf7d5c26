//! SELECT that answers the template: which bytes, how long a response they
//! need, and what stays.

use card::{lent, Answer, CommandError, Kind, Rule, State, Word};

use crate::common::{create, done, fresh, fresh_of, told, with_c6};
use crate::common::{noise, run, select, select_told, CREATE_DF, CREATE_EF};

/// A directory that answers the longest template of its kind of card: a name
/// of 16 bytes, and a compact rule of as many bytes as there may be.
fn longest_directory(kind: Kind) -> Vec<u8> {
    let name = [0xA0; 16];
    let rule = vec![0; kind.longest_rule(card::Form::Compact).expect("a card")];
    let objects = [
        &[0x82, 2, 0x38, 0x21, 0x83, 2, 0x7F, 0x20, 0x84, 16][..],
        &name,
        &[0x8A, 1, 0x05, 0x8C, rule.len() as u8],
        &rule,
        &[0x81, 2, 0x00, 0x40],
    ];
    let objects = objects.concat();
    [&[0x62, objects.len() as u8], &objects[..]].concat()
}

#[test]
fn a_file_tells_what_it_was_created_with() {
    let mut card = fresh();
    run(&mut card, CREATE_DF);
    run(&mut card, CREATE_EF);
    assert_eq!(told(&mut card, 0x6F07), (0x9000, CREATE_EF[5..].to_vec()));
    // All but C6, which no card keeps.
    let (word, directory) = told(&mut card, 0x7F10);
    assert_eq!((word, with_c6(&directory)), (0x9000, CREATE_DF[5..].to_vec()));
    let root = [
        &[0x62, 25, 0x82, 2, 0x38, 0x21, 0x83, 2, 0x3F, 0x00, 0x8A, 1, 0x05, 0x8C, 8][..],
        Rule::OPEN.bytes,
        &[0x81, 2, 0x01, 0xC0],
    ];
    assert_eq!(told(&mut card, 0x3F00), (0x9000, root.concat()));
}

#[test]
fn records_and_warnings_come_with_the_template() {
    // A linear fixed EF of two records of 10 bytes that may be terminated.
    let data = [
        0x62, 0x16, 0x82, 0x04, 0x42, 0x21, 0x00, 0x0A, 0x83, 0x02, 0x6F, 0x3A, 0x8A, 0x01, 0x04,
        0x8C, 0x03, 0x30, 0x00, 0x00, 0x80, 0x02, 0x00, 0x14,
    ];
    let mut card = fresh();
    assert_eq!(run(&mut card, &create(&data)), 0x9000);
    assert_eq!(told(&mut card, 0x6F3A), (0x6283, data.to_vec()));
    assert_eq!(run(&mut card, &[0x00, 0xE8, 0x00, 0x00]), 0x9000);
    let mut terminated = data.to_vec();
    terminated[14] = 0x0C;
    assert_eq!(told(&mut card, 0x6F3A), (0x6285, terminated));
}

#[test]
fn the_longest_template_is_as_long_as_told() {
    for (kind, length) in Kind::ALL.into_iter().zip([53, 67, 65]) {
        let template = longest_directory(kind);
        assert_eq!(template.len(), length);
        let mut card = fresh_of(kind);
        assert_eq!(run(&mut card, &create(&with_c6(&template))), 0x9000);
        assert_eq!(told(&mut card, 0x7F20), (0x9000, template));
    }
}

/// Every length from none to one more than is needed, on the longest template
/// and on the shortest: too short leaves everything and selects nothing; long
/// enough writes the template, and the bytes past it stay.
#[test]
fn a_response_that_is_too_short_leaves_everything() {
    let longest = longest_directory(Kind::VERSION_2);
    let shortest = [
        0x62, 18, 0x82, 2, 0x41, 0x21, 0x83, 2, 0x6F, 0x07, 0x8A, 1, 0x05, 0x8C, 1, 0x00, 0x80, 2,
        0x00, 0x01,
    ];
    for (identifier, data, template) in
        [(0x7F20, with_c6(&longest), &longest[..]), (0x6F07, shortest.to_vec(), &shortest)]
    {
        let mut card = fresh_of(Kind::VERSION_2);
        assert_eq!(run(&mut card, &create(&data)), 0x9000);
        assert_eq!(run(&mut card, &select(0x3F00)), 0x9000);
        let before = card.into_image();
        for length in 0..=template.len() + 1 {
            let mut image = before.clone();
            let paint: Vec<u8> = noise(length as u64).take(length).collect();
            let mut response = paint.clone();
            let select = select_told(identifier);
            let given = lent::command(&mut image, &mut [], &select, &mut response, &State::EMPTY);
            if length < template.len() {
                assert_eq!(given, Err(CommandError::ShortResponse), "{length} bytes");
                assert_eq!((&image, response), (&before, paint), "{length} bytes");
            } else {
                assert_eq!(given, Ok(done(template.len())), "{length} bytes");
                assert_ne!(image, before, "it is selected");
                assert_eq!(response, [template, &paint[template.len()..]].concat());
            }
        }
    }
}

/// What has no data leaves the response, and needs none; earlier words win
/// over a response that is too short.
#[test]
fn what_has_no_data_leaves_the_response() {
    let with = |change: fn(&mut Vec<u8>)| {
        let mut command = select_told(0x3F00);
        change(&mut command);
        command
    };
    for (command, word) in [
        (select(0x3F00), 0x9000),
        (CREATE_EF.to_vec(), 0x9000),
        (vec![0x00, 0x04, 0x00, 0x00], 0x9000),
        (select_told(0x6F07), 0x6A82),
        (with(|command| command.truncate(7)), 0x6700),
        (with(|command| command[7] = 0x1B), 0x6700),
        (with(|command| command.push(0)), 0x6700),
        (with(|command| command[3] = 0x0C), 0x6700),
        (with(|command| command[3] = 0x00), 0x6B00),
        (with(|command| command[2] = 0x04), 0x6B00),
        (with(|command| command[0] = 0x80), 0x6E00),
    ] {
        for length in [0, 1, 67] {
            let mut image = fresh().into_image();
            let mut response = vec![0xA5; length];
            let given = lent::command(&mut image, &mut [], &command, &mut response, &State::FULL);
            let answer = Answer { word: Word(word), ..done(0) };
            assert_eq!(given, Ok(answer), "{command:02X?}");
            assert_eq!(response, vec![0xA5; length], "{command:02X?}");
        }
    }
}
