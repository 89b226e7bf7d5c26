//! Cards that get the rest of Ticket 2 of 02 wrong are found: buffers, numbers,
//! order, lengths, and templates that CREATE takes all the same.

use crate::impostor::{
    found, found_line, found_small, respelled, too_short, with_value, word, After, Came, Impostor,
    Spoil, HONEST,
};
use cases::Kind;
use compare::{Disagreement, Pair, Told};
use model::lines::Case as Line;

/// What the right card would give if the buffer were long enough: the image,
/// what it tells, and the data.
fn with_room(came: &Came) -> (Vec<u8>, Told, Vec<u8>) {
    let After { told, image, mut response, .. } =
        Came { response: &[0; 256], ..*came }.given(came.command);
    response.truncate(told.numbers[0] as usize);
    (image, told, response)
}

/// Other wrong answers to SELECT: templates that CREATE takes all the same,
/// buffers, numbers, order and lengths.
const ANSWERS: [(&str, Spoil); 16] = [
    ("size in four bytes", |came, left, told| {
        respelled(came, left, told, |objects| {
            let size = objects.last_mut().expect("there is a size");
            size.1.splice(0..0, [0, 0]);
        })
    }),
    ("second byte of 82 not 21", |came, left, told| {
        respelled(came, left, told, |objects| with_value(objects, 0x82, |v| v[1] = 0))
    }),
    ("a C6 for a DF", |came, left, told| {
        respelled(came, left, told, |objects| {
            if objects.iter().any(|(tag, _)| *tag == 0x81) {
                objects.push((0xC6, vec![0]));
            }
        })
    }),
    ("selects with answer 5", |came, left, told| {
        if told.answer == 5 {
            left.image.copy_from_slice(&with_room(came).0);
        }
        told
    }),
    ("writes before it finds the buffer short", |came, left, told| {
        if told.answer == 5 {
            let data = with_room(came).2;
            left.response.iter_mut().zip(data).for_each(|(place, byte)| *place = byte);
        }
        told
    }),
    ("cuts the template to the buffer", |came, left, told| {
        if told.answer != 5 {
            return told;
        }
        let (image, full, data) = with_room(came);
        left.image.copy_from_slice(&image);
        let length = left.response.len();
        left.response.copy_from_slice(&data[..length]);
        Told { numbers: [length as u32, 0, 0], ..full }
    }),
    ("wants a byte more than the template", |came, left, told| {
        match told.numbers[0] as usize == came.response.len() && told.numbers[0] > 0 {
            true => too_short(came, left),
            false => told,
        }
    }),
    ("zeroes what is past the template", |_, left, told| {
        if let (1.., Some(past)) =
            (told.numbers[0], left.response.get_mut(told.numbers[0] as usize..))
        {
            past.fill(0);
        }
        told
    }),
    ("finds a short buffer first", |came, left, told| {
        let asks = matches!(came.command, [0, 0xA4, 0, 0x04, 2, _, _, 0]);
        match asks && told.word == 0x6A82 && came.response.is_empty() {
            true => too_short(came, left),
            false => told,
        }
    }),
    ("answers 5 with a word", |_, _, told| match told.answer {
        5 => Told { word: 0x6700, ..told },
        _ => told,
    }),
    ("a warning without its template", |came, left, told| {
        if told.numbers[0] > 0 && told.word != 0x9000 {
            left.response.copy_from_slice(came.response);
            return Told { numbers: [0; 3], ..told };
        }
        told
    }),
    ("tells the buffer's length", |_, left, told| match told.numbers {
        [data, ..] if data > 0 => Told { numbers: [left.response.len() as u32, 0, 0], ..told },
        _ => told,
    }),
    ("has a number of a later ticket", |_, _, told| match told.word {
        0x6982 => Told { numbers: [0, told.numbers[1], 1], ..told },
        _ => told,
    }),
    ("takes 04 without Le", |came, _, told| match came.command {
        [0, 0xA4, 0, 0x04, 2, _, _] if told.word == 0x6700 => word(0x6A82),
        _ => told,
    }),
    ("takes any Le", |came, left, told| match came.command {
        [0, 0xA4, 0, 0x04, 2, high, low, _] if told.word == 0x6700 => {
            left.replace(&came.given(&[0, 0xA4, 0, 0x04, 2, *high, *low, 0]))
        }
        _ => told,
    }),
    ("writes a template with 0C", |came, left, told| {
        if let ([0, 0xA4, 0, 0x0C, ..], 0x9000, Some(byte)) =
            (came.command, told.word, left.response.first_mut())
        {
            *byte = 0x62;
        }
        told
    }),
];

#[test]
fn every_wrong_answer_is_found() {
    for (title, command) in ANSWERS {
        found_small(title, command);
    }
}

/// What demand 1 forbids, each with what is complained of.
const BROKEN: [(&str, Spoil); 13] = [
    ("the image was changed", |_, left, told| {
        if let (0x6A82, Some(byte)) = (told.word, left.image.last_mut()) {
            *byte ^= 1;
        }
        told
    }),
    ("the response buffer was changed", |_, left, told| {
        if let (0x6A82, Some(byte)) = (told.word, left.response.last_mut()) {
            *byte ^= 1;
        }
        told
    }),
    ("bytes past the data were changed", |_, left, told| {
        if let (0x9000, Some(byte)) = (told.word, left.response.get_mut(60)) {
            *byte ^= 1;
        }
        told
    }),
    ("a word with another answer than 0", |_, _, told| match told.answer {
        5 => Told { word: 0x9000, ..told },
        _ => told,
    }),
    ("none of a command's", |_, _, told| match told.answer {
        5 => Told { answer: 4, ..told },
        _ => told,
    }),
    ("a number of a later ticket", |_, _, told| match told.word {
        0x6982 => Told { numbers: [0, told.numbers[1], 1], ..told },
        _ => told,
    }),
    ("6982 is told neither lacking nor closed", |_, _, told| match told.numbers {
        [0, 2, 0] => Told { numbers: [0; 3], ..told },
        _ => told,
    }),
    ("6982 is told neither", |_, _, told| match told.numbers {
        [0, 1, 0] => Told { numbers: [0, 3, 0], ..told },
        _ => told,
    }),
    ("told of no security refusal", |_, _, told| match told.word {
        0x6985 => Told { numbers: [0, 1, 0], ..told },
        _ => told,
    }),
    ("lacking or closed is told of no security refusal", |_, _, told| match told.answer {
        5 => Told { numbers: [0, 2, 0], ..told },
        _ => told,
    }),
    ("data came without an effect", |came, _, told| match told.word {
        0x6A82 if !came.response.is_empty() => Told { numbers: [1, 0, 0], ..told },
        _ => told,
    }),
    ("no word with answer 0", |_, _, told| match told.word {
        0x6A82 => Told { word: 0, ..told },
        _ => told,
    }),
    ("bytes of data are told in a buffer of", |_, left, told| match told.word {
        0x9000 => Told { numbers: [left.response.len() as u32 + 1, 0, 0], ..told },
        _ => told,
    }),
];

/// Held against themselves: what demand 1 says of any answer finds these.
#[test]
fn demand_1_finds_what_both_sides_do_wrong() {
    for (expected, command) in BROKEN {
        let wrong = Impostor { command, ..HONEST };
        let pair = Pair { card: &wrong, model: &wrong };
        let Some(Disagreement::Demand1 { complaint, .. }) = found(pair, Some(Kind::SoundCommand))
        else {
            panic!("not found: {expected}");
        };
        assert!(complaint.contains(expected), "{complaint}, and not {expected}");
    }
}

/// The smallest case lends no more than it must: no byte, or one plain one.
#[test]
fn the_response_buffer_is_made_smaller() {
    for (beginning, wanted) in [("selects with answer 5", &[][..]), ("writes before", &[0])] {
        let wrong = ANSWERS.into_iter().find(|(title, _)| title.starts_with(beginning));
        let (title, command) = wrong.expect("it is in the table");
        let impostor = Impostor { command, ..HONEST };
        let line = found_line(title, &impostor, Some(Kind::SoundCommand));
        let Line::Command { response, .. } = &line else { panic!("{}", line.line()) };
        assert_eq!(response, wanted, "{title}: {}", line.line());
    }
}
