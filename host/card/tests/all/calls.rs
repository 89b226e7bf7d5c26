//! Each call reaches the library and tells what it answers, whatever it is
//! handed.

use card::{largest_total, lent};
use card::{Card, CommandError, Damaged, Kind, MakeError, Rule, State, Word, LONGEST_RESPONSE};

use crate::common::{fresh, fresh_of, noise, run, select, CREATE_DF, CREATE_EF};

#[test]
fn the_whole_case_of_the_scope() {
    let mut card = fresh();
    assert_eq!(run(&mut card, CREATE_DF), 0x9000);
    assert_eq!(run(&mut card, CREATE_EF), 0x9000);
    assert_eq!(run(&mut card, CREATE_EF), 0x6A89);
    let report = card.report().expect("a sound card");
    assert_eq!(report, lent::Report { total: 256, room: 256 - 73, children: 1, beneath: 1 });
    assert_eq!(run(&mut card, &select(0x3F00)), 0x9000);
    let report = card.report().expect("a sound card");
    assert_eq!(report, lent::Report { total: 448, room: 128, children: 1, beneath: 2 });
    assert!(card.is_sound());
}

#[test]
fn a_refusal_leaves_the_image_and_an_effect_changes_it() {
    let mut card = fresh();
    let before = card.image().to_vec();
    assert_eq!(run(&mut card, &select(0x6F07)), 0x6A82);
    assert_eq!(card.image(), before);
    assert_eq!(run(&mut card, CREATE_EF), 0x9000);
    assert_ne!(card.image(), before);
}

#[test]
fn the_state_reaches_the_library_field_by_field() {
    // Secure messaging, external and user authentication of environment 1.
    for (condition, state) in [
        (0x41, State { messaging: 2, ..State::EMPTY }),
        (0x21, State { external: 2, ..State::EMPTY }),
        (0x11, State { user: 2, ..State::EMPTY }),
    ] {
        let rule = [0x02, condition];
        let card = Card::make(8, Kind::VERSION_1, 448, Rule::compact(&rule));
        let mut card = card.expect("a well-formed rule");
        let mut word = |state| card.command(CREATE_EF, &state).map(|reply| reply.word.0);
        let others = State {
            messaging: !state.messaging,
            external: !state.external,
            user: !state.user,
            channels: 0,
        };
        assert_eq!(word(others), Ok(0x6982), "{condition:02X}");
        let crowded = State { channels: 0b0010, ..state };
        assert_eq!(word(crowded), Ok(0x6985), "{condition:02X}");
        let basic = State { channels: 0b1111_0001, ..state };
        assert_eq!(word(basic), Ok(0x9000), "{condition:02X}");
    }
}

#[test]
fn a_command_that_fails_says_what_to_do() {
    for (error, answer, advice) in [
        (CommandError::Damaged, 1, "take an older copy"),
        (CommandError::ShortResponse, 5, "256 bytes are enough"),
        (
            CommandError::WrongPool { wanted: 448, given: 9 },
            6,
            "has 9 bytes, and this card's has 448",
        ),
        (CommandError::Unknown(9), 9, "build both anew"),
        (CommandError::UnknownSecurity(3), 0, "the unknown number 3: build both anew"),
    ] {
        assert_eq!(error.answer(), answer);
        assert!(error.to_string().contains(advice), "{error}");
    }
}

#[test]
fn a_damaged_image_is_found_and_given_back() {
    let mut image = fresh().into_image();
    image[15] = 1;
    let refused = Card::from_image(image.clone()).expect_err("header byte 15 must be 0");
    assert!(refused.to_string().contains("damaged"), "{refused}");
    assert_eq!(
        (refused.reason(), refused.into_parts()),
        (CommandError::Damaged, (image.clone(), vec![]))
    );
    assert!(!lent::is_sound(&image));
    assert_eq!(lent::report(&image), Err(Damaged));
    let before = image.clone();
    let mut response = [0xA5; LONGEST_RESPONSE];
    let refused = lent::command(&mut image, &mut [], CREATE_EF, &mut response, &State::FULL);
    assert_eq!(refused, Err(CommandError::Damaged));
    assert_eq!((image, response), (before, [0xA5; LONGEST_RESPONSE]));
}

#[test]
fn an_image_goes_out_and_comes_back() {
    let mut card = fresh();
    run(&mut card, CREATE_DF);
    let again = Card::from_image(card.clone().into_image()).expect("a sound image");
    assert_eq!(again, card);
}

#[test]
fn every_word_has_a_meaning_of_its_own() {
    let meanings: std::collections::BTreeSet<_> = Word::all().map(Word::meaning).collect();
    assert_eq!(meanings.len(), Word::all().count());
    assert_eq!(Word::all().filter(|word| word.is_success()).count(), 3);
    assert_eq!(Word(0x6F00).meaning(), "a word that this card never gives");
    assert_eq!(Word(0x6A8A).to_string(), "6A8A");
}

#[test]
fn the_largest_total_is_the_one_that_the_maker_grants() {
    for slots in [2, 3, 8, 1023] {
        let largest = largest_total(slots);
        for kind in Kind::ALL {
            let made = |total| Card::make(slots, kind, total, Rule::OPEN);
            assert!(made(largest).is_ok(), "{slots} slots, {kind:?}");
            assert_eq!(made(largest + 1).err(), Some(MakeError::Total), "{kind:?}");
        }
    }
    assert_eq!([0, 1, 1024, usize::MAX].map(largest_total), [0; 4]);
}

#[test]
fn no_bytes_make_a_call_panic() {
    for length in [0, 1, 15, 16, 17, 80, 143, 144, 208, 1040, 65_488, 65_489, 70_000] {
        for seed in 0..8 {
            let mut image: Vec<u8> = noise(seed).take(length).collect();
            if let (true, Some(mark)) = (seed % 2 == 0, image.get_mut(..3)) {
                mark.copy_from_slice(b"UFT");
            }
            let before = image.clone();
            assert!(!lent::is_sound(&image));
            assert!(lent::report(&image).is_err());
            let command: Vec<u8> = noise(seed + 99).take(length % 300).collect();
            let mut response = vec![0xA5; length % 60];
            let mut pool = vec![0xB6; length % 70];
            let refused =
                lent::command(&mut image, &mut pool, &command, &mut response, &State::FULL);
            assert_eq!(refused, Err(CommandError::Damaged));
            assert_eq!((image, response), (before, vec![0xA5; length % 60]));
            assert_eq!(pool, vec![0xB6; length % 70]);
        }
    }
}

#[test]
fn no_command_makes_a_call_panic() {
    for kind in Kind::ALL {
        let mut card = fresh_of(kind);
        run(&mut card, CREATE_EF);
        for seed in 0..2000u64 {
            let mut command: Vec<u8> = noise(seed).take((seed % 290) as usize).collect();
            if let Some(class) = command.first_mut() {
                *class = 0;
            }
            let reply = card.command(&command, &State::FULL).expect("a card stays sound");
            assert!(Word::all().any(|known| known == reply.word), "{}", reply.word);
        }
        assert!(card.is_sound());
    }
}
