//! The pool as a second lent buffer: how long it must be, who touches it, and
//! that it stays with its image.

use card::{image_length, lent, pool_length};
use card::{Answer, Card, CommandError, Kind, MakeError, Rule, State, Word};

use crate::common::{create_open, fresh_of, noise, read, run, update, CREATE_EF};

const THREE: Kind = Kind::VERSION_3;

/// Commands of every sort, some of them none at all.
fn commands() -> Vec<Vec<u8>> {
    vec![
        CREATE_EF.to_vec(),
        read(0, 1),
        update(0, &[1]),
        vec![0x00, 0xA4, 0x00, 0x0C, 0x02, 0x3F, 0x00],
        vec![0x00, 0x04, 0x00, 0x00],
        vec![0x80, 0xA4, 0x00, 0x0C],
        vec![],
    ]
}

/// What a command gives, with the buffers after it.
fn given(
    image: &[u8],
    pool: &[u8],
    command: &[u8],
) -> (Result<Answer, CommandError>, Vec<u8>, Vec<u8>) {
    let (mut image, mut pool) = (image.to_vec(), pool.to_vec());
    let given = lent::command(&mut image, &mut pool, command, &mut [0; 256], &State::FULL);
    (given, image, pool)
}

#[test]
fn a_fresh_card_has_the_pool_of_its_total() {
    for total in [1, 63, 448] {
        let card = Card::make(8, THREE, total, Rule::OPEN).expect("a card");
        assert_eq!(card.pool(), vec![0; total as usize]);
        assert_eq!(pool_length(card.image()), Some(total as usize));
    }
    for kind in [Kind::VERSION_1, Kind::VERSION_2] {
        let card = fresh_of(kind);
        assert_eq!((card.pool(), pool_length(card.image())), (&[][..], None));
    }
    let refused = Card::make(8, THREE, 449, Rule::OPEN);
    assert_eq!(refused.err(), Some(MakeError::Total));
    assert_eq!([&[][..], b"UFT\x00\x03", &[0xFF; 99]].map(pool_length), [None; 3]);
}

#[test]
fn a_pool_of_another_length_is_refused_whatever_the_command() {
    let image = fresh_of(THREE).into_image();
    for length in [0, 1, 447, 449, 512, 65_408] {
        let pool: Vec<u8> = noise(3).take(length).collect();
        let wrong = CommandError::WrongPool { wanted: 448, given: length };
        for command in commands() {
            let wanted = (Err(wrong), image.clone(), pool.clone());
            assert_eq!(given(&image, &pool, &command), wanted, "{length}, {command:02X?}");
        }
        let refused = Card::from_parts(image.clone(), pool.clone()).expect_err("a wrong length");
        assert_eq!((refused.reason(), refused.into_parts()), (wrong, (image.clone(), pool)));
    }
}

#[test]
fn a_damaged_image_comes_before_a_wrong_pool() {
    let mut image = fresh_of(THREE).into_image();
    image[15] = 1;
    for length in [0, 447, 448] {
        let pool = vec![0xB6; length];
        let wanted = (Err(CommandError::Damaged), image.clone(), pool.clone());
        assert_eq!(given(&image, &pool, CREATE_EF), wanted);
        let refused = Card::from_parts(image.clone(), pool.clone()).expect_err("a damaged image");
        assert_eq!(refused.reason(), CommandError::Damaged);
    }
}

#[test]
fn a_wrong_pool_comes_before_a_short_response() {
    let (mut image, mut pool) = fresh_of(THREE).into_parts();
    let select = [0x00, 0xA4, 0x00, 0x04, 0x02, 0x3F, 0x00, 0x00];
    let mut answer =
        |pool: &mut [u8]| lent::command(&mut image, pool, &select, &mut [], &State::FULL);
    assert_eq!(answer(&mut pool), Err(CommandError::ShortResponse));
    let wrong = CommandError::WrongPool { wanted: 448, given: 2 };
    assert_eq!(answer(&mut [0; 2]), Err(wrong));
}

#[test]
fn without_bodies_a_pool_of_any_length_stays() {
    for kind in [Kind::VERSION_1, Kind::VERSION_2] {
        let image = fresh_of(kind).into_image();
        for command in commands() {
            let (wanted, after, _) = given(&image, &[], &command);
            for length in [1, 447, 448, 449] {
                let pool: Vec<u8> = noise(5).take(length).collect();
                let same = (wanted, after.clone(), pool.clone());
                assert_eq!(given(&image, &pool, &command), same, "{length}, {command:02X?}");
            }
        }
        let card = Card::from_parts(image.clone(), vec![0xB6; 9]).expect("any length does");
        assert_eq!(card.into_parts(), (image, vec![0xB6; 9]));
    }
}

/// The maker takes no pool, so what a fresh one holds tells nothing.
#[test]
fn a_fresh_pool_needs_no_clearing() {
    let mut image = vec![0xA5; image_length(8)];
    lent::make(&mut image, THREE, 448, Rule::OPEN).expect("a card");
    let noise: Vec<u8> = noise(9).take(448).collect();
    let mut card = Card::from_parts(image, noise.clone()).expect("a sound image");
    assert_eq!(run(&mut card, &create_open(0x6F07, 0, 9)), 0x9000);
    assert_eq!(card.pool(), [&[0xFF; 9], &noise[9..]].concat());
}

#[test]
fn image_and_pool_go_out_and_come_back() {
    let mut card = fresh_of(THREE);
    run(&mut card, &create_open(0x6F07, 0, 9));
    run(&mut card, &update(2, b"kept"));
    let (image, pool) = card.clone().into_parts();
    assert_eq!((card.image(), card.pool()), (&image[..], &pool[..]));
    let mut again = Card::from_parts(image.clone(), pool).expect("a sound card");
    assert_eq!(again, card);
    let reply = again.command(&read(2, 4), &State::FULL).expect("a sound card");
    assert_eq!((reply.word, &reply.data[..]), (Word::DONE, &b"kept"[..]));
    let without = Card::from_image(image).expect_err("its pool is missing");
    assert!(without.to_string().contains("the pool that was kept with this image"), "{without}");
}
