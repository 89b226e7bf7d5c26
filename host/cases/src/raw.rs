//! Raw commands, and near-misses of every length, class and parameter
//! (01, "The order in which a command is judged", steps A to G).

use model::Card;

use crate::actions::{bare, delete, select, select_fcp};
use crate::bodies::read_or_update;
use crate::choices::some_identifier;
use crate::random::Random;
use crate::template::good;

/// The instructions of all versions, and some that are none.
const INSTRUCTIONS: [u8; 16] = [
    0xA4, 0xE0, 0xE4, 0x44, 0x04, 0xE8, 0xE6, 0xFE, 0xB0, 0xD6, 0xB2, 0xDC, 0x00, 0xE2, 0x20, 0xFF,
];

/// Bytes that look like a command more or less.
pub fn raw(random: &mut Random) -> Vec<u8> {
    let length = match random.below(8) {
        0 => random.below(5),
        1..=5 => random.below(20),
        6 => random.below(80),
        _ => random.range(250, 300) as usize,
    };
    let mut command = random.bytes(length);
    let head = [
        random.pick([0, 0, 0, 0, 1, 2, 3, 4, 0x80]),
        random.pick(INSTRUCTIONS),
        random.pick([0, 0, 0, 4]),
        random.pick([0, 0, 0x0C, 4]),
        random.pick([0, 1, 2, 2, 3, length.saturating_sub(5) as u8]),
    ];
    let likeness = random.below(6);
    for (place, byte) in command.iter_mut().zip(head).take(likeness) {
        *place = byte;
    }
    command
}

/// A good command of any instruction, with one thing wrong.
pub fn near_miss(random: &mut Random, card: &Card) -> Vec<u8> {
    let identifier = some_identifier(random, card);
    let mut command = match random.below(12) {
        0 => select(identifier),
        1 => select_fcp(identifier),
        2 => return near_miss_of_p2(random, identifier),
        3 => delete(identifier),
        4 | 5 => good(random, card.edition).command(),
        6 | 7 => read_or_update(random, card),
        _ => bare(random.pick([0x44, 0x04, 0xE8, 0xE6, 0xFE])),
    };
    spoil(random, &mut command);
    command
}

/// A READ or UPDATE with one thing wrong.
pub fn near_miss_of_bodies(random: &mut Random, card: &Card) -> Vec<u8> {
    let mut command = read_or_update(random, card);
    spoil(random, &mut command);
    command
}

/// A SELECT whose P2, Le or length do not fit one another.
fn near_miss_of_p2(random: &mut Random, identifier: u16) -> Vec<u8> {
    let [high, low] = identifier.to_be_bytes();
    let mut command = vec![0x00, 0xA4, 0x00, 0x04, 0x02, high, low];
    match random.below(5) {
        0 => {}
        1 => command.push(random.pick([0x01, 0x02, 0x0F, 0x35, 0x80, 0xFF])),
        2 => command.extend([0x00, random.pick([0x00, 0x01])]),
        3 => {
            command[3] = 0x0C;
            command.push(random.pick([0x00, 0x00, 0xFF]));
        }
        _ => {
            command[3] = random.pick([0x00, 0x05, 0x06, 0x08, 0x0D, 0x14, 0x84]);
            command.push(0x00);
        }
    }
    command
}

/// Makes one thing wrong in a command of at least four bytes.
fn spoil(random: &mut Random, command: &mut Vec<u8>) {
    let bit = 1u8 << random.below(8);
    match random.below(10) {
        0 => command[0] = random.pick([1, 2, 3, 4, 0x0C, 0x10, 0x40, 0x80, 0xFF]),
        1 => command[1] ^= bit,
        2 => command[2] ^= bit,
        3 => command[3] ^= bit,
        4 => match command.get_mut(4) {
            Some(lc) => *lc = random.pick([lc.wrapping_add(1), lc.wrapping_sub(1), 0, 0xFF]),
            None => command.push(0),
        },
        5 => {
            command.pop();
        }
        6 => command.push(random.byte()),
        7 => command.truncate(random.below(4)),
        8 => {
            let length = random.below(command.len());
            command.truncate(length);
        }
        _ => {
            command.truncate(4);
            let extra = random.below(4);
            let bytes = random.bytes(extra);
            command.extend(bytes);
        }
    }
}
