//! READ and UPDATE for a card at hand (02, Ticket 4): good ones, and such as
//! just miss their start, record, length or structure.

use model::descriptor::{class, Class};
use model::{Card, Record};

use crate::random::Random;

const READ_BINARY: u8 = 0xB0;
const UPDATE_BINARY: u8 = 0xD6;
const READ_RECORD: u8 = 0xB2;
const UPDATE_RECORD: u8 = 0xDC;

/// P2 of a command that has a record number in P1.
const RECORD_IN_P1: u8 = 0x04;
/// The highest start that P1 P2 can tell, and the most bytes that Le can.
const HIGHEST_START: u32 = 0x7FFF;
const MOST_READ: u32 = 256;

/// What a command asks for: P1 and P2, and how many bytes.
struct Part {
    parameters: u16,
    length: u32,
}

/// A READ or UPDATE, mostly a good one of the current EF; for any file where
/// none is current.
pub fn read_or_update(random: &mut Random, card: &Card) -> Vec<u8> {
    let slot = card.current_ef.unwrap_or_else(|| random.below(card.records.len()));
    let file = card.record(slot);
    let records = matches!(class(file.descriptor), Class::Ef(structure) if structure.has_records());
    let of_records = if random.chance(90) { records } else { !records };
    let part = match of_records {
        true => record(random, file),
        false => bytes(random, file.size.max(1)),
    };
    let [read, update] = match of_records {
        true => [READ_RECORD, UPDATE_RECORD],
        false => [READ_BINARY, UPDATE_BINARY],
    };
    if random.chance(50) {
        command(read, part.parameters, &[part.length as u8])
    } else {
        let length = part.length.clamp(1, 255) as u8;
        let data = random.bytes(length.into());
        command(update, part.parameters, &[vec![length], data].concat())
    }
}

/// Head and what follows it.
fn command(ins: u8, parameters: u16, rest: &[u8]) -> Vec<u8> {
    let [p1, p2] = parameters.to_be_bytes();
    [&[0x00, ins, p1, p2], rest].concat()
}

/// Bytes of a body: mostly inside; at its end, one past it, just reaching it,
/// just passing it; as many as Le 00 asks for.
fn bytes(random: &mut Random, size: u32) -> Part {
    let start = random.range(0, size - 1).min(HIGHEST_START);
    let left = size - start;
    let near_the_end = size.saturating_sub(random.range(1, 4)).min(HIGHEST_START);
    let (start, length) = match random.below(16) {
        0 => (size.min(HIGHEST_START), 1),
        1 => (size.saturating_add(random.pick([1, 255])).min(HIGHEST_START), 1),
        2 => (start, left + 1),
        3 => (near_the_end, size - near_the_end + 1),
        4 => (near_the_end, size - near_the_end),
        5 => (0, size),
        6 => (start, left),
        7 => (size.saturating_sub(MOST_READ).min(HIGHEST_START), MOST_READ),
        8 => (size.saturating_sub(MOST_READ - 1).min(HIGHEST_START), MOST_READ),
        9 => (start | (HIGHEST_START + 1), 1),
        _ => (start, random.range(1, left.min(255))),
    };
    // More than Le can tell, as many as it can.
    Part { parameters: start as u16, length: length.min(MOST_READ) }
}

/// A record: mostly one that is there, whole; number 0, one past the last; one
/// byte too many or too few; another P2.
fn record(random: &mut Random, file: &Record) -> Part {
    let own = u32::from(file.record_length).max(1);
    let last = (file.size / own).clamp(1, 254);
    let number = match random.below(10) {
        0 => 0,
        1 => last + 1,
        2 => random.pick([254, 255]),
        3 | 4 => last,
        5 => 1,
        _ => random.range(1, last),
    };
    let length = match random.below(10) {
        0 => own + 1,
        1 => own - 1,
        2 => MOST_READ,
        _ => own,
    };
    let p2 = if random.chance(93) { RECORD_IN_P1 } else { random.pick([0x00, 0x02, 0x05, 0x84]) };
    Part { parameters: u16::from_be_bytes([number as u8, p2]), length }
}
