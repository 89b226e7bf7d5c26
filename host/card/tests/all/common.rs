//! A card to try things on, and commands for it.

use card::{Answer, Card, Kind, Rule, Security, State, Word};

/// CREATE of the DF 7F10 with a total of 256.
pub const CREATE_DF: &[u8] = &[
    0x00, 0xE0, 0x00, 0x00, 0x19, 0x62, 0x17, 0x82, 0x02, 0x78, 0x21, 0x83, 0x02, 0x7F, 0x10, 0x8A,
    0x01, 0x05, 0x8C, 0x03, 0x06, 0x00, 0x00, 0x81, 0x02, 0x01, 0x00, 0xC6, 0x01, 0x00,
];

/// CREATE of the EF 6F07 of 9 bytes.
pub const CREATE_EF: &[u8] = &[
    0x00, 0xE0, 0x00, 0x00, 0x15, 0x62, 0x13, 0x82, 0x02, 0x41, 0x21, 0x83, 0x02, 0x6F, 0x07, 0x8A,
    0x01, 0x05, 0x8C, 0x02, 0x01, 0x00, 0x80, 0x02, 0x00, 0x09,
];

/// SELECT of a file without its template.
pub fn select(identifier: u16) -> Vec<u8> {
    let [high, low] = identifier.to_be_bytes();
    vec![0x00, 0xA4, 0x00, 0x0C, 0x02, high, low]
}

/// SELECT of a file with its template.
pub fn select_told(identifier: u16) -> Vec<u8> {
    let [high, low] = identifier.to_be_bytes();
    vec![0x00, 0xA4, 0x00, 0x04, 0x02, high, low, 0x00]
}

/// READ BINARY of so many bytes from a start on.
pub fn read(start: u16, length: u8) -> Vec<u8> {
    let [high, low] = start.to_be_bytes();
    vec![0x00, 0xB0, high, low, length]
}

/// UPDATE BINARY from a start on.
pub fn update(start: u16, data: &[u8]) -> Vec<u8> {
    let [high, low] = start.to_be_bytes();
    [&[0x00, 0xD6, high, low, data.len() as u8], data].concat()
}

/// READ RECORD.
pub fn read_record(number: u8, length: u8) -> Vec<u8> {
    vec![0x00, 0xB2, number, 0x04, length]
}

/// UPDATE RECORD.
pub fn update_record(number: u8, data: &[u8]) -> Vec<u8> {
    [&[0x00, 0xDC, number, 0x04, data.len() as u8], data].concat()
}

/// CREATE of an EF with every right: transparent, or linear fixed where it has
/// a record length.
pub fn create_open(identifier: u16, record_length: u8, size: u16) -> Vec<u8> {
    let ([i1, i0], [s1, s0]) = (identifier.to_be_bytes(), size.to_be_bytes());
    let descriptor = match record_length {
        0 => vec![0x82, 2, 0x41, 0x21],
        _ => vec![0x82, 4, 0x42, 0x21, 0x00, record_length],
    };
    let rest =
        [0x83, 2, i1, i0, 0x8A, 1, 0x05, 0x8C, 8, 0x7F, 0, 0, 0, 0, 0, 0, 0, 0x80, 2, s1, s0];
    let objects = [&descriptor[..], &rest].concat();
    create(&[&[0x62, objects.len() as u8], &objects[..]].concat())
}

/// An open card of a kind.
pub fn fresh_of(kind: Kind) -> Card {
    Card::make(8, kind, 448, Rule::OPEN).expect("a card that the maker grants")
}

pub fn fresh() -> Card {
    fresh_of(Kind::VERSION_1)
}

/// CREATE around data.
pub fn create(data: &[u8]) -> Vec<u8> {
    [&[0x00, 0xE0, 0x00, 0x00, data.len() as u8], data].concat()
}

/// The data of CREATE: a directory's template with a C6 behind 81.
pub fn with_c6(template: &[u8]) -> Vec<u8> {
    let mut data = [template, &[0xC6, 1, 0x00]].concat();
    data[1] += 3;
    data
}

/// What a command answers that is done, with so many bytes of data.
pub fn done(data_length: usize) -> Answer {
    Answer { word: Word::DONE, security: Security::NoRefusal, data_length }
}

/// What SELECT with 04 gives.
pub fn told(card: &mut Card, identifier: u16) -> (u16, Vec<u8>) {
    let reply = card.command(&select_told(identifier), &State::EMPTY).expect("a sound card");
    (reply.word.0, reply.data)
}

/// The word of a command that has no data.
pub fn run(card: &mut Card, command: &[u8]) -> u16 {
    let reply = card.command(command, &State::FULL).expect("a sound card");
    assert_eq!(reply.data, [], "{command:02X?}");
    reply.word.0
}

/// Bytes without a pattern, the same in every run.
pub fn noise(seed: u64) -> impl Iterator<Item = u8> {
    let mut state = seed.wrapping_mul(0x9E37_79B9_7F4A_7C15) | 1;
    std::iter::repeat_with(move || {
        state ^= state << 13;
        state ^= state >> 7;
        state ^= state << 17;
        state.to_be_bytes()[0]
    })
}
