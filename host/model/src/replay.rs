//! The replay program's reading and writing: 01, "Both sides of each line",
//! the paragraph "Replay". The caller connects standard input and output.

use crate::answers::DONE;
use crate::bytes::{number16, number32, part, rest};
use crate::card::{HEADER_BYTES, MOST_SLOTS};
use crate::command::command;
use crate::edition::Edition;
use crate::fcp;
use crate::maker::make;
use crate::record::RECORD_BYTES;
use crate::rule::Form;
use crate::security::State;

/// Longest input that is looked at.
pub const MOST_BYTES: usize = 32_768;
/// The root's rule: everything always.
pub const ROOT_RULE: [u8; 8] = [0x7F, 0, 0, 0, 0, 0, 0, 0];

const MARK: &[u8] = b"UFS";
const STREAM_HEADER_BYTES: usize = 11;

/// What the replay program prints for what stands on its standard input.
pub fn replay(input: &[u8]) -> Vec<u8> {
    if input.len() > MOST_BYTES {
        return b"BIG\n".to_vec();
    }
    match fresh_image(input) {
        None => b"BAD\n".to_vec(),
        Some(mut image) => run_commands(&mut image, rest(input, STREAM_HEADER_BYTES)),
    }
}

/// The card that the stream's header asks for; nothing if the header is bad
/// or the maker refuses.
fn fresh_image(input: &[u8]) -> Option<Vec<u8>> {
    let header = part(input, 0, STREAM_HEADER_BYTES)?;
    let known =
        part(header, 0, 3)? == MARK && number16(header, 3) == Edition::BASE.version_number();
    let slots = usize::from(number16(header, 5));
    if !known || slots > MOST_SLOTS {
        return None;
    }
    let mut image = vec![0; HEADER_BYTES + RECORD_BYTES * slots];
    let version = u32::from(Edition::BASE.version_number());
    let form = u32::from(Form::Compact.number());
    let answer = make(&mut image, version, number32(header, 7), form, &ROOT_RULE);
    (answer == DONE).then_some(image)
}

/// One line a command; `CUT` as the last line where a command or its length
/// is cut short. The response buffer is long enough for every template, so
/// that each line is a word; a card of its version needs no pool.
fn run_commands(image: &mut [u8], stream: &[u8]) -> Vec<u8> {
    let mut response = [0; fcp::MOST_BYTES];
    let mut out = Vec::new();
    let mut left = stream;
    while !left.is_empty() {
        let Some((bytes, after)) = next_command(left) else {
            out.extend(b"CUT\n");
            break;
        };
        let outcome = command(image, &mut [], bytes, &mut response, &State::FULL);
        out.extend(format!("{:04X}\n", outcome.word).bytes());
        left = after;
    }
    out
}

/// The next command and what follows it.
fn next_command(stream: &[u8]) -> Option<(&[u8], &[u8])> {
    let length = usize::from(number16(part(stream, 0, 2)?, 0));
    let bytes = part(stream, 2, length)?;
    Some((bytes, rest(stream, length.saturating_add(2))))
}
