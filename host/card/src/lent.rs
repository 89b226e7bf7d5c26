//! The five calls of the proved card on buffers of the caller's. They may hold
//! anything; what is not a sound image with a pool of its length is found and
//! left alone.

use crate::errors::{CommandError, Damaged, MakeError, PlaceError};
use crate::ffi;
use crate::kind::{Kind, Rule};
use crate::place::Place;
use crate::pool_length;
use crate::security::Security;
use crate::state::State;
use crate::word::Word;

/// What the report tells of the current directory.
#[derive(Clone, Copy, PartialEq, Eq, Debug)]
pub struct Report {
    /// The bytes that its direct children may take together.
    pub total: u32,
    /// What is left of the total.
    pub room: u32,
    /// How many files stand directly in it.
    pub children: u32,
    /// How many files stand beneath it, at any depth.
    pub beneath: u32,
}

/// What a command answers.
#[derive(Clone, Copy, PartialEq, Eq, Debug)]
pub struct Answer {
    /// The status word.
    pub word: Word,
    /// What is lacking where the word is 6982.
    pub security: Security,
    /// How many bytes of data stand at the start of the response.
    pub data_length: usize,
}

/// Makes a fresh card in the buffer: only the root, which is current. Its pool,
/// if it has one, may hold anything: no byte of it belongs to a body.
pub fn make(image: &mut [u8], kind: Kind, total: u32, root_rule: Rule) -> Result<(), MakeError> {
    match ffi::make(image, kind.number(), total, root_rule.form.number(), root_rule.bytes) {
        0 => Ok(()),
        2 => Err(MakeError::of_length_or_kind(image.len(), kind)),
        3 => Err(MakeError::Total),
        4 => Err(MakeError::of_rule(kind, root_rule)),
        answer => Err(MakeError::Unknown(answer)),
    }
}

/// Runs one command. The word tells whether it had its effect; after a
/// refusal, on a damaged image, with a pool of the wrong length and with a
/// response that is too short, image, pool and response are as they came.
///
/// The pool is as long as [`pool_length`] tells; where that tells nothing it may
/// have any length, also 0, and stays as it came. Only a READ and a SELECT that
/// wants the template have data; the bytes past it stay, and
/// [`crate::LONGEST_RESPONSE`] bytes are enough for it.
pub fn command(
    image: &mut [u8],
    pool: &mut [u8],
    command: &[u8],
    response: &mut [u8],
    state: &State,
) -> Result<Answer, CommandError> {
    let sets = [state.messaging, state.external, state.user];
    let (both, [written, lacking, _]) =
        ffi::command(image, pool, command, response, sets, state.channels);
    let data_length = usize::try_from(written).unwrap_or(usize::MAX);
    match both >> 16 {
        0 if data_length <= response.len() => {
            done(Word((both & 0xFFFF) as u16), lacking, data_length)
        }
        1 => Err(CommandError::Damaged),
        5 => Err(CommandError::ShortResponse),
        6 => {
            let wanted = pool_length(image).unwrap_or(0);
            Err(CommandError::WrongPool { wanted, given: pool.len() })
        }
        answer => Err(CommandError::Unknown(answer)),
    }
}

/// What answer 0 tells, with the library's number for what a refusal lacks. Only
/// a security refusal lacks anything; with another word the number means nothing
/// that is known.
fn done(word: Word, lacking: u32, data_length: usize) -> Result<Answer, CommandError> {
    let known = Security::of_number(lacking);
    let fits = |security: &Security| *security == Security::NoRefusal || word == Word::SECURITY;
    let security = known.filter(fits).ok_or(CommandError::UnknownSecurity(lacking))?;
    Ok(Answer { word, security, data_length })
}

/// Reports on the current directory.
pub fn report(image: &[u8]) -> Result<Report, Damaged> {
    match ffi::report(image) {
        (0, [total, room, children, beneath]) => Ok(Report { total, room, children, beneath }),
        _ => Err(Damaged),
    }
}

/// Where the rule that decides on the file in a slot stands; slot 0 is the
/// root's. A slot without a file, of any number, is no error. The pool is as for
/// [`command`].
pub fn rule_place(image: &[u8], pool: &[u8], slot: usize) -> Result<Place, PlaceError> {
    // No image has as many slots, so that all that is larger is past the last.
    let slot = u32::try_from(slot).unwrap_or(u32::MAX);
    match ffi::rule(image, pool, slot) {
        (0, numbers) => Place::of_numbers(numbers, image.len(), pool.len())
            .ok_or(PlaceError::UnknownPlace(numbers)),
        (1, _) => Err(PlaceError::Damaged),
        (6, _) => {
            let wanted = pool_length(image).unwrap_or(0);
            Err(PlaceError::WrongPool { wanted, given: pool.len() })
        }
        (answer, _) => Err(PlaceError::Unknown(answer)),
    }
}

/// Whether the buffer holds a sound image.
pub fn is_sound(image: &[u8]) -> bool {
    ffi::sound(image) == 1
}

#[cfg(test)]
mod tests {
    use super::*;

    /// The proved library gives no other number; one of another version might.
    #[test]
    fn a_number_that_is_not_known_is_an_error() {
        let word = Word(0x6982);
        for security in Security::ALL {
            let answer = Answer { word, security, data_length: 0 };
            assert_eq!(done(word, security.number(), 0), Ok(answer));
        }
        for number in [3, 0x0001_0000, 0x0100_0002, u32::MAX] {
            assert_eq!(done(word, number, 0), Err(CommandError::UnknownSecurity(number)));
        }
        for (number, word) in [(1, 0x9000), (2, 0x6985), (1, 0x6981)] {
            assert_eq!(done(Word(word), number, 0), Err(CommandError::UnknownSecurity(number)));
        }
        assert!(done(Word(0x6985), 0, 0).is_ok());
    }
}
