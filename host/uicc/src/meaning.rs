//! What a status word says of a command, in words that fit it.

use card::{Card, Kind, Reply, Security, State, Word};

use crate::pieces::{
    LAST_START, READ_BINARY, READ_MOST, READ_RECORD, UPDATE_BINARY, UPDATE_RECORD,
};
use crate::{describe, refusal};

/// The basic channel's class; others are refused before all else.
const BASIC: u8 = 0x00;

/// The word's meaning. For READ and UPDATE it names what was asked for, and where
/// security refused, it says whether anything opens it.
pub fn of(command: &[u8], reply: &Reply, kind: Kind) -> String {
    let word = reply.word;
    match reply.security {
        Security::NoRefusal => own(command, word, kind),
        security => Some(format!("{}: {}", in_short(word), security.meaning())),
    }
    .unwrap_or_else(|| word.meaning().to_string())
}

/// A refusal as a sentence without an end, by the card that refused, in a state.
/// It is as it was, so that the rules that were asked stand there.
pub fn refused(command: &[u8], reply: &Reply, card: &Card, state: &State) -> String {
    let (name, word) = (describe::command(command), reply.word);
    let why = of(command, reply, card.kind());
    let rules = match word {
        Word::SECURITY => refusal::in_short(command, card, state),
        _ => String::new(),
    };
    format!("{name} is answered {word}, {why}{rules}")
}

fn own(command: &[u8], word: Word, kind: Kind) -> Option<String> {
    let [BASIC, instruction, first, second, rest @ ..] = command else { return None };
    let (verb, binary) = match *instruction {
        READ_BINARY => ("READ", true),
        READ_RECORD => ("READ", false),
        UPDATE_BINARY => ("UPDATE", true),
        UPDATE_RECORD => ("UPDATE", false),
        _ => return None,
    };
    let start = u16::from_be_bytes([*first, *second]);
    let why = match word.0 {
        0x6700 => wrong_length(rest, verb == "READ", binary.then_some(usize::from(start))),
        0x6981 if binary => format!("the file has records: {verb} RECORD is for it"),
        0x6981 => format!("the file has no records: {verb} BINARY is for it"),
        0x6985 => "the file is not activated, or a directory above it is terminated".to_string(),
        0x6986 => "SELECT one first".to_string(),
        0x6A83 if *first == 0 => "records count from 1".to_string(),
        0x6A83 => format!("the file ends before record {first}"),
        0x6B00 if binary && usize::from(start) > LAST_START => "a start is below 8000".to_string(),
        0x6B00 if binary => format!("the file ends before byte {start}"),
        0x6B00 => "P2 must be 04".to_string(),
        0x6D00 => format!("files of a card of version {} have no bodies", kind.version),
        _ => return None,
    };
    Some(format!("{}: {why}", in_short(word)))
}

/// Why 6700, from what follows P1 and P2: the command has no length of its kind,
/// or asks for more than the file has. Without a start it is about a record.
fn wrong_length(rest: &[u8], reads: bool, start: Option<usize>) -> String {
    let many = match rest {
        [0] if reads => READ_MOST,
        [le] if reads => usize::from(*le),
        [lc, data @ ..] if !reads && !data.is_empty() && usize::from(*lc) == data.len() => {
            data.len()
        }
        _ => return "the command is too short or too long".to_string(),
    };
    match start {
        Some(start) => format!("the file has fewer than {} bytes", start + many),
        None => format!("no record of the file has {}", describe::bytes(many)),
    }
}

/// The word's meaning without what it says of other commands.
fn in_short(word: Word) -> &'static str {
    word.meaning().split(':').next().unwrap_or_default()
}

#[cfg(test)]
mod tests {
    use super::*;

    fn told(command: &[u8], word: u16) -> String {
        told_of(command, word, Kind::VERSION_3)
    }

    fn told_of(command: &[u8], word: u16, kind: Kind) -> String {
        let reply = Reply { word: Word(word), security: Security::NoRefusal, data: Vec::new() };
        of(command, &reply, kind)
    }

    #[test]
    fn words_fit_the_command() {
        let read: &[u8] = &[0x00, 0xB0, 0x01, 0x00, 0x00];
        let update: &[u8] = &[0x00, 0xD6, 0x00, 0x02, 0x01, 0x41];
        let read_record: &[u8] = &[0x00, 0xB2, 0x03, 0x04, 0x0A];
        let update_record: &[u8] = &[0x00, 0xDC, 0x00, 0x04, 0x01, 0x41];
        let broken: &[u8] = &[0x00, 0xD6, 0x00, 0x00, 0x02, 0x41];
        for (command, word, words) in [
            (read, 0x9000, "done"),
            (read, 0x6700, "wrong length: the file has fewer than 512 bytes"),
            (update, 0x6700, "wrong length: the file has fewer than 3 bytes"),
            (read_record, 0x6700, "wrong length: no record of the file has 10 bytes"),
            (broken, 0x6700, "wrong length: the command is too short or too long"),
            (read, 0x6981, "wrong structure: the file has records: READ RECORD is for it"),
            (update, 0x6981, "wrong structure: the file has records: UPDATE RECORD is for it"),
            (
                read_record,
                0x6981,
                "wrong structure: the file has no records: READ BINARY is for it",
            ),
            (update_record, 0x6986, "no current EF: SELECT one first"),
            (update_record, 0x6A83, "record not found: records count from 1"),
            (read_record, 0x6A83, "record not found: the file ends before record 3"),
            (read, 0x6B00, "wrong parameters P1 P2: the file ends before byte 256"),
            (
                &[0x00, 0xB0, 0x80, 0x00, 0x01],
                0x6B00,
                "wrong parameters P1 P2: a start is below 8000",
            ),
            (&[0x00, 0xB2, 0x01, 0x02, 0x01], 0x6B00, "wrong parameters P1 P2: P2 must be 04"),
            (&[0x00, 0xE8, 0x00, 0x00], 0x6986, "no current EF"),
            (&[0x00, 0xA4, 0x01, 0x0C], 0x6B00, "wrong parameters P1 P2"),
        ] {
            assert_eq!(told(command, word), words, "{command:02X?}");
        }
        let life = "the file is not activated, or a directory above it is terminated";
        assert_eq!(told(update, 0x6985), format!("conditions of use not satisfied: {life}"));
        let old = told_of(read, 0x6D00, Kind::VERSION_1);
        assert_eq!(old, "unknown instruction: files of a card of version 1 have no bodies");
    }

    /// A refusal by security says what the card told of it.
    #[test]
    fn what_security_lacks_is_told() {
        for (security, words) in [
            (Security::Lacking, "lacking, more authentication opens the rule"),
            (Security::Closed, "closed, no authentication opens the rule"),
            (Security::NoRefusal, "no access rule allows this"),
        ] {
            let reply = Reply { word: Word::SECURITY, security, data: Vec::new() };
            let told = of(&[0x00, 0xB0, 0x00, 0x00, 0x01], &reply, Kind::VERSION_3);
            assert_eq!(told, format!("security status not satisfied: {words}"));
        }
    }

    /// Every word of every instruction has words, however broken the command.
    #[test]
    fn no_command_is_without_words() {
        for instruction in 0..=0xFF {
            for length in 0..8 {
                let command: Vec<u8> =
                    [0x00, instruction, 0xFF, 0x04, 0x01, 0x41, 0x41, 0x41][..length].to_vec();
                for word in Word::all() {
                    assert!(told(&command, word.0).starts_with(in_short(word)), "{command:02X?}");
                }
            }
        }
    }
}
