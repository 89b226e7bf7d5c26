//! Words: the name of a command with the file that it names, kinds of files,
//! life cycles.

use card::Form;
use model::descriptor::{class, Class, Structure};
use model::ledger::announced;

use crate::pieces::{READ_BINARY, READ_RECORD, UPDATE_BINARY, UPDATE_RECORD};

/// The commands that the card knows.
const NAMES: [(u8, &str); 12] = [
    (0xA4, "SELECT"),
    (READ_BINARY, "READ BINARY"),
    (READ_RECORD, "READ RECORD"),
    (UPDATE_BINARY, "UPDATE BINARY"),
    (UPDATE_RECORD, "UPDATE RECORD"),
    (0xE0, "CREATE FILE"),
    (0xE4, "DELETE FILE"),
    (0x44, "ACTIVATE FILE"),
    (0x04, "DEACTIVATE FILE"),
    (0xE8, "TERMINATE EF"),
    (0xE6, "TERMINATE DF"),
    (0xFE, "TERMINATE CARD USAGE"),
];

/// What the command is, whether or not it is well formed.
pub fn command(bytes: &[u8]) -> String {
    let Some(&instruction) = bytes.get(1) else {
        return "(too short)".to_string();
    };
    let Some((_, name)) = NAMES.iter().find(|(known, _)| *known == instruction) else {
        return format!("(unknown INS {instruction:02X})");
    };
    let named = match (instruction, bytes) {
        (0xA4 | 0xE4, [_, _, _, _, 2, high, low]) | (0xA4, [_, _, _, _, 2, high, low, _]) => {
            Some(identifier(u16::from_be_bytes([*high, *low])))
        }
        (0xE0, _) => announced(bytes).map(|file| identifier(file.identifier)),
        (READ_BINARY, [_, _, high @ 0..=0x7F, low, ..]) => Some(from(*high, *low)),
        (UPDATE_BINARY, [_, _, high @ 0..=0x7F, low, lc, data @ ..]) => {
            let whole = usize::from(*lc) == data.len() && !data.is_empty();
            let data =
                if whole { format!(" ({})", self::bytes(data.len())) } else { String::new() };
            Some(from(*high, *low) + &data)
        }
        (READ_RECORD | UPDATE_RECORD, [_, _, number, 0x04, ..]) => Some(number.to_string()),
        _ => None,
    };
    match named {
        Some(named) => format!("{name} {named}"),
        None => name.to_string(),
    }
}

fn identifier(identifier: u16) -> String {
    format!("{identifier:04X}")
}

fn from(high: u8, low: u8) -> String {
    format!("from {}", u16::from_be_bytes([high, low]))
}

/// Several words as people list them: one, two and three.
pub fn list(words: &[String], last: &str) -> String {
    match words {
        [before @ .., end] if !before.is_empty() => format!("{} {last} {end}", before.join(", ")),
        _ => words.concat(),
    }
}

/// How a rule is written.
pub fn form(form: Form) -> &'static str {
    match form {
        Form::Compact => "compact rule (8C)",
        Form::Expanded => "expanded rule (AB)",
        Form::Referred => "referred rule (8B)",
    }
}

/// So many bytes.
pub fn bytes(many: usize) -> String {
    match many {
        0 => "no byte".to_string(),
        1 => "1 byte".to_string(),
        _ => format!("{many} bytes"),
    }
}

/// What a descriptor byte describes: a directory, or the structure of a file.
pub fn kind(descriptor: u8) -> &'static str {
    match class(descriptor) {
        Class::Df => "directory",
        Class::Ef(Structure::Transparent) => "transparent",
        Class::Ef(Structure::LinearFixed) => "linear fixed",
        Class::Ef(Structure::Cyclic) => "cyclic",
        Class::Neither => "unknown",
    }
}

/// The same without the structure: b6 to b4 tell working files from internal
/// ones.
pub fn kind_of_file(descriptor: u8) -> &'static str {
    match (class(descriptor), descriptor >> 3 & 0b111) {
        (Class::Df, _) => "directory",
        (Class::Ef(_), 0) => "working EF",
        (Class::Ef(_), _) => "internal EF",
        (Class::Neither, _) => "unknown",
    }
}

/// What a life-cycle byte says. 06 and 07 come from a CREATE FILE that sent
/// them and go with the next change, so they are told apart from 04 and 05.
pub fn life_cycle(byte: u8) -> String {
    match byte {
        0x06 | 0x07 => life_cycle_and_byte(byte),
        _ => life_class(byte).to_string(),
    }
}

/// What a life-cycle byte says, always with the byte.
pub fn life_cycle_and_byte(byte: u8) -> String {
    format!("{} ({byte:02X})", life_class(byte))
}

fn life_class(byte: u8) -> &'static str {
    match byte {
        0x01 => "creation",
        0x03 => "initialisation",
        0x04 | 0x06 => "deactivated",
        0x05 | 0x07 => "activated",
        0x0C => "terminated",
        _ => "unknown",
    }
}

#[cfg(test)]
mod tests {
    use super::*;

    /// Exactly the bytes that a card may hold have words, and each its own.
    #[test]
    fn life_cycles_have_words() {
        let told: Vec<_> = (0..=0xFF).filter(|&byte| life_cycle(byte) != "unknown").collect();
        assert_eq!(told, [0x01, 0x03, 0x04, 0x05, 0x06, 0x07, 0x0C]);
        let words: std::collections::BTreeSet<_> =
            told.iter().map(|&byte| life_cycle(byte)).collect();
        assert_eq!(words.len(), told.len(), "{words:?}");
        for (byte, class) in [(0x06, "deactivated"), (0x07, "activated")] {
            assert_eq!(life_cycle(byte), format!("{class} ({byte:02X})"));
            assert_eq!(life_cycle(byte & !0x02), class);
            assert_eq!(life_cycle_and_byte(byte), life_cycle(byte));
        }
        assert_eq!(life_cycle_and_byte(0x0C), "terminated (0C)");
    }

    #[test]
    fn lists_are_read_aloud() {
        let list = |words: &[&str]| {
            list(&words.iter().map(|word| word.to_string()).collect::<Vec<_>>(), "and")
        };
        assert_eq!(list(&[]), "");
        assert_eq!(list(&["1"]), "1");
        assert_eq!(list(&["1", "2"]), "1 and 2");
        assert_eq!(list(&["1", "2", "3"]), "1, 2 and 3");
    }

    #[test]
    fn kinds_have_words() {
        for (descriptor, words, without_structure) in [
            (0x38, "directory", "directory"),
            (0x41, "transparent", "working EF"),
            (0x49, "transparent", "internal EF"),
            (0x02, "linear fixed", "working EF"),
            (0x0E, "cyclic", "internal EF"),
            (0x79, "unknown", "unknown"),
        ] {
            assert_eq!((kind(descriptor), kind_of_file(descriptor)), (words, without_structure));
        }
    }

    #[test]
    fn commands_have_names_however_broken() {
        for (bytes, name) in [
            (&[0x00, 0xA4, 0x00, 0x0C, 0x02, 0x6F, 0x07][..], "SELECT 6F07"),
            (&[0x00, 0xA4, 0x00, 0x04, 0x02, 0x6F, 0x07, 0x00], "SELECT 6F07"),
            (&[0x00, 0xE4, 0x00, 0x00, 0x02, 0x6F, 0x07, 0x00], "DELETE FILE"),
            (&[0x00, 0xA4, 0x00, 0x0C, 0x02, 0x6F], "SELECT"),
            (&[0x00, 0xE0, 0x00, 0x00], "CREATE FILE"),
            (&[0x00, 0xFE, 0x00, 0x00], "TERMINATE CARD USAGE"),
            (&[0x00, 0xB0], "READ BINARY"),
            (&[0x00, 0xB0, 0x01, 0x00, 0x00], "READ BINARY from 256"),
            (&[0x00, 0xB0, 0x80, 0x00, 0x00], "READ BINARY"),
            (&[0x00, 0xD6, 0x00, 0x03, 0x01, 0x41], "UPDATE BINARY from 3 (1 byte)"),
            (&[0x00, 0xD6, 0x00, 0x03, 0x02, 0x41, 0x42], "UPDATE BINARY from 3 (2 bytes)"),
            (&[0x00, 0xD6, 0x00, 0x03, 0x03, 0x41], "UPDATE BINARY from 3"),
            (&[0x00, 0xD6, 0x00, 0x03], "UPDATE BINARY"),
            (&[0x00, 0xB2, 0x02, 0x04, 0x09], "READ RECORD 2"),
            (&[0x00, 0xB2, 0x02, 0x02, 0x09], "READ RECORD"),
            (&[0x00, 0xDC, 0xFF, 0x04, 0x01, 0x41], "UPDATE RECORD 255"),
            (&[0x00, 0xB1], "(unknown INS B1)"),
            (&[0x00], "(too short)"),
        ] {
            assert_eq!(command(bytes), name);
        }
    }
}
