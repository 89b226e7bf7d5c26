//! The path of a file: the identifiers of the directories down to it.

use std::fmt;

use card::{Card, State};
use model::Card as Decoded;

use crate::fcp::Template;
use crate::meaning;

const ROOT: u16 = 0x3F00;
/// What separates the identifiers.
const BETWEEN: char = '/';

/// The identifiers below the root, the file's own the last; none for the root.
#[derive(Debug, PartialEq, Eq)]
pub struct FilePath(Vec<u16>);

impl FilePath {
    /// Reads a path as 7F10/6F07; 3F00 may stand first.
    pub fn read(text: &str) -> Result<FilePath, String> {
        let identifier = |part: &str| {
            let is_hex = part.len() == 4 && part.bytes().all(|sign| sign.is_ascii_hexdigit());
            u16::from_str_radix(part, 16).ok().filter(|_| is_hex)
        };
        let mut identifiers = Vec::new();
        for (number, part) in text.split(BETWEEN).enumerate() {
            match identifier(part) {
                Some(ROOT) if number == 0 => {}
                Some(ROOT) => return Err(format!("{text}: 3F00 can only stand first in a path")),
                Some(identifier) => identifiers.push(identifier),
                None => {
                    return Err(format!(
                        "{text}: {part:?} is no identifier: a path has some of four hex digits, \
                         with / between them, as 7F10/6F07"
                    ))
                }
            }
        }
        Ok(FilePath(identifiers))
    }

    /// Selects the file on a card, from the root down, each file by a SELECT of
    /// its own; gives the template of the last.
    ///
    /// SELECT also finds files that are not in the current directory: itself, its
    /// parent, directories beside it. A path means none of them, so that it is
    /// looked where what was selected stands.
    pub fn select(&self, card: &mut Card, state: &State) -> Result<Vec<u8>, String> {
        let mut data = select(card, ROOT, state).map_err(|why| format!("{self}: {why}"))?;
        let mut directory = ROOT;
        for &identifier in &self.0 {
            let (before, _) = current(card)?;
            data = select(card, identifier, state)
                .map_err(|why| format!("{self}: in {directory:04X}: {why}"))?;
            let (after, parent) = current(card)?;
            if parent != before || after == before {
                return Err(format!("{self}: there is no {identifier:04X} in {directory:04X}"));
            }
            directory = identifier;
        }
        let template = Template::read(&data).ok_or("SELECT answers no template")?;
        if template.is_directory() {
            return Err(format!("{self} is a directory: only files have bodies"));
        }
        Ok(data)
    }
}

impl fmt::Display for FilePath {
    fn fmt(&self, f: &mut fmt::Formatter<'_>) -> fmt::Result {
        let below = self.0.iter().map(|identifier| format!("{identifier:04X}"));
        match self.0.is_empty() {
            true => write!(f, "{ROOT:04X}"),
            false => f.write_str(&below.collect::<Vec<_>>().join("/")),
        }
    }
}

/// Selects a file by its identifier, and gives its template.
fn select(card: &mut Card, identifier: u16, state: &State) -> Result<Vec<u8>, String> {
    let [high, low] = identifier.to_be_bytes();
    let command = [0x00, 0xA4, 0x00, 0x04, 0x02, high, low, 0x00];
    let reply = card.command(&command, state).map_err(|error| error.to_string())?;
    match reply.word.is_success() {
        true => Ok(reply.data),
        false => Err(meaning::refused(&command, &reply, card, state)),
    }
}

/// The slots of what is current, an EF before its directory, and of the
/// directory that holds it.
fn current(card: &Card) -> Result<(usize, usize), String> {
    let card = Decoded::decode(card.image()).ok_or("the image cannot be read")?;
    let slot = card.current_ef.unwrap_or(card.current_df);
    Ok((slot, card.parent(slot)))
}

#[cfg(test)]
mod tests {
    use super::*;

    #[test]
    fn paths_are_read() {
        for (text, told) in [
            ("7F10/6F07", "7F10/6F07"),
            ("3F00/7F10/6F07", "7F10/6F07"),
            ("3f00/7f10/6f07", "7F10/6F07"),
            ("6F07", "6F07"),
            ("3F00", "3F00"),
        ] {
            assert_eq!(FilePath::read(text).map(|path| path.to_string()), Ok(told.to_string()));
        }
    }

    #[test]
    fn what_is_no_path_is_refused() {
        for (text, told) in [
            ("", "\"\" is no identifier"),
            ("/6F07", "\"\" is no identifier"),
            ("6F07/", "\"\" is no identifier"),
            ("7F10//6F07", "\"\" is no identifier"),
            ("6F7", "\"6F7\" is no identifier"),
            ("+F07", "\"+F07\" is no identifier"),
            ("6F070", "\"6F070\" is no identifier"),
            ("6FéF", "\"6FéF\" is no identifier"),
            ("7F10/3F00/6F07", "3F00 can only stand first"),
        ] {
            let wrong = FilePath::read(text).expect_err(text);
            assert!(wrong.contains(told), "{text}: {wrong}");
        }
    }
}
