//! The fresh card on which files are made, and the lines that make them.

use card::{Card, Reply, State};
use model::{bodies, Card as Decoded};

use super::source::{Source, ROOT};
use crate::arguments::Fresh;
use crate::{describe, fcp, hex, meaning};

const CREATE: u8 = 0xE0;

/// A card in memory, with what was played on it. Slots are the source's.
pub struct Target<'a> {
    source: &'a Source,
    card: Card,
    /// The directories from the root down to the current one.
    at: Vec<usize>,
    /// The current EF.
    file: Option<usize>,
    /// The files that are there.
    there: Vec<usize>,
    lines: String,
}

impl<'a> Target<'a> {
    pub fn new(source: &'a Source, fresh: &Fresh) -> Result<Target<'a>, String> {
        let card = Card::make(fresh.slots, fresh.kind, fresh.total, fresh.rule.rule());
        let card = card.map_err(|error| error.to_string())?;
        let (at, there) = (vec![ROOT], vec![ROOT]);
        Ok(Target { source, card, at, file: None, there, lines: String::new() })
    }

    /// The script's lines.
    pub fn into_lines(self) -> String {
        self.lines
    }

    /// Writes a comment.
    pub fn note(&mut self, text: &str) {
        self.lines += &format!("# {text}\n");
    }

    /// Plays a command, and writes it down if it had its effect.
    pub fn play(&mut self, command: &[u8]) -> Result<Reply, String> {
        let reply = self.card.command(command, &State::FULL).map_err(|error| error.to_string())?;
        if reply.word.is_success() {
            self.lines += &format!("{}\n", written(command));
        }
        Ok(reply)
    }

    /// Why the card refused a command, which is the last one.
    pub fn refused(&self, command: &[u8], reply: &Reply) -> String {
        meaning::refused(command, reply, &self.card, &State::FULL)
    }

    /// Whether commands would all succeed, one after the other.
    pub fn would_take(&self, commands: &[Vec<u8>]) -> Result<bool, String> {
        let mut card = self.card.clone();
        for command in commands {
            let reply = card.command(command, &State::FULL).map_err(|error| error.to_string())?;
            if !reply.word.is_success() {
                return Ok(false);
            }
        }
        Ok(true)
    }

    /// What the current EF holds.
    pub fn body(&self) -> Result<&[u8], String> {
        let card = Decoded::decode(self.card.image()).ok_or("the image cannot be read")?;
        let file = card.current_ef.ok_or("no file is current")?;
        let body = self.card.pool().get(bodies::body(card.record(file)));
        body.ok_or_else(|| "the pool cannot be read".to_string())
    }

    /// A file was made: it is there, and current.
    pub fn made(&mut self, slot: usize) {
        self.there.push(slot);
        if self.source.record(slot).is_df() {
            self.at.push(slot);
            self.file = None;
        } else {
            self.file = Some(slot);
        }
    }

    /// Whether a file was made.
    pub fn has(&self, slot: usize) -> bool {
        self.there.contains(&slot)
    }

    /// Whether a file is the current one: the current EF, else the directory.
    pub fn is_current(&self, slot: usize) -> bool {
        self.file.or(self.at.last().copied()) == Some(slot)
    }

    /// Makes a file the current one, and of a directory none of its files.
    pub fn make_current(&mut self, slot: usize) -> Result<(), String> {
        if self.is_current(slot) {
            return Ok(());
        }
        if self.source.record(slot).is_df() {
            self.reach(slot)?;
            return if self.file.is_none() { Ok(()) } else { self.select(slot) };
        }
        self.reach(self.source.parent(slot))?;
        self.select(slot)
    }

    /// Makes a directory current; one of its files may stay current. The way
    /// goes up and down the tree, or by the root where that is shorter.
    pub fn reach(&mut self, directory: usize) -> Result<(), String> {
        let path = self.source.path(directory);
        let common = self.at.iter().zip(&path).take_while(|(one, other)| one == other).count();
        let (up, down) = (self.at.len() - common, path.len() - common);
        if up + down > path.len() {
            self.select(ROOT)?;
        }
        while !path.starts_with(&self.at) {
            let [.., parent, _] = self.at.as_slice() else { break };
            self.select(*parent)?;
        }
        for below in path.into_iter().skip(self.at.len()) {
            self.select(below)?;
        }
        Ok(())
    }

    /// Selects the root, the current directory, its parent or a child: no
    /// other file of theirs has such an identifier.
    fn select(&mut self, slot: usize) -> Result<(), String> {
        let [high, low] = self.source.record(slot).identifier.to_be_bytes();
        let command = [0x00, 0xA4, 0x00, 0x0C, 0x02, high, low];
        let word = self.play(&command)?.word;
        if !word.is_success() {
            let name = describe::command(&command);
            return Err(format!("{name} is answered {word} on the fresh card"));
        }
        if self.source.record(slot).is_ef() {
            self.file = Some(slot);
            return Ok(());
        }
        self.file = None;
        match self.at.iter().position(|above| *above == slot) {
            Some(place) => self.at.truncate(place + 1),
            None => self.at.push(slot),
        }
        Ok(())
    }

    /// The descriptor that the root has.
    pub fn root_descriptor(&self) -> Result<u8, String> {
        let card = Decoded::decode(self.card.image()).ok_or("the image cannot be read")?;
        Ok(card.record(ROOT).descriptor)
    }
}

/// A command as scripts have it: the data apart, and each object of a template.
fn written(command: &[u8]) -> String {
    let (head, data) = command.split_at(command.len().min(5));
    let mut parts = vec![head];
    match data {
        [_, _, inside @ ..] if !inside.is_empty() && head.get(1) == Some(&CREATE) => {
            parts.push(&data[..2]);
            let mut left = inside;
            for (_, value) in fcp::objects(inside).unwrap_or_default() {
                let (object, after) = left.split_at(2 + value.len());
                parts.push(object);
                left = after;
            }
            parts.push(left);
        }
        _ => parts.push(data),
    }
    let parts = parts.into_iter().filter(|part| !part.is_empty());
    parts.map(hex::row).collect::<Vec<_>>().join(" ")
}

#[cfg(test)]
mod tests {
    use super::*;

    #[test]
    fn commands_are_written_in_parts() {
        for (command, told) in [
            (&[0x00, 0x04, 0x00, 0x00][..], "00040000"),
            (&[0x00, 0xA4, 0x00, 0x0C, 0x02, 0x3F, 0x00], "00A4000C02 3F00"),
            (
                &[0x00, 0xE0, 0x00, 0x00, 0x06, 0x62, 0x04, 0x82, 0x02, 0x41, 0x21],
                "00E0000006 6204 82024121",
            ),
            (&[0x00, 0xE0, 0x00, 0x00, 0x04, 0x62, 0x04, 0x82, 0x02], "00E0000004 6204 8202"),
            (&[0x00, 0xD6, 0x00, 0x00, 0x04, 0x62, 0x02, 0x82, 0x00], "00D6000004 62028200"),
        ] {
            assert_eq!(written(command), told);
        }
    }
}
