//! A file's body, read and written by commands from the command line. Where a
//! command is refused, its word is told, and nothing was done.

use card::{Card, State};
use model::descriptor::{class, Class};

use crate::fcp::Template;
use crate::file_path::FilePath;
use crate::pieces::{self, Piece, LAST_START, READ_MOST, UPDATE_MOST};
use crate::{describe, dump, meaning};

/// The part of a body that is meant.
#[derive(Debug, PartialEq, Eq)]
pub enum Part {
    /// All of it, or for `write` as much as there are bytes for.
    Whole,
    /// Bytes from one on; to the end where there is no count.
    Bytes {
        from: usize,
        count: Option<usize>,
    },
    Record(u8),
}

/// A file that is selected on a copy of a card. SELECT changes what is current,
/// and neither reading nor writing a file from the command line shall; so the
/// card itself is only looked at.
struct Selected<'a> {
    card: Card,
    path: &'a FilePath,
    state: &'a State,
    descriptor: u8,
    size: usize,
    /// 0 where the file has no records.
    record_length: usize,
}

/// What was read.
pub struct Contents {
    /// What the file is, in a few words.
    title: String,
    /// The pieces as they came, each with what it is.
    parts: Vec<(Piece, Vec<u8>)>,
}

/// Reads a part of a file.
pub fn read(card: &Card, path: &FilePath, part: &Part, state: &State) -> Result<Contents, String> {
    let mut file = Selected::new(card, path, state)?;
    let pieces = file.pieces(part, READ_MOST, None)?;
    let mut parts = Vec::new();
    for piece in pieces {
        let data = file.play(&piece.read())?;
        parts.push((piece, data));
    }
    Ok(Contents { title: file.title(), parts })
}

/// The card after these bytes were written to a part of a file.
///
/// UPDATE changes nothing but the pool. So the pool is taken from the copy on
/// which the file was selected and updated, and the image from the card: every
/// byte of it stays, what is current too.
pub fn write(
    card: &Card,
    path: &FilePath,
    part: &Part,
    data: &[u8],
    state: &State,
) -> Result<Card, String> {
    let mut file = Selected::new(card, path, state)?;
    file.must_take(part, data.len())?;
    let mut left = data;
    for piece in file.pieces(part, UPDATE_MOST, Some(data.len()))? {
        let (now, after) = left.split_at(piece.length().min(left.len()));
        let at = data.len() - left.len();
        file.play(&piece.update(now))
            .map_err(|why| format!("{why} (at byte {at} of the input)"))?;
        left = after;
    }
    let (_, pool) = file.card.into_parts();
    Card::from_parts(card.image().to_vec(), pool).map_err(|refused| refused.to_string())
}

impl<'a> Selected<'a> {
    fn new(card: &Card, path: &'a FilePath, state: &'a State) -> Result<Selected<'a>, String> {
        let mut card = card.clone();
        let data = path.select(&mut card, state)?;
        let template = Template::read(&data).ok_or("SELECT answers no template")?;
        let whole = |number: u32| usize::try_from(number).unwrap_or(usize::MAX);
        let (size, record_length) = (whole(template.size), whole(template.record_length));
        Ok(Selected { card, path, state, descriptor: template.descriptor, size, record_length })
    }

    fn title(&self) -> String {
        let (path, kind, size) = (self.path, describe::kind(self.descriptor), self.size);
        match size.checked_div(self.record_length) {
            None => format!("{path}: {kind}, {}", describe::bytes(size)),
            Some(many) => {
                let records = if many == 1 { "record" } else { "records" };
                let length = describe::bytes(self.record_length);
                format!("{path}: {kind}, {many} {records} of {length}")
            }
        }
    }

    fn has_records(&self) -> bool {
        matches!(class(self.descriptor), Class::Ef(structure) if structure.has_records())
    }

    /// Plays a command that must succeed, and gives its data.
    fn play(&mut self, command: &[u8]) -> Result<Vec<u8>, String> {
        let reply = self.card.command(command, self.state);
        let reply = reply.map_err(|error| format!("{}: {error}", self.path))?;
        if reply.word.is_success() {
            return Ok(reply.data);
        }
        let why = meaning::refused(command, &reply, &self.card, self.state);
        Err(format!("{}: {why}", self.path))
    }

    /// The pieces of a part: as many as there are bytes for, else all. Where
    /// there is nothing, one byte is asked for, so that the card says why.
    fn pieces(&self, part: &Part, most: usize, given: Option<usize>) -> Result<Vec<Piece>, String> {
        let (from, wanted) = match part {
            Part::Record(number) => {
                let length = given.unwrap_or(self.record_length.max(1));
                return Ok(vec![Piece::Record { number: *number, length }]);
            }
            Part::Whole if self.has_records() => {
                let many = given.unwrap_or(self.size) / self.record_length.max(1);
                return Ok(pieces::of_records(many, self.record_length));
            }
            Part::Whole => (0, given),
            Part::Bytes { from, count } => (*from, given.or(*count)),
        };
        let wanted = wanted.unwrap_or(self.size.saturating_sub(from).max(1));
        pieces::of_bytes(from..from.saturating_add(wanted), most).map_err(|byte| {
            format!(
                "{}: no command reaches byte {byte}: READ BINARY and UPDATE BINARY start at byte \
                 {LAST_START} or before it and take at most {most} bytes",
                self.path
            )
        })
    }

    /// Refuses more bytes than fit, before anything is written. What the card
    /// refuses anyway, it shall.
    fn must_take(&self, part: &Part, given: usize) -> Result<(), String> {
        let (path, length, size) = (self.path, self.record_length, self.size);
        let told = describe::bytes(given);
        let (place, room) = match part {
            _ if given == 0 => return Err(format!("{path}: there is no byte to write")),
            _ if !self.card.kind().has_bodies() => return Ok(()),
            Part::Record(number) if self.has_records() && given != length => {
                let wanted = describe::bytes(length);
                return Err(format!("{path}: record {number} has {wanted}, and {told} are given"));
            }
            Part::Record(_) => return Ok(()),
            Part::Whole if self.has_records() && given % length.max(1) != 0 => {
                let wanted = describe::bytes(length);
                return Err(format!(
                    "{path}: its records have {wanted}, and {told} are no whole number of them"
                ));
            }
            Part::Whole => (String::new(), size),
            Part::Bytes { from, .. } if *from >= size => return Ok(()),
            Part::Bytes { from, .. } => (format!(" from byte {from} on"), size - from),
        };
        if given > room {
            let room = describe::bytes(room);
            return Err(format!("{path}: {told} are given, and it has {room}{place}"));
        }
        Ok(())
    }
}

impl Contents {
    /// The bytes as they are.
    pub fn bytes(&self) -> Vec<u8> {
        self.parts.iter().flat_map(|(_, data)| data.clone()).collect()
    }

    /// How many bytes, of what.
    pub fn in_short(&self) -> String {
        format!("{} of {}", describe::bytes(self.bytes().len()), self.title)
    }

    /// The file, and below it what it holds, in hex and characters.
    pub fn told(&self) -> String {
        let mut told = format!("{}\n", self.title);
        let mut first = None;
        for (piece, data) in &self.parts {
            match piece {
                Piece::Bytes { start, .. } => first = first.or(Some(usize::from(*start))),
                Piece::Record { number, .. } => {
                    told += &format!("record {number}\n");
                    told += &dump::below(data, 0);
                }
            }
        }
        first.map_or(told.clone(), |first| told + &dump::below(&self.bytes(), first))
    }
}
