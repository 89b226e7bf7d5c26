//! `uicc read` and `uicc write`: bytes between a file on a card and a file of
//! the system, or a stream.

use std::path::Path;

use card::{largest_total, State, MOST_SLOTS};

use crate::arguments::{Output, STREAM};
use crate::body::{self, Part};
use crate::file_path::FilePath;
use crate::{describe, store, Done};

/// Reads a part of a file on a card, which is only looked at.
pub fn read(
    image: &Path,
    path: &FilePath,
    part: &Part,
    output: &Output,
    state: &State,
) -> Result<Done, String> {
    if let Output::File { name, .. } = output {
        must_differ(image, name)?;
    }
    let name = image.display();
    let card = store::look(image)?;
    let read = body::read(&card, path, part, state).map_err(|why| format!("{name}: {why}"))?;
    match output {
        Output::People => Ok(Done::told(read.told())),
        Output::Stream => Ok(Done::told(read.bytes())),
        Output::File { name, replace } => {
            store::make_file(name, &read.bytes(), *replace)?;
            Ok(Done::saved(format!("{}: {}\n", name.display(), read.in_short()), name))
        }
    }
}

/// Writes to a part of a file on a card, all bytes or none, and saves it. The
/// bytes are read before the card is locked, since a stream may take its time.
pub fn write(
    image: &Path,
    path: &FilePath,
    part: &Part,
    input: &Path,
    state: &State,
) -> Result<Done, String> {
    let data = bytes_of(input)?;
    let name = image.display();
    let (held, card) = store::open(image)?;
    let after = body::write(&card, path, part, &data, state)
        .map_err(|why| format!("{name}: {why}: nothing was saved, the file is as it was"))?;
    let told = format!("{name}: {path}: {} written", describe::bytes(data.len()));
    if after == card {
        return Ok(Done::told(format!("{told}\n{name} is as it was\n")));
    }
    store::save(image, held, &after)?;
    Ok(Done::saved(format!("{told}\n{name} saved\n"), image))
}

/// What is read of a card may not take the card's place.
fn must_differ(image: &Path, output: &Path) -> Result<(), String> {
    match (image.canonicalize(), output.canonicalize()) {
        (Ok(one), Ok(other)) if one == other => {
            Err(format!("{}: this is the card that is read", output.display()))
        }
        _ => Ok(()),
    }
}

/// The bytes of a file, or of standard input, but hardly more than any body has.
fn bytes_of(input: &Path) -> Result<Vec<u8>, String> {
    let most = u64::from(largest_total(MOST_SLOTS));
    let (name, bytes) = match input.to_str() {
        Some(STREAM) => ("standard input".to_string(), console::input()),
        _ => (input.display().to_string(), store::read_once(input, most + 1)),
    };
    let bytes = bytes.map_err(|error| format!("{name}: {error}"))?;
    if bytes.len() as u64 > most {
        return Err(format!("{name}: this has more than {most} bytes, and no body has as many"));
    }
    Ok(bytes)
}
