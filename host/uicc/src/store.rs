//! Cards in files. `files` locks and saves; here are the card in the bytes,
//! and the words for people.
//!
//! A card is one file: its image, and behind it the pool where there are bodies.
//! Both stand in one file so that they are saved together or not at all.

use std::fs::File;
use std::io::{self, Read};
use std::path::Path;

use card::{image_length, largest_total, Card, CommandError, FEWEST_SLOTS, MOST_SLOTS};
use files::disk::Real;
use files::{Held, Saved, Trouble, Use};

use crate::describe;

/// What an image begins with.
const MARK: &[u8] = b"UFT";

/// The bytes of the longest card: its image and its pool.
fn longest() -> u64 {
    image_length(MOST_SLOTS) as u64 + u64::from(largest_total(MOST_SLOTS))
}

/// Opens the file of a card that is to be saved, and reads it. The file is
/// locked as long as it is held; where another process uses it, that is told,
/// and waited for.
pub fn open(path: &Path) -> Result<(Held, Card), String> {
    let mut held = hold(path, Use::Write).map_err(|trouble| not_opened(path, trouble))?;
    let card = card_of(path, held.read(longest() + 1))?;
    Ok((held, card))
}

/// The card of a file that is only looked at. What is no regular file, as a
/// pipe, is read once; nobody replaces it, so that it needs no lock.
pub fn look(path: &Path) -> Result<Card, String> {
    match hold(path, Use::Read) {
        Ok(mut held) => card_of(path, held.read(longest() + 1)),
        Err(Trouble::Irregular(_)) => card_of(path, read_once(path, longest() + 1)),
        Err(trouble) => Err(not_opened(path, trouble)),
    }
}

/// The bytes of a file that is not held, but no more than so many.
pub fn read_once(path: &Path, most: u64) -> io::Result<Vec<u8>> {
    let mut bytes = Vec::new();
    File::open(path)?.take(most).read_to_end(&mut bytes)?;
    Ok(bytes)
}

fn not_opened(path: &Path, trouble: Trouble) -> String {
    let name = path.display();
    match trouble {
        Trouble::Missing => format!("{name}: there is no such file; uicc new makes one"),
        _ => format!("{name}: {trouble}"),
    }
}

/// The card of the bytes that were read, if they are one.
fn card_of(path: &Path, bytes: io::Result<Vec<u8>>) -> Result<Card, String> {
    let bytes = bytes.map_err(|error| error.to_string());
    bytes.and_then(card_in).map_err(|why| format!("{}: {why}", path.display()))
}

/// The card in these bytes. Its slot count tells how long the image is; the
/// proved card then judges the image, and the pool behind it.
fn card_in(mut bytes: Vec<u8>) -> Result<Card, String> {
    let all = bytes.len();
    if all as u64 > longest() {
        return Err(format!("this is no card image: it has more than {} bytes", longest()));
    }
    if !bytes.starts_with(MARK) {
        return Err("this is no card image: it does not begin with UFT".to_string());
    }
    let [_, _, _, _, _, high, low, ..] = bytes.as_slice() else {
        return Err(format!("the file is cut: it has {all} bytes, and a header alone has 16"));
    };
    let slots = usize::from(u16::from_be_bytes([*high, *low]));
    if !(FEWEST_SLOTS..=MOST_SLOTS).contains(&slots) {
        let why = format!("its header tells {slots} slots, and a card has 2 to 1,023");
        return Err(format!("the card image is damaged: {why}"));
    }
    let length = image_length(slots);
    if all < length {
        let image = format!("an image of {slots} slots has {length} bytes");
        return Err(format!("the file is cut: {image}, and {all} are there"));
    }
    let pool = bytes.split_off(length);
    let behind = pool.len();
    let card = Card::from_parts(bytes, pool).map_err(|refused| match refused.reason() {
        CommandError::WrongPool { wanted, given } => wrong_pool(length, wanted, given),
        reason => reason.to_string(),
    })?;
    if behind > 0 && !card.kind().has_bodies() {
        let version = card.kind().version;
        let image = format!("the image of {slots} slots has {length} bytes");
        return Err(format!("{}: {image}, and version {version} has no pool", too_many(behind)));
    }
    Ok(card)
}

/// Why a file with a sound image is no card: its pool is cut, or more follows.
fn wrong_pool(image: usize, wanted: usize, given: usize) -> String {
    let pool = format!("behind the image of {image} bytes the pool has {wanted}, the root's total");
    match given.checked_sub(wanted) {
        Some(more) => format!("{}: {pool}, and {given} are there", too_many(more)),
        None => format!("the file is cut: {pool}, and {given} are there"),
    }
}

fn too_many(bytes: usize) -> String {
    format!("the file has {} too many", describe::bytes(bytes))
}

/// The bytes of a card's file: the image, and behind it the pool.
fn bytes_of(card: &Card) -> Vec<u8> {
    [card.image(), card.pool()].concat()
}

/// Puts a card in the place of the held file.
pub fn save(path: &Path, held: Held, card: &Card) -> Result<(), String> {
    told(path, held.replace(&Real, &bytes_of(card)))
}

/// Makes the file of a card; takes the place of one that is there only where
/// it is told to replace.
pub fn make(path: &Path, card: &Card, replace: bool) -> Result<(), String> {
    make_file(path, &bytes_of(card), replace)
}

/// The same for any bytes.
pub fn make_file(path: &Path, bytes: &[u8], replace: bool) -> Result<(), String> {
    loop {
        if replace {
            match hold(path, Use::Write) {
                Ok(held) => return told(path, held.replace(&Real, bytes)),
                Err(Trouble::Missing) => (),
                Err(trouble) => return told(path, Err(trouble)),
            }
        }
        match files::create(&Real, path, bytes) {
            // It came meanwhile, and is to be replaced all the same.
            Err(Trouble::Exists) if replace => (),
            made => return told(path, made),
        }
    }
}

fn hold(path: &Path, purpose: Use) -> Result<Held, Trouble> {
    Held::new(path, purpose, &mut |waits| {
        console::complain(&format!("uicc: {}: {waits}", path.display()))
    })
}

fn told(path: &Path, saved: Result<Saved, Trouble>) -> Result<(), String> {
    let name = path.display();
    match saved {
        Ok(Saved { notes }) => {
            let tell = |note| console::complain(&format!("uicc: {name} was saved; {note}"));
            notes.iter().for_each(tell);
            Ok(())
        }
        Err(Trouble::Exists) => {
            Err(format!("{name} exists already: choose another name, or replace it with --force"))
        }
        Err(trouble) => Err(format!("{name}: {trouble}: nothing was saved, the file is as it was")),
    }
}
