//! Temporary files beside a card's file: a name that is always short enough,
//! a lock that tells a file in use from one that a killed process left, and
//! the removal of these.

use std::fs::{self, File, OpenOptions};
use std::hash::{BuildHasher, Hasher, RandomState};
use std::io;
use std::os::unix::fs::MetadataExt;
use std::path::{Path, PathBuf};

use crate::disk::Disk;
use crate::place::Place;
use crate::system::{self, Lock};

const END: &str = ".new";
/// How many names are tried. Each is drawn at random from 2^64.
const MOST_NAMES: usize = 100;

/// A temporary file, locked by this process.
pub struct Temporary {
    pub path: PathBuf,
    pub file: File,
}

/// Makes a temporary file beside a place.
pub fn make(disk: &dyn Disk, place: &Place, mode: u32) -> io::Result<Temporary> {
    for _ in 0..MOST_NAMES {
        let random = RandomState::new().build_hasher().finish();
        let path = place.folder.join(format!("{}{random:016x}{END}", start_of_name(place)));
        let file = match disk.make(&path, mode) {
            Err(error) if error.kind() == io::ErrorKind::AlreadyExists => continue,
            made => made?,
        };
        // Until the lock was there, somebody may have taken it for a left one.
        match system::try_lock(&file, Lock::Alone).and_then(|own| Ok(own && is_at(&file, &path)?)) {
            Ok(true) => return Ok(Temporary { path, file }),
            Ok(false) => continue,
            Err(error) => {
                let _ = disk.remove(&path);
                return Err(error);
            }
        }
    }
    Err(io::Error::other("no name for a temporary file is free"))
}

/// Removes what killed processes left of saves of this place. What cannot be
/// removed stays: it is in nobody's way.
pub fn clean_up(disk: &dyn Disk, place: &Place, held: Option<&File>) {
    let start = start_of_name(place);
    let Ok(entries) = fs::read_dir(&place.folder) else { return };
    for entry in entries.flatten() {
        let name = entry.file_name();
        let name = name.to_string_lossy();
        if name.starts_with(&start) && name.ends_with(END) {
            remove_left(disk, &entry.path(), held);
        }
    }
}

/// Removes a temporary file that nobody is writing. Its lock is held until it
/// is gone: who has just made it and has no lock yet gets none, and takes
/// another name.
fn remove_left(disk: &dyn Disk, path: &Path, held: Option<&File>) {
    let Ok(found) = fs::symlink_metadata(path) else { return };
    let is_found = |file: &File| file.metadata().is_ok_and(|own| is_same(&own, &found));
    // A second name of the held file must not be opened: closing it would
    // drop the lock on that.
    if held.is_some_and(is_found) {
        let _ = disk.remove(path);
    } else if found.is_file() {
        let Ok(file) = OpenOptions::new().read(true).write(true).open(path) else { return };
        if matches!(system::try_lock(&file, Lock::Alone), Ok(true)) {
            let _ = disk.remove(path);
        }
    }
}

/// Whether a file is still what its name means.
pub fn is_at(file: &File, path: &Path) -> io::Result<bool> {
    match fs::symlink_metadata(path) {
        Err(error) if error.kind() == io::ErrorKind::NotFound => Ok(false),
        found => Ok(is_same(&file.metadata()?, &found?)),
    }
}

fn is_same(one: &fs::Metadata, other: &fs::Metadata) -> bool {
    (one.dev(), one.ino()) == (other.dev(), other.ino())
}

/// How the names of a card's temporary files begin. The card's own name may
/// be as long as any name, so that only a number made of it has room.
fn start_of_name(place: &Place) -> String {
    let name = place.path.file_name().unwrap_or_default();
    // FNV-1a: the same number in every version of the program.
    let hash = name.as_encoded_bytes().iter().fold(0xCBF2_9CE4_8422_2325_u64, |hash, byte| {
        (hash ^ u64::from(*byte)).wrapping_mul(0x0100_0000_01B3)
    });
    format!(".uicc-{hash:016x}-")
}
