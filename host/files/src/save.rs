//! Saving: the new bytes go to a temporary file beside the old one, and only
//! when they are on the disk, with the old file's owner, group and mode, does
//! it take the old file's name.

use std::fs::{File, Metadata};
use std::io;
use std::os::unix::fs::MetadataExt;
use std::path::Path;

use crate::disk::Disk;
use crate::place::{self, Place};
use crate::temporary::{self, is_at, Temporary};
use crate::Trouble;

/// The bits of a mode that are permissions.
const PERMISSIONS: u32 = 0o7777;
/// Until it has the old file's owner, a temporary file is nobody else's.
const OWN: u32 = 0o600;
/// A file that takes no other's place; the system takes from it what the
/// user's mask says.
const FRESH: u32 = 0o666;

/// The file is saved; this is what the user should still know about it.
#[derive(Debug, Default, PartialEq, Eq)]
pub struct Saved {
    /// Sentences without an end.
    pub notes: Vec<String>,
}

/// Makes a file of a name that nobody has.
pub fn create(disk: &dyn Disk, name: &Path, bytes: &[u8]) -> Result<Saved, Trouble> {
    let place = place::find(name)?;
    if place.there.is_some() {
        return Err(Trouble::Exists);
    }
    temporary::clean_up(disk, &place, None);
    put(disk, &place, bytes, None)
}

/// Replaces a file that is held.
pub fn replace(
    disk: &dyn Disk,
    place: &Place,
    held: &File,
    bytes: &[u8],
) -> Result<Saved, Trouble> {
    let tell = |error: io::Error| Trouble::Refused(error.to_string());
    if !is_at(held, &place.path).map_err(tell)? {
        let why = "a program that takes no lock put another file in its place";
        return Err(Trouble::Refused(why.to_string()));
    }
    temporary::clean_up(disk, place, Some(held));
    put(disk, place, bytes, Some(&held.metadata().map_err(tell)?))
}

fn put(
    disk: &dyn Disk,
    place: &Place,
    bytes: &[u8],
    old: Option<&Metadata>,
) -> Result<Saved, Trouble> {
    let mode = if old.is_some() { OWN } else { FRESH };
    let mut temporary = temporary::make(disk, place, mode)
        .map_err(|error| Trouble::because("a temporary file cannot be made beside it", error))?;
    let filled = fill(disk, &mut temporary, bytes, old);
    let named = filled.and_then(|()| match old {
        Some(_) => disk.rename(&temporary.path, &place.path).map_err(name_refused),
        None => disk.rename_new(&temporary.path, &place.path).map_err(name_refused),
    });
    if named.is_err() {
        // The error that counts is the one that is told.
        let _ = disk.remove(&temporary.path);
    }
    named?;
    let mut notes = Vec::new();
    if let Some(others @ 1..) = old.map(|old| old.nlink().saturating_sub(1)) {
        let names = if others == 1 { "another name" } else { "other names" };
        notes.push(format!("the file had {names} (hard links), and what they name is as it was"));
    }
    if let Err(error) = disk.sync_folder(&place.folder) {
        notes.push(format!("its folder could not be forced to the disk ({error})"));
    }
    Ok(Saved { notes })
}

fn name_refused(error: io::Error) -> Trouble {
    match error.kind() {
        io::ErrorKind::AlreadyExists => Trouble::Exists,
        _ => Trouble::because("the new file cannot take its name", error),
    }
}

/// Writes all bytes, gives the file the old one's owner, group and mode, and
/// waits until all of it is on the disk.
fn fill(
    disk: &dyn Disk,
    temporary: &mut Temporary,
    bytes: &[u8],
    old: Option<&Metadata>,
) -> Result<(), Trouble> {
    let file = &mut temporary.file;
    disk.write(file, bytes).map_err(|error| Trouble::because("it cannot be written", error))?;
    if let Some(old) = old {
        keep_owner_and_mode(disk, file, old)?;
    }
    disk.sync(file).map_err(|error| Trouble::because("it cannot be forced to the disk", error))
}

/// Owner and group first: a mode that lends the owner's rights must never
/// stand on a file of another owner. What was set is then looked at, since
/// some file systems take a request and do not carry it out.
fn keep_owner_and_mode(disk: &dyn Disk, file: &File, old: &Metadata) -> Result<(), Trouble> {
    let (owner, group, mode) = (old.uid(), old.gid(), old.mode() & PERMISSIONS);
    let cannot = |what: &str, error: io::Error| {
        Trouble::because(&format!("its {what} cannot be kept"), error)
    };
    let look = || file.metadata().map_err(|error| cannot("owner", error));
    let new = look()?;
    if (new.uid(), new.gid()) != (owner, group) {
        let whom = format!("owner {owner} and group {group}");
        disk.own(file, owner, group).map_err(|error| cannot(&whom, error))?;
    }
    disk.permit(file, mode).map_err(|error| cannot(&format!("mode {mode:o}"), error))?;
    let new = look()?;
    if (new.uid(), new.gid(), new.mode() & PERMISSIONS) != (owner, group, mode) {
        let why = format!("owner {owner}, group {group} and mode {mode:o} cannot be kept here");
        return Err(Trouble::Refused(why));
    }
    Ok(())
}
