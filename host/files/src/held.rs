//! A file that is held under a lock for as long as it is used.

use std::fs::{self, File, OpenOptions};
use std::io::{self, Read, Seek};
use std::os::unix::fs::OpenOptionsExt;
use std::path::Path;

use crate::disk::Disk;
use crate::place::{self, Place};
use crate::save::{self, Saved};
use crate::system::{self, Lock};
use crate::temporary::is_at;
use crate::Trouble;

/// Opening must not wait for the other end of a FIFO that took the name.
const O_NONBLOCK: i32 = 0o4000;

/// What a file is held for.
#[derive(Clone, Copy, PartialEq, Eq, Debug)]
pub enum Use {
    /// Others may read it too.
    Read,
    /// Nobody else may read or write it.
    Write,
}

/// A file under a lock, which goes when this goes.
#[derive(Debug)]
pub struct Held {
    place: Place,
    file: File,
}

impl Held {
    /// Opens and locks the file of a name. Where others use it, `tell` hears
    /// whom it waits for.
    pub fn new(name: &Path, purpose: Use, tell: &mut dyn FnMut(&str)) -> Result<Held, Trouble> {
        loop {
            let place = place::find(name)?;
            let there = place.there.as_ref().ok_or(Trouble::Missing)?;
            // Taking a file's name asks nothing of the file; so it is asked
            // here, and of the system by opening it for writing.
            if purpose == Use::Write && there.permissions().readonly() {
                return Err(Trouble::Refused("the file is read-only".to_string()));
            }
            let file = match open(&place.path, purpose) {
                Err(error) if error.kind() == io::ErrorKind::NotFound => continue,
                Err(error) if purpose == Use::Write => {
                    return Err(Trouble::because("the file may not be written", error))
                }
                opened => opened.map_err(|error| Trouble::because("it cannot be read", error))?,
            };
            let found = file.metadata().map_err(|error| Trouble::Refused(error.to_string()))?;
            place::must_be_regular(found.file_type())?;
            lock(&file, purpose, tell)
                .map_err(|error| Trouble::because("the file cannot be locked", error))?;
            // Whoever had the lock may have put another file in its place.
            if is_at(&file, &place.path).map_err(|error| Trouble::Refused(error.to_string()))? {
                return Ok(Held { place, file });
            }
        }
    }

    /// The bytes of the file, but no more than so many.
    pub fn read(&mut self, most: u64) -> io::Result<Vec<u8>> {
        let mut bytes = Vec::new();
        self.file.rewind()?;
        (&self.file).take(most).read_to_end(&mut bytes)?;
        Ok(bytes)
    }

    /// Puts a file with these bytes in the place of the held one, as a whole
    /// or not at all, with its owner, group and mode.
    pub fn replace(self, disk: &dyn Disk, bytes: &[u8]) -> Result<Saved, Trouble> {
        save::replace(disk, &self.place, &self.file, bytes)
    }
}

fn open(path: &Path, purpose: Use) -> io::Result<File> {
    let write = purpose == Use::Write;
    OpenOptions::new().read(true).write(write).custom_flags(O_NONBLOCK).open(path)
}

fn lock(file: &File, purpose: Use, tell: &mut dyn FnMut(&str)) -> io::Result<()> {
    let lock = match purpose {
        Use::Read => Lock::Shared,
        Use::Write => Lock::Alone,
    };
    if system::try_lock(file, lock)? {
        return Ok(());
    }
    match system::holder(file, lock) {
        Some(pid) => tell(&format!("waiting for process {pid}{}, which uses it", name_of(pid))),
        None => tell("waiting for another process, which uses it"),
    }
    system::wait_for_lock(file, lock)
}

/// The program that a process runs, in brackets, where that can be told.
fn name_of(pid: u32) -> String {
    match fs::read_to_string(format!("/proc/{pid}/comm")) {
        Ok(name) => format!(" ({})", name.trim_end()),
        Err(_) => String::new(),
    }
}
