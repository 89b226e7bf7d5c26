//! A disk that refuses one request, or every request from one on.

use std::cell::RefCell;
use std::fs::File;
use std::io;
use std::path::Path;

use files::disk::{Disk, Real};

/// How it fails.
#[derive(Clone, Copy, PartialEq, Eq, Debug)]
pub enum Fault {
    /// One request is refused; those after it are carried out.
    Once,
    /// From one request on nothing is carried out any more, as if the process
    /// had been killed.
    Killed,
    /// Nothing can be written and nothing removed.
    Stuck,
}

pub struct Faulty {
    fault: Fault,
    at: usize,
    requests: RefCell<Vec<&'static str>>,
}

impl Faulty {
    pub fn new(fault: Fault, at: usize) -> Faulty {
        Faulty { fault, at, requests: RefCell::new(Vec::new()) }
    }

    /// The request that was refused first, if it came so far.
    pub fn refused(&self) -> Option<&'static str> {
        self.requests.borrow().get(self.at).copied()
    }

    fn ask(&self, request: &'static str) -> io::Result<()> {
        let mut requests = self.requests.borrow_mut();
        let number = requests.len();
        requests.push(request);
        match self.fault {
            Fault::Once if number == self.at => Err(io::Error::other("injected")),
            Fault::Killed if number >= self.at => Err(io::Error::other("injected")),
            Fault::Stuck if matches!(request, "write" | "remove") => {
                Err(io::Error::other("injected"))
            }
            _ => Ok(()),
        }
    }
}

impl Disk for Faulty {
    fn make(&self, path: &Path, mode: u32) -> io::Result<File> {
        self.ask("make").and_then(|()| Real.make(path, mode))
    }

    /// A full disk takes a part of the bytes before it refuses.
    fn write(&self, file: &mut File, bytes: &[u8]) -> io::Result<()> {
        let asked = self.ask("write");
        let taken = if asked.is_ok() { bytes.len() } else { bytes.len() / 2 };
        Real.write(file, &bytes[..taken]).and(asked)
    }

    fn own(&self, file: &File, owner: u32, group: u32) -> io::Result<()> {
        self.ask("own").and_then(|()| Real.own(file, owner, group))
    }

    fn permit(&self, file: &File, mode: u32) -> io::Result<()> {
        self.ask("permit").and_then(|()| Real.permit(file, mode))
    }

    fn sync(&self, file: &File) -> io::Result<()> {
        self.ask("sync").and_then(|()| Real.sync(file))
    }

    fn rename(&self, from: &Path, to: &Path) -> io::Result<()> {
        self.ask("rename").and_then(|()| Real.rename(from, to))
    }

    fn rename_new(&self, from: &Path, to: &Path) -> io::Result<()> {
        self.ask("rename_new").and_then(|()| Real.rename_new(from, to))
    }

    fn sync_folder(&self, folder: &Path) -> io::Result<()> {
        self.ask("sync_folder").and_then(|()| Real.sync_folder(folder))
    }

    fn remove(&self, path: &Path) -> io::Result<()> {
        self.ask("remove").and_then(|()| Real.remove(path))
    }
}
