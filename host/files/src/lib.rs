//! Card images in files. A file is locked for as long as it is used, and it is
//! replaced as a whole or not at all.
//!
//! | what | where |
//! |---|---|
//! | which file a name means, and which are refused | [`place`] |
//! | a file that is held under a lock | [`Held`] |
//! | a new file under a name that nobody has | [`create`] |
//! | what is asked of the system on the way, so that tests can let it fail | [`disk`] |
//!
//! Saving writes a temporary file beside the card's, gives it the old file's
//! owner, group and mode, forces it to the disk and lets it take the old
//! file's name. The lock is on the file itself and dies with the process. Who
//! gets it looks whether the name still means that file: if it was replaced
//! meanwhile, the new one is opened and locked instead.

#![deny(unsafe_code)]
#![warn(missing_docs)]

pub mod disk;
mod held;
pub mod place;
mod save;
#[allow(unsafe_code)]
mod system;
mod temporary;

use std::fmt;
use std::io;

pub use held::{Held, Use};
pub use save::{create, Saved};

/// Why a file could not be used or saved. It is as it was.
#[derive(Debug, PartialEq, Eq)]
pub enum Trouble {
    /// There is no file of this name.
    Missing,
    /// There is a file of this name already.
    Exists,
    /// What has this name is no regular file, in words: it can be read at most
    /// once, and never be replaced.
    Irregular(String),
    /// Anything else, in words.
    Refused(String),
}

impl Trouble {
    /// A refusal: what was to be done, and why the system did not do it.
    fn because(what: &str, error: io::Error) -> Trouble {
        Trouble::Refused(format!("{what}: {error}"))
    }
}

impl fmt::Display for Trouble {
    fn fmt(&self, f: &mut fmt::Formatter<'_>) -> fmt::Result {
        match self {
            Trouble::Missing => f.write_str("there is no such file"),
            Trouble::Exists => f.write_str("there is such a file already"),
            Trouble::Irregular(why) | Trouble::Refused(why) => f.write_str(why),
        }
    }
}

impl std::error::Error for Trouble {}
