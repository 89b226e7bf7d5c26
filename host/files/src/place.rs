//! Which file a name means. Links are followed to the file itself, so that it
//! is replaced and not the link; what is no regular file is refused.

use std::ffi::{OsStr, OsString};
use std::fs::{self, FileType, Metadata};
use std::io;
use std::os::unix::ffi::OsStrExt;
use std::os::unix::fs::FileTypeExt;
use std::path::{Path, PathBuf};

use crate::Trouble;

/// So many links in a row are followed, as many as Linux follows.
const MOST_LINKS: usize = 40;

/// Where a name leads: the file's own name in its own folder.
#[derive(Debug)]
pub struct Place {
    /// The full name, without links.
    pub path: PathBuf,
    /// The folder that it stands in.
    pub folder: PathBuf,
    /// What is there, if anything is.
    pub there: Option<Metadata>,
}

/// Follows a name. What is there is a regular file; nothing may be there only
/// where the name is no link.
pub fn find(name: &Path) -> Result<Place, Trouble> {
    let mut path = name.to_path_buf();
    for followed in 0..=MOST_LINKS {
        let last = last_of(&path)?;
        let folder = folder_of(&path)?;
        path = folder.join(last);
        match fs::symlink_metadata(&path) {
            Err(error) if error.kind() == io::ErrorKind::NotFound => {
                return match followed {
                    0 => Ok(Place { path, folder, there: None }),
                    _ => Err(refused("this link leads to no file")),
                }
            }
            Err(error) => return Err(Trouble::Refused(error.to_string())),
            Ok(found) if found.is_symlink() => path = next(&path, &folder)?,
            Ok(found) => {
                must_be_regular(found.file_type())?;
                return Ok(Place { path, folder, there: Some(found) });
            }
        }
    }
    Err(refused("this link leads in a circle"))
}

/// Refuses what is no regular file, and says what it is.
pub fn must_be_regular(kind: FileType) -> Result<(), Trouble> {
    let what = match kind {
        _ if kind.is_file() => return Ok(()),
        _ if kind.is_dir() => "a directory",
        _ if kind.is_fifo() => "a FIFO",
        _ if kind.is_socket() => "a socket",
        _ => "a device",
    };
    Err(Trouble::Irregular(format!("this is {what} and no regular file")))
}

fn refused(why: &str) -> Trouble {
    Trouble::Refused(why.to_string())
}

/// The last part of a name. One that ends in a slash or a dot names a folder;
/// the standard library would pass over that end.
fn last_of(path: &Path) -> Result<OsString, Trouble> {
    let bytes = path.as_os_str().as_bytes();
    match bytes.rsplit(|byte| *byte == b'/').next() {
        None | Some(b"" | b"." | b"..") => Err(refused("this is no name of a file")),
        Some(last) => Ok(OsStr::from_bytes(last).to_os_string()),
    }
}

/// The folder of a name, without links.
fn folder_of(path: &Path) -> Result<PathBuf, Trouble> {
    let folder = path.parent().filter(|folder| !folder.as_os_str().is_empty());
    let folder = folder.unwrap_or(Path::new("."));
    fs::canonicalize(folder)
        .map_err(|error| Trouble::because(&format!("the folder {}", folder.display()), error))
}

/// The name that a link has. A link of /proc, as /dev/stdin leads to, names
/// what a process has open, which may have no name that could be taken.
fn next(link: &Path, folder: &Path) -> Result<PathBuf, Trouble> {
    if folder.starts_with("/proc") {
        let why = "this is a process's open file, and no name of a regular file";
        return Err(Trouble::Irregular(why.to_string()));
    }
    let target = fs::read_link(link).map_err(|error| Trouble::Refused(error.to_string()))?;
    Ok(folder.join(target))
}
