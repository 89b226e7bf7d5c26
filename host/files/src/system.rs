//! The border to the C library: the only module with `unsafe`. It has what the
//! standard library does not: locks of a file that tell who holds them, and a
//! rename that replaces nothing.

use std::ffi::{c_char, c_int, c_short, c_uint, CString};
use std::fs::File;
use std::io;
use std::os::fd::AsRawFd;
use std::os::unix::ffi::OsStrExt;
use std::path::Path;

/// A lock as `fcntl` takes and gives it, on a Linux with 64-bit offsets.
#[repr(C)]
struct Flock {
    kind: c_short,
    whence: c_short,
    start: i64,
    length: i64,
    pid: c_int,
}

const F_GETLK: c_int = 5;
const F_SETLK: c_int = 6;
const F_SETLKW: c_int = 7;
const F_RDLCK: c_short = 0;
const F_WRLCK: c_short = 1;
const F_UNLCK: c_short = 2;
const AT_FDCWD: c_int = -100;
const RENAME_NOREPLACE: c_uint = 1;

extern "C" {
    fn fcntl(descriptor: c_int, request: c_int, ...) -> c_int;
    fn renameat2(
        from_folder: c_int,
        from: *const c_char,
        to_folder: c_int,
        to: *const c_char,
        flags: c_uint,
    ) -> c_int;
}

/// How a file is locked.
#[derive(Clone, Copy, PartialEq, Eq, Debug)]
pub enum Lock {
    /// With others that read; the file must be open for reading.
    Shared,
    /// Alone; the file must be open for writing.
    Alone,
}

/// Locks the whole file if nobody stands against it; tells whether it did.
/// The lock goes with the process, or as soon as it closes any handle of the
/// same file: so a process must open a card's file once.
pub fn try_lock(file: &File, lock: Lock) -> io::Result<bool> {
    match request(file, F_SETLK, lock) {
        Ok(_) => Ok(true),
        Err(error)
            if matches!(
                error.kind(),
                io::ErrorKind::WouldBlock | io::ErrorKind::PermissionDenied
            ) =>
        {
            Ok(false)
        }
        Err(error) => Err(error),
    }
}

/// Locks the whole file as soon as nobody stands against it.
pub fn wait_for_lock(file: &File, lock: Lock) -> io::Result<()> {
    loop {
        match request(file, F_SETLKW, lock) {
            Err(error) if error.kind() == io::ErrorKind::Interrupted => (),
            done => return done.map(|_| ()),
        }
    }
}

/// The process that stands against a lock, if there is one just now.
pub fn holder(file: &File, lock: Lock) -> Option<u32> {
    let found = request(file, F_GETLK, lock).ok()?;
    let pid = u32::try_from(found.pid).ok().filter(|pid| *pid != 0);
    pid.filter(|_| found.kind != F_UNLCK)
}

fn request(file: &File, request: c_int, lock: Lock) -> io::Result<Flock> {
    let kind = match lock {
        Lock::Shared => F_RDLCK,
        Lock::Alone => F_WRLCK,
    };
    // Counted from the start of the file (0), and no length: up to its end.
    let mut flock = Flock { kind, whence: 0, start: 0, length: 0, pid: 0 };
    // SAFETY: the descriptor is open, since the file is borrowed. The three
    // requests take a pointer to a lock, which is laid out as the C library's
    // on 64-bit Linux, lives through the call, and is written by F_GETLK only.
    let done = unsafe { fcntl(file.as_raw_fd(), request, &mut flock as *mut Flock) };
    if done == -1 {
        Err(io::Error::last_os_error())
    } else {
        Ok(flock)
    }
}

/// Gives a file another name; fails where that name is taken.
pub fn rename_new(from: &Path, to: &Path) -> io::Result<()> {
    let text = |path: &Path| CString::new(path.as_os_str().as_bytes());
    let (from, to) = (text(from)?, text(to)?);
    // SAFETY: both pointers are texts that end in 0 and live through the call;
    // names that do not begin with / are taken from the working folder.
    let done =
        unsafe { renameat2(AT_FDCWD, from.as_ptr(), AT_FDCWD, to.as_ptr(), RENAME_NOREPLACE) };
    if done == -1 {
        Err(io::Error::last_os_error())
    } else {
        Ok(())
    }
}

#[cfg(not(all(target_os = "linux", target_pointer_width = "64")))]
compile_error!("the numbers and the lock's layout here are those of 64-bit Linux");
