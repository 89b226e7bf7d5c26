//! The three standard streams as a program finds them: each may be full, or
//! closed from the start. Nothing here panics, and no failure is passed over.
//!
//! The macros of the standard library do not serve: `eprintln!` panics where
//! standard error is full, and the standard library puts `/dev/null` in place
//! of a stream that is closed, so that what is written there is lost in
//! silence.

#![deny(unsafe_code)]
#![warn(missing_docs)]

#[allow(unsafe_code)]
mod start;

use std::fs::File;
use std::io::{self, Read, Write};
use std::os::fd::AsFd;

const INPUT: usize = 0;
const OUTPUT: usize = 1;

/// Writes a line to standard error. Where even that fails, nobody can be told.
pub fn complain(line: &str) {
    let _ = writeln!(io::stderr(), "{line}");
}

/// Standard output, unbuffered.
pub fn output() -> io::Result<File> {
    if start::was_closed(OUTPUT) {
        return Err(io::Error::other("standard output is closed"));
    }
    // The standard library's own handle counts a write to a stream that is
    // not open for writing as done; a file tells of it.
    Ok(File::from(io::stdout().as_fd().try_clone_to_owned()?))
}

/// Prints a text on standard output, all of it.
pub fn print(text: &str) -> io::Result<()> {
    output()?.write_all(text.as_bytes())
}

/// All of standard input.
pub fn input() -> io::Result<Vec<u8>> {
    if start::was_closed(INPUT) {
        return Err(io::Error::other("standard input is closed"));
    }
    let mut bytes = Vec::new();
    File::from(io::stdin().as_fd().try_clone_to_owned()?).read_to_end(&mut bytes)?;
    Ok(bytes)
}

/// What a print gave; the reader of a pipe that has had enough is no failure.
pub fn unless_reader_left(printed: io::Result<()>) -> io::Result<()> {
    match printed {
        Err(error) if error.kind() == io::ErrorKind::BrokenPipe => Ok(()),
        other => other,
    }
}
