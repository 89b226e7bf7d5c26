//! Where the vectors of the model's level lie: the whole file in the shared
//! folder beside the repository, some 400 cases of this and earlier levels in
//! the repository, so that a clone alone is tested too.

use std::io;
use std::path::{Path, PathBuf};
use std::process::Command;

use crate::edition::LEVEL;

/// The compressed file of all vectors.
pub fn shared_file() -> PathBuf {
    Path::new(env!("CARGO_MANIFEST_DIR"))
        .join("../../../shared/vectors")
        .join(format!("level-{LEVEL:02}.txt.xz"))
}

/// The file of the stored vectors.
pub fn stored_file() -> PathBuf {
    Path::new(env!("CARGO_MANIFEST_DIR"))
        .join("tests/data")
        .join(format!("level-{LEVEL:02}-some.txt"))
}

/// The text of all vectors, or why there is none.
pub fn shared_text() -> Result<String, String> {
    let file = shared_file();
    if !file.is_file() {
        return Err(format!("{} is not there", file.display()));
    }
    let output = Command::new("xz").arg("-dc").arg(&file).output();
    let output = output.map_err(|error| format!("the program xz does not start: {error}"))?;
    if !output.status.success() {
        return Err(format!("xz refuses {}", file.display()));
    }
    String::from_utf8(output.stdout).map_err(|error| format!("{}: {error}", file.display()))
}

/// The text of the stored vectors.
pub fn stored_text() -> io::Result<String> {
    std::fs::read_to_string(stored_file())
}

/// The lines with a case: no comments, no empty lines.
pub fn case_lines(text: &str) -> impl Iterator<Item = &str> {
    text.lines().filter(|line| !line.is_empty() && !line.starts_with('#'))
}
