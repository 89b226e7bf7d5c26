//! What the test files of the generator share.

use std::io::Write;

/// Prints a line past the capture of the test harness.
pub fn say(line: &str) {
    let _ = writeln!(std::io::stderr(), "{line}");
}
