//! The program: what it refuses, and that nothing makes it panic.

use std::process::Command;

#[test]
fn nothing_makes_it_panic() {
    for (line, status) in [
        ("$P --count 2", 0),
        ("$P --count 2 --first 18446744073709551615 --measure", 0),
        ("$P --count 0 --measure", 1),
        ("$P --bogus 2>/dev/full", 2),
        ("$P --count 2 >/dev/full 2>/dev/full", 1),
        ("$P --measure --count 2 >/dev/full", 1),
        ("$P --count 2 >&-", 1),
        ("$P $(printf '\\377')", 2),
        ("$P --kind $(printf '\\377')", 2),
    ] {
        let mut shell = Command::new("sh");
        shell.args(["-c", line]).env("P", env!("CARGO_BIN_EXE_cases"));
        let run = shell.output().expect("the shell starts");
        assert_eq!(run.status.code(), Some(status), "{line}");
        assert!(!String::from_utf8_lossy(&run.stderr).contains("panicked"), "{line}");
    }
}
