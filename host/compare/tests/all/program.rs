//! The program: what it prints and its exit status.

use std::process::{Command, Output};

fn compare(arguments: &[&str]) -> Output {
    Command::new(env!("CARGO_BIN_EXE_compare")).args(arguments).output().expect("it starts")
}

fn text(bytes: &[u8]) -> String {
    String::from_utf8_lossy(bytes).into_owned()
}

#[test]
fn a_short_run_agrees() {
    let run = compare(&["--seed", "5", "--count", "60"]);
    assert!(run.status.success(), "{}", text(&run.stderr));
    assert!(text(&run.stdout).starts_with("seed 5: all agree"), "{}", text(&run.stdout));
    assert!(text(&run.stdout).contains("60 cases"));
}

#[test]
fn one_kind_can_be_chosen() {
    let run = compare(&["--kind", "make", "--count", "25", "--first", "3"]);
    assert!(text(&run.stdout).contains("0 commands"), "{}", text(&run.stdout));
    assert!(text(&run.stdout).contains("25 makes"), "{}", text(&run.stdout));
}

#[test]
fn lines_are_run_again() {
    let stored = model::vectors::stored_file();
    let run = compare(&["--replay", &stored.to_string_lossy()]);
    assert!(run.status.success(), "{}", text(&run.stderr));
    let told = text(&run.stdout);
    assert!(told.lines().filter(|line| line.starts_with("both give C 0 ")).count() > 100);
    assert!(told.contains("both give D pool ") && told.contains("both give D none 0 - (answer 0"));
    assert!(told.contains("the card has no call for this line"));
}

#[test]
fn bad_calls_are_refused() {
    for (arguments, status, told) in [
        (&["--bogus"][..], 2, "usage: compare"),
        (&["--seed"], 2, "usage: compare"),
        (&["--kind", "nothing"], 2, "kinds: history"),
        (&["--replay", "no/such/file"], 1, "no/such/file"),
        (&["--replay", env!("CARGO_BIN_EXE_compare")], 1, "valid UTF-8"),
        (&["--count", "0"], 1, "nothing was compared"),
        (&["--first", "18446744073709551615"], 1, "not so many cases"),
        (&["--replay", "/dev/null"], 1, "nothing was compared"),
    ] {
        let run = compare(arguments);
        assert_eq!(run.status.code(), Some(status), "{arguments:?}");
        assert!(text(&run.stderr).contains(told), "{arguments:?}: {}", text(&run.stderr));
    }
}

/// A line that only the model knows compares nothing.
#[test]
fn a_replay_of_no_call_fails() {
    let stored = model::vectors::stored_text().expect("the stored cases are there");
    let line = stored.lines().find(|line| line.starts_with("W ")).expect("a W line");
    let file = std::path::Path::new(env!("CARGO_TARGET_TMPDIR")).join("no-call");
    std::fs::write(&file, line).expect("the file can be written");
    let run = compare(&["--replay", &file.to_string_lossy()]);
    assert_eq!(run.status.code(), Some(1), "{}", text(&run.stdout));
    assert!(text(&run.stderr).contains("nothing was compared"), "{}", text(&run.stderr));
}

#[test]
fn nothing_makes_it_panic() {
    let line = |line: &str| {
        let mut shell = Command::new("sh");
        shell.args(["-c", line]).env("P", env!("CARGO_BIN_EXE_compare"));
        let run = shell.output().expect("the shell starts");
        assert!(!text(&run.stderr).contains("panicked"), "{line}");
        run.status.code()
    };
    assert_eq!(line("$P --bogus 2>/dev/full"), Some(2));
    assert_eq!(line("$P --count 1 >/dev/full 2>/dev/full"), Some(1));
    assert_eq!(line("$P --count 1 >&-"), Some(1));
    assert_eq!(line("$P --replay - <&-"), Some(1));
    assert_eq!(line("$P $(printf '\\377')"), Some(2));
    assert_eq!(line("$P --replay $(printf '\\377')"), Some(1));
    assert_eq!(line("$P --count $(printf '\\377')"), Some(2));
}
