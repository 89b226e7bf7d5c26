//! `uicc run`: good scripts and bad ones.

use crate::folder::Folder;

const EXAMPLE: &str = include_str!("../../examples/first.apdu");
const EXAMPLE_OUTPUT: &str = include_str!("../../examples/first.output");

/// The example prints exactly what the file beside it says.
#[test]
fn the_example_prints_what_is_told_of_it() {
    let folder = Folder::new("example");
    folder.write("first.apdu", EXAMPLE);
    let out = folder.done(&["run", "first.apdu", "--slots", "8", "--total", "448"]);
    assert_eq!(out, EXAMPLE_OUTPUT);
    assert_eq!(folder.names(), ["first.apdu"], "a fresh card is not kept");
}

#[test]
fn a_script_without_commands_is_played() {
    let folder = Folder::new("empty");
    folder.write("empty", "# nothing\n\n");
    let out = folder.done(&["run", "empty"]);
    assert!(out.contains("fresh card of version 3, 64 slots, root total 4032"), "{out}");
    assert!(out.contains("current directory: total 4032, room 4032, 0 files"), "{out}");
}

#[test]
fn every_command_has_its_name_word_and_meaning() {
    let folder = Folder::new("names");
    folder.write(
        "all",
        "00\n00B10000\n00440000\n00E80000\n00E60000\n00040000\n00FE0000\n00A4000C023F00\n",
    );
    let out = folder.done(&["run", "all"]);
    let told: Vec<Vec<&str>> = out
        .lines()
        .skip(1)
        .map(|line| line.split("  ").map(str::trim).filter(|part| !part.is_empty()).collect())
        .collect();
    assert_eq!(told[0], ["1", "(too short)", "6700", "wrong length"]);
    assert_eq!(told[1], ["2", "(unknown INS B1)", "6D00", "unknown instruction"]);
    assert_eq!(told[2][..3], ["3", "ACTIVATE FILE", "6985"]);
    assert_eq!(told[3], ["4", "TERMINATE EF", "6986", "no current EF"]);
    assert_eq!(told[4][..3], ["5", "TERMINATE DF", "6985"]);
    assert_eq!(told[5][..3], ["6", "DEACTIVATE FILE", "9000"]);
    assert_eq!(told[6][..3], ["7", "TERMINATE CARD USAGE", "9000"]);
    assert_eq!(told[7][..3], ["8", "SELECT 3F00", "6985"]);
}

/// DEACTIVATE asks for secure messaging, external or user authentication, each
/// of environment 1; TERMINATE CARD USAGE asks for no other channel.
#[test]
fn the_state_is_handed_on() {
    let folder = Folder::new("state");
    folder.write("deactivate", "00040000\n");
    folder.write("terminate", "00FE0000\n");
    for (set, rule) in [("--messaging", "0841"), ("--external", "0821"), ("--user", "0811")] {
        for (environments, word) in [("0002", "9000"), ("FFFD", "6982")] {
            let out = folder.done(&["run", "deactivate", "--rule", rule, set, environments]);
            assert!(out.contains(word), "{set} {environments}: {out}");
        }
    }
    for (channels, word) in [("02", "6985"), ("F1", "9000")] {
        let out = folder.done(&["run", "terminate", "--channels", channels]);
        assert!(out.contains(word), "{channels}: {out}");
    }
}

#[test]
fn bad_hex_is_told_with_file_line_and_column() {
    let folder = Folder::new("bad-hex");
    for (text, place) in [
        ("00440000\n00 4X 00 00\n", "bad:2:5: 'X' is no hex digit"),
        ("# fine\n\n004400 0\n", "bad:3:8: half a byte"),
        ("00A4;\n", "bad:1:5: ';' is no hex digit"),
        ("0044é000\n", "bad:1:5: 'é' is no hex digit"),
    ] {
        folder.write("bad", text);
        let err = folder.refused(1, &["run", "bad"]);
        assert!(err.contains(place), "{text:?}: {err}");
    }
    folder.write("bad", b"00440000\n00\xFF");
    assert!(folder.refused(1, &["run", "bad"]).contains("bad:2:3: this is no text"));
}

#[test]
fn a_bad_script_changes_nothing() {
    let folder = Folder::new("bad-script");
    folder.done(&["new", "card"]);
    let before = folder.read("card");
    folder.write("bad", "00040000\nnonsense\n");
    folder.refused(1, &["run", "bad", "--image", "card"]);
    assert_eq!(folder.read("card"), before);
    assert!(folder.refused(1, &["run", "missing"]).contains("missing"));
    assert!(folder.refused(1, &["run", "."]).contains("directory"));
}

/// Each command is played, whatever ends the lines; behind a CR alone it once
/// was lost in the comment before it.
#[test]
fn every_end_of_a_line_is_known() {
    let folder = Folder::new("line-ends");
    for end in ["\n", "\r\n", "\r"] {
        folder.write("script", format!("\u{FEFF}# a comment{end}00040000{end}00440000{end}"));
        let out = folder.done(&["run", "script"]);
        assert!(out.contains("   2  DEACTIVATE FILE       9000"), "{end:?}: {out}");
        assert!(out.contains("   3  ACTIVATE FILE         9000"), "{end:?}: {out}");
    }
    for sign in ['\u{2028}', '\u{2029}'] {
        folder.write("script", format!("00040000\n# a comment{sign}00440000\n"));
        let err = folder.refused(1, &["run", "script"]);
        assert!(err.contains("script:2:12: U+202"), "{err}");
    }
}

#[test]
fn a_script_may_come_from_standard_input() {
    let folder = Folder::new("input");
    folder.done(&["new", "card"]);
    let ran = folder.fed(&["run", "-", "--image", "card"], "00040000\n");
    assert!(ran.status == 0 && ran.out.ends_with("card saved\n"), "{}", ran.err);
    let ran = folder.fed(&["run", "-"], "0004000\n");
    assert!(ran.status == 1 && ran.err.contains("standard input:1:7: half"), "{}", ran.err);
}
