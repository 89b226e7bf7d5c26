//! The command line: help, and what is refused.

use crate::folder::Folder;

#[test]
fn help_is_printed() {
    let folder = Folder::new("help");
    for arguments in [&["--help"][..], &["-h"], &["help"], &["run", "--help"]] {
        let out = folder.done(arguments);
        for part in [
            "uicc run SCRIPT",
            "uicc show IMAGE",
            "uicc read IMAGE PATH",
            "uicc write IMAGE PATH FILE",
            "uicc export IMAGE",
            "uicc new IMAGE",
            "uicc rule RULE",
            "--version N",
            "Its first byte tells which",
            "Exit status: 0 done",
            "4 export:",
        ] {
            assert!(out.contains(part), "{arguments:?}: {part}");
        }
    }
}

#[test]
fn wrong_command_lines_are_refused() {
    let folder = Folder::new("refused");
    folder.write("script", "00040000\n");
    for (arguments, told) in [
        (&[][..], "say what to do"),
        (&["play"], "play is nothing to do"),
        (&["run"], "name a SCRIPT"),
        (&["run", "script", "other"], "only one"),
        (&["run", "script", "--slot", "4"], "--slot is no option here"),
        (&["run", "script", "--slots"], "--slots needs a value"),
        (&["run", "script", "--slots", "4", "--slots", "5"], "given twice"),
        (&["run", "script", "--slots", "four"], "--slots four: this is not a number"),
        (&["run", "script", "--slots", "-1"], "this is not a number"),
        (&["run", "script", "--user", "10000"], "this is not a hex number of 16 bits"),
        (&["run", "script", "--channels", "100"], "this is not a hex number of 8 bits"),
        (&["run", "script", "--image", "card", "--total", "9"], "--total is for a fresh card"),
        (&["run", "script", "--image", "card", "--version", "2"], "--version is for a fresh card"),
        (&["show", "card", "--force"], "--force is no option here"),
        (&["export"], "name an IMAGE"),
        (&["export", "card", "other"], "only one"),
        (&["export", "card", "--slots", "8"], "--slots is no option here"),
        (&["export", "-"], "an IMAGE is a file"),
        (&["rule"], "give a RULE in hex"),
        (&["rule", "01", "0"], "01 0: sign 4: half a byte"),
        (&["rule", "0100", "--form", "1"], "--form is no option here"),
        (&["new", "-"], "an IMAGE is a file"),
        (&["run", "script", "--image", "-"], "an IMAGE is a file"),
        (&["run", "--", "script", "--image", "card"], "only one"),
    ] {
        let err = folder.refused(2, arguments);
        assert!(err.contains(told) && err.contains("uicc --help"), "{arguments:?}: {err}");
    }
    assert_eq!(folder.names(), ["script"]);
}

#[test]
fn wrong_reads_and_writes_are_refused() {
    let folder = Folder::new("refused-bodies");
    folder.write("script", "00040000\n");
    for (arguments, told) in [
        (&["read"][..], "name an IMAGE"),
        (&["read", "card"], "name the PATH of a file"),
        (&["read", "card", "6F07", "more"], "the PATH of a file, and nothing more"),
        (&["read", "-", "6F07"], "an IMAGE is a file"),
        (&["read", "card", "6F7"], "\"6F7\" is no identifier"),
        (&["read", "card", "6F07", "--count", "0"], "--count 0: this is not a number of bytes"),
        (&["read", "card", "6F07", "--from", "-1"], "--from -1: this is not the number of a byte"),
        (&["read", "card", "6F07", "--record", "256"], "this is not the number of a record"),
        (&["read", "card", "6F07", "--record", "1", "--from", "1"], "for a whole record"),
        (&["read", "card", "6F07", "--record", "1", "--count", "1"], "for a whole record"),
        (&["read", "card", "6F07", "--force"], "--force is for the file of --output"),
        (&["read", "card", "6F07", "--output", "-", "--force"], "--force is for the file"),
        (&["read", "card", "6F07", "--slots", "8"], "--slots is no option here"),
        (&["write", "card", "6F07"], "name the FILE with the bytes"),
        (&["write", "card", "6F07", "script", "--count", "1"], "--count is no option here"),
        (&["write", "card", "6F07/", "script"], "\"\" is no identifier"),
        (&["write", "card", "6F07", "script", "--user", "x"], "a hex number of 16 bits"),
    ] {
        let err = folder.refused(2, arguments);
        assert!(err.contains(told) && err.contains("uicc --help"), "{arguments:?}: {err}");
    }
    assert_eq!(folder.names(), ["script"]);
}

#[test]
fn wrong_wishes_for_a_card_are_refused() {
    let folder = Folder::new("wishes");
    for (arguments, told) in [
        (&["new", "card", "--slots", "1"][..], "--slots 1: a card has 2 to 1,023 slots"),
        (&["new", "card", "--slots", "18446744073709551615"], "2 to 1,023 slots"),
        (
            &["new", "card", "--slots", "2", "--total", "65"],
            "with 2 slots the root's total is 1 to 64",
        ),
        (&["new", "card", "--version", "4"], "--version 4: there is no card of version 4"),
        (&["new", "card", "--version", "0"], "--version 0: there is no card of version 0"),
        (
            &["new", "card", "--version", "65537"],
            "--version 65537: this is not a version, 1, 2 or 3",
        ),
        (
            &["new", "card", "--rule", "01008601"],
            "--rule: the root's access rule is malformed: byte 3 of 4: the AM byte 86 has b8 set",
        ),
        (
            &["new", "card", "--version", "2", "--rule", "AB0380017F"],
            "malformed: byte 3 of 5: behind object 80 stands no condition",
        ),
        (
            &["new", "card", "--version", "1", "--rule", "80017F9000"],
            "version 1 takes no rule of tag AB",
        ),
        (
            &["new", "card", "--version", "1", "--rule", "80017F9000"],
            "version 2 also AB, version 3 also 8B: choose --version 2 or 3",
        ),
        (&["new", "card", "--rule", "9E0111"], "--rule: byte 1 of 3: 9E begins no rule"),
        (&["new", "card", "--rule", ""], "--rule: a rule has at least one byte"),
        (&["new", "card", "--rule", "8"], "this is not a row of hex bytes"),
    ] {
        let err = folder.refused(2, arguments);
        assert!(err.contains(told) && err.contains("uicc --help"), "{arguments:?}: {err}");
    }
    assert!(folder.names().is_empty());
}

/// The other version is named only where it takes the rule.
#[test]
fn rules_of_a_wrong_length_are_refused() {
    let folder = Folder::new("lengths");
    let zeros = |many| "00".repeat(many);
    for (version, rule, told) in [
        (
            "1",
            zeros(17),
            "has 17 bytes, and a card of version 1 takes 1 to 16: choose --version 2 or 3\n",
        ),
        (
            "1",
            zeros(30),
            "has 30 bytes, and a card of version 1 takes 1 to 16: choose --version 2\n",
        ),
        ("1", zeros(31), "has 31 bytes, and a card of version 1 takes 1 to 16\n"),
        ("1", zeros(16) + "01", "has 17 bytes, and a card of version 1 takes 1 to 16\n"),
        ("1", "8C00".to_string(), "has no byte, and a card of version 1 takes 1 to 16\n"),
        ("2", zeros(31), "has 31 bytes, and a card of version 2 takes 1 to 30\n"),
        ("2", "AB00".to_string(), "has no byte, and a card of version 2 takes 1 to 30\n"),
        (
            "3",
            zeros(29),
            "has 29 bytes, and a card of version 3 takes 1 to 28: choose --version 2\n",
        ),
        ("3", zeros(31), "has 31 bytes, and a card of version 3 takes 1 to 28\n"),
    ] {
        let err = folder.refused(2, &["new", "card", "--version", version, "--rule", &rule]);
        let told = format!("--rule: the root's access rule {told}");
        assert!(err.contains(&told), "{version}, {rule}: {err}");
    }
    assert!(folder.names().is_empty());
}

/// After -- nothing is an option, and no message speaks of what a user does
/// not see.
#[test]
fn two_dashes_end_the_options() {
    let folder = Folder::new("dashes");
    folder.write("--script", "00040000\n");
    folder.done(&["new", "--", "--card"]);
    folder.done(&["run", "--image", "--card", "--", "--script"]);
    assert!(folder.done(&["show", "--", "--card"]).contains("deactivated"));
    for arguments in [&["new", "card", "--slots", "1"][..], &["new", "card", "--total", "99999"]] {
        let err = folder.refused(2, arguments);
        assert!(!err.contains("buffer") && !err.contains('N'), "{err}");
    }
}
