//! What was saved is told truly, also where standard output or standard error
//! takes nothing; and nothing makes the program panic.

use std::ffi::OsStr;
use std::os::unix::ffi::OsStrExt;

use crate::folder::Folder;

const SAVED_UNTOLD: i32 = 3;

/// A folder with a card and a script that changes it.
fn folder(name: &str) -> Folder {
    let folder = Folder::new(name);
    folder.done(&["new", "card"]);
    folder.write("script", "00040000\n");
    folder
}

#[test]
fn a_lost_output_does_not_hide_that_the_card_was_saved() {
    for (name, line) in [
        ("full", "$UICC run script --image card >/dev/full"),
        ("closed", "$UICC run script --image card >&-"),
        ("not-for-writing", "$UICC run script --image card 1</dev/null"),
        ("left", "(sleep 0.2; $UICC run script --image card; echo $? >status) | true; exit $(cat status)"),
    ] {
        let folder = folder(name);
        let ran = folder.shell(line);
        assert_eq!(ran.status, SAVED_UNTOLD, "{name}: {}", ran.err);
        assert!(ran.err.contains("card WAS saved"), "{name}: {}", ran.err);
        assert!(folder.done(&["show", "card"]).contains("deactivated"), "{name}");
    }
    let folder = folder("new-full");
    assert_eq!(folder.shell("$UICC new other >/dev/full").status, SAVED_UNTOLD);
    assert_eq!(folder.read("other").len(), 16 + 64 * 64 + 64 * 63);
}

#[test]
fn a_lost_output_without_a_saved_card_is_a_failure() {
    let folder = folder("unsaved");
    for line in [
        "$UICC show card >/dev/full",
        "$UICC export card >/dev/full",
        "$UICC run script >&-",
        "$UICC --help >/dev/full",
    ] {
        let ran = folder.shell(line);
        assert_eq!(ran.status, 1, "{line}");
        assert!(ran.err.contains("the output cannot be written"), "{line}: {}", ran.err);
    }
    let left = "(sleep 0.2; $UICC show card; echo $? >status) | true; exit $(cat status)";
    assert_eq!(folder.shell(left).status, 0, "a reader that has had enough is no failure");
}

#[test]
fn a_full_standard_error_makes_no_panic() {
    let folder = folder("full-error");
    for (line, status) in [
        ("$UICC run script --image card >/dev/full 2>/dev/full", SAVED_UNTOLD),
        ("$UICC show nothing 2>/dev/full", 1),
        ("$UICC show nothing 2>&-", 1),
        ("$UICC run script --image card && $UICC export card 2>/dev/full", 0),
        ("$UICC nonsense 2>/dev/full", 2),
        ("$UICC run - 2>/dev/full <&-", 1),
    ] {
        assert_eq!(folder.shell(line).status, status, "{line}");
    }
}

#[test]
fn arguments_may_be_no_text() {
    let folder = folder("no-text");
    let odd = OsStr::from_bytes(b"c\xFFrd");
    for (arguments, status) in [
        (&["show"][..], 1),
        (&["new"], 0),
        (&["show"], 0),
        (&["run", "script", "--slots"], 2),
        (&[], 2),
    ] {
        let ended = folder.command(arguments).arg(odd).status().expect("it starts");
        assert_eq!(ended.code(), Some(status), "{arguments:?}");
    }
    let image = folder.command(&["run", "script", "--image"]).arg(odd).status();
    assert_eq!(image.expect("it starts").code(), Some(0));
}
