//! Rules that records of files keep, from the command line to the script that
//! makes the card again.

use crate::folder::Folder;
use crate::refusals::{create, CLOSED, LACKING, NONE};

/// The rule file 6F06 of three records of 12 bytes; anybody may update it.
const RULE_FILE: &str = "00E000001A 6218 82044221000C 83026F06 8A0105 AB05 8001039000 80020024\n";
/// All rights always; UPDATE and READ with user 1 and DELETE always.
const OPEN: &str = "80017F9000FFFFFFFFFFFFFF";
const ASKING: &str = "8001039E01118001409000FF";
pub const SELECT_RULE_FILE: &str = "00A4000C023F00\n00A4000C026F06\n";

/// UPDATE of a record of the current file.
pub fn write(record: u8, rule: &str) -> String {
    format!("00DC{record:02X}04{:02X}{rule}\n", rule.len() / 2)
}

/// A card with a rule file in the root, whose record 1 opens the directory 7F10,
/// and in that 6F07, ruled by a reference.
pub fn folder(name: &str, reference: &str) -> Folder {
    let folder = Folder::new(name);
    folder.done(&["new", "card", "--slots", "16"]);
    let script = [
        RULE_FILE.to_string(),
        write(1, OPEN),
        write(2, ASKING),
        create("7F10", "8B036F0601"),
        create("6F07", reference),
    ];
    played(&folder, &script.concat(), 5);
    folder
}

/// Plays commands of which so many are done.
pub fn played(folder: &Folder, script: &str, done: usize) {
    let out = folder.fed(&["run", "-", "--image", "card"], script).out;
    assert_eq!(out.matches("  9000  ").count(), done, "{out}");
}

/// The rules that `uicc show` tells below the tree, a text each.
pub fn rules(folder: &Folder) -> Vec<String> {
    let out = folder.done(&["show", "card"]);
    let rules: Vec<_> = out.split("\nrule ").skip(1).map(str::trim_end).collect();
    assert!(rules.iter().flat_map(|rule| rule.lines()).all(|line| line.len() <= 120), "{out}");
    rules.into_iter().map(String::from).collect()
}

#[test]
fn show_tells_where_each_rule_stands() {
    let folder = folder("referred-show", "8B036F0602");
    // The same reference further up, and on a directory.
    let more = [
        "00A4000C023F00\n".to_string(),
        create("6F08", "8B036F0602"),
        create("7F20", "8B036F0602"),
    ];
    played(&folder, &more.concat(), 3);
    let asking = "DELETE: always\n      TERMINATE, ACTIVATE, DEACTIVATE";
    let wanted = [
        "1, of directories, in their own records: 8C087F00000000000000\n      \
         DELETE, TERMINATE, ACTIVATE, DEACTIVATE, CREATE DF, CREATE EF, DELETE CHILD: always"
            .to_string(),
        "2, of files, in their own records: AB058001039000\n      \
         DELETE, TERMINATE, ACTIVATE, DEACTIVATE, WRITE: never\n      UPDATE, READ: always"
            .to_string(),
        "3, of directories: 8B036F0601\n      \
         kept in record 1 of 6F06 in 3F00, found beside it: 80017F9000\n      \
         DELETE, TERMINATE, ACTIVATE, DEACTIVATE, CREATE DF, CREATE EF, DELETE CHILD: always"
            .to_string(),
        format!(
            "4, of files: 8B036F0602\n      \
             kept in record 2 of 6F06 in 3F00, found 1 directory up: 8001039E01118001409000\n      \
             {asking}, WRITE: never\n      UPDATE, READ: user authentication 1"
        ),
        format!(
            "5, of files: 8B036F0602\n      \
             kept in record 2 of 6F06 in 3F00, found beside it: 8001039E01118001409000\n      \
             {asking}, WRITE: never\n      UPDATE, READ: user authentication 1"
        ),
        format!(
            "6, of directories: 8B036F0602\n      \
             kept in record 2 of 6F06 in 3F00, found beside it: 8001039E01118001409000\n      \
             {asking}, CREATE DF: never\n      \
             CREATE EF, DELETE CHILD: user authentication 1"
        ),
    ];
    assert_eq!(rules(&folder), wanted);
}

#[test]
fn a_refusal_names_the_record_that_keeps_the_rule() {
    let folder = folder("referred-refused", "8B036F0602");
    let run = [&["run", "-", "--image", "card"], &NONE[..]].concat();
    let out = folder.fed(&run, "00B0000009\n00040000\n00E40000026F07\n").out;
    let lines: Vec<_> = out.lines().collect();
    let kept = "        kept in     record 2 of 6F06 in 3F00, found 1 directory up";
    let wanted = [
        &format!("   1  READ BINARY from 0    {LACKING}"),
        "        rule (8B)   of 6F07, READ: user authentication 1",
        kept,
        &format!("   2  DEACTIVATE FILE       {CLOSED}"),
        "        rule (8B)   of 6F07, DEACTIVATE: never",
        kept,
        "   3  DELETE FILE 6F07      9000  done",
    ];
    assert_eq!(lines[1..lines.len() - 2], wanted, "{out}");
    let err = folder.refused(1, &[&["read", "card", "7F10/6F08"], &NONE[..]].concat());
    assert!(err.contains("6A82"), "{err}");
}

/// The same READ before and after an UPDATE of the record, and back.
#[test]
fn an_update_of_the_record_changes_the_next_command() {
    let folder = folder("referred-updated", "8B036F0602");
    let read = "00A4000C023F00\n00A4000C027F10\n00A4000C026F07\n00B0000009\n";
    for (rule, told) in [
        (OPEN, "READ BINARY from 0    9000  done"),
        ("8001019E01FFFFFFFFFFFFFF", "READ: never\n        kept in     record 2 of 6F06"),
        (ASKING, "READ: user authentication 1\n        kept in     record 2 of 6F06"),
        ("FFFFFFFFFFFFFFFFFFFFFFFF", "READ: never\n        denies      record 2 of 6F06"),
        (OPEN, "READ BINARY from 0    9000  done"),
    ] {
        let script = SELECT_RULE_FILE.to_string() + &write(2, rule) + read;
        let out = folder.fed(&[&["run", "-", "--image", "card"], &NONE[..]].concat(), &script).out;
        assert!(out.contains(told), "{rule}\n{out}");
    }
    // `uicc write` on the rule file does it too.
    let write = ["write", "card", "6F06", "-", "--record", "2"];
    let bytes: String = (0..12).map(|_| '\u{0}').collect();
    assert_eq!(folder.fed(&write, &bytes).status, 0);
    let err = folder.refused(1, &["read", "card", "7F10/6F07"]);
    assert!(err.contains("holds no well-formed expanded rule: byte 1 of 12"), "{err}");
}

#[test]
fn a_template_tells_the_reference_and_what_it_leads_to() {
    let folder = folder("referred-template", "8B036F0602");
    let run = ["run", "-", "--image", "card"];
    let out = folder.fed(&run, "00A40004026F0700\n").out;
    let told =
        "        rule (8B)   what record 2 of 6F06 says, the nearest from the directory that \
                holds this file up\n        \
                kept in     record 2 of 6F06 in 3F00, found 1 directory up\n        \
                allows      DELETE: always; TERMINATE, ACTIVATE, DEACTIVATE, WRITE: never; \
                UPDATE, READ: user authentication 1\n";
    assert!(out.contains(told), "{out}");
    played(&folder, &(SELECT_RULE_FILE.to_string() + "00A4000C023F00\n00E40000026F06\n"), 4);
    let out = folder.fed(&run, "00A4000C027F10\n00A40004026F0700\n").out;
    assert!(out.contains("        denies      there is no 6F06 from 3F00/7F10 up\n"), "{out}");
    assert!(!out.contains("allows"), "{out}");
    // A file with a rule of its own leads nowhere.
    let out = folder.fed(&run, "00A40004023F0000\n").out;
    assert!(!out.contains("allows") && !out.contains("kept in"), "{out}");
}

#[test]
fn a_reference_is_explained() {
    let folder = Folder::new("referred-explained");
    let out = folder.done(&["rule", "8B 03 6F06 02"]);
    let head = "referred rule (8B) of 3 bytes, for cards of version 3\n   \
                3  6F06    the file that keeps the rule\n   \
                5  02      the number of its record\n\
                the rule is what record 2 of 6F06 holds when a command comes";
    assert!(out.starts_with(head), "{out}");
    assert!(out.lines().all(|line| line.len() <= 120), "{out}");
    let zero = folder.done(&["rule", "8B036F0600"]);
    assert!(zero.contains("records count from 1, so that this rule allows nothing\n"), "{zero}");
}

/// The maker takes it on version 3; as no file is there, it closes the root.
#[test]
fn a_root_can_have_a_reference() {
    let folder = Folder::new("referred-root");
    for version in ["1", "2"] {
        let arguments = ["new", "card", "--version", version, "--rule", "8B036F0601"];
        let err = folder.refused(2, &arguments);
        let told =
            "takes no rule of tag 8B: version 1 takes 8C, version 2 also AB, version 3 also 8B";
        assert!(err.contains(told) && err.contains("choose --version 3"), "{err}");
    }
    let err = folder.refused(2, &["new", "card", "--rule", "8B046F060101"]);
    assert!(err.contains("--rule: the root's access rule is malformed: byte 2 of 6"), "{err}");
    let made = folder.done(&["new", "card", "--slots", "4", "--rule", "8B036F0601"]);
    let told = "card: fresh card of version 3, 4 slots, root total 192, root rule 8B036F0601 \
                (allows nothing: no file is there to keep it, and none can be made)\n";
    assert_eq!(made, told);
    assert_eq!(
        rules(&folder),
        ["1, of directories: 8B036F0601\n      denies everything: there is no 6F06 in 3F00"]
    );
    let out = folder.fed(&["run", "-", "--image", "card"], RULE_FILE).out;
    let below = format!(
        "{CLOSED}\n        rule (8B)   of 3F00, CREATE EF: never\n        \
         denies      there is no 6F06 in 3F00\n"
    );
    assert!(out.contains(&below), "{out}");
    let script = folder.done(&["export", "card"]);
    assert!(script.contains("--slots 4 --total 192 --rule 8B036F0601\n"), "{script}");
}

/// A reference is for version 3, and has three bytes.
#[test]
fn a_reference_that_is_not_taken_is_told_below_its_line() {
    let folder = Folder::new("referred-hints");
    let length = |found| {
        format!("a reference has 3 bytes, a file's identifier and a record number, not {found}")
    };
    for (rule, told) in
        [("8B036F0601", None), ("8B00", Some(length(0))), ("8B046F060101", Some(length(4)))]
    {
        folder.write("reference", create("6F07", rule));
        for version in ["1", "2", "3"] {
            let out = folder.done(&["run", "reference", "--version", version]);
            let elsewhere = format!("a card of version {version} takes no rule that a file keeps");
            let told = if version == "3" { told.clone() } else { Some(elsewhere) };
            let hints = out.lines().filter_map(|line| line.strip_prefix("        rule (8B)   "));
            assert_eq!(hints.map(String::from).collect::<Vec<_>>(), Vec::from_iter(told), "{out}");
            let word = if (version, rule) == ("3", "8B036F0601") { "  9000  " } else { "  6A80  " };
            assert!(out.contains(word), "{out}");
        }
    }
}
