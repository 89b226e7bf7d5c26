//! Why the search for a rule that a record keeps denies, as people are told.

use crate::referred::{folder, played, rules, write, SELECT_RULE_FILE};
use crate::refusals::{create, CLOSED};

/// What is told of 6F07 with a reference, in `show`, below a command that was
/// refused, and in a sentence, after some commands.
fn denies(reference: &str, before: &str, why: &str) {
    let folder = folder("referred-denied", reference);
    let many = before.lines().count();
    played(&folder, before, many);
    let told = rules(&folder).join(" ").replace("\n        ", " ");
    assert!(told.contains(&format!("of files: {reference}")), "{told}");
    assert!(told.contains(&format!("denies everything: {why}")), "{why}\n{told}");
    // The same below a refusal, and in a sentence.
    let script = "00A4000C023F00\n00A4000C027F10\n00A4000C026F07\n00B0000009\n";
    let out = folder.fed(&["run", "-", "--image", "card"], script).out;
    let out = out.replace(&format!("\n{:22}", ""), " ");
    let below =
        format!("{CLOSED}\n        rule (8B)   of 6F07, READ: never\n        denies      {why}\n");
    assert!(out.contains(&below), "{why}\n{out}");
    let err = folder.refused(1, &["read", "card", "7F10/6F07"]);
    assert!(err.ends_with(&format!("; rule of 6F07, READ: never, since {why}\n")), "{err}");
}

/// Each reason.
#[test]
fn why_a_search_denies_is_told() {
    let cyclic = "00E0000017 6215 82044621000C 83026F09 8A0105 8C020100 8002000C\n".to_string();
    for (reference, before, why) in [
        ("8B036F0902", String::new(), "there is no 6F09 from 3F00/7F10 up"),
        ("8B036F0702", String::new(), "the nearest 6F07 is this file itself"),
        (
            "8B036F0902",
            create("6F09", "8C0100"),
            "the nearest 6F09 in 3F00/7F10, found beside it, is a transparent file: only a linear \
             fixed one keeps rules",
        ),
        (
            "8B036F0902",
            cyclic,
            "the nearest 6F09 in 3F00/7F10, found beside it, is a cyclic file: only a linear fixed \
             one keeps rules",
        ),
        (
            "8B036F0600",
            String::new(),
            "record number 0 of 6F06 in 3F00, found 1 directory up: records count from 1",
        ),
        (
            "8B036F0604",
            String::new(),
            "6F06 in 3F00, found 1 directory up, has 3 records: 4 is past the last",
        ),
        (
            "8B036F0603",
            String::new(),
            "record 3 of 6F06 in 3F00, found 1 directory up, holds no rule, only FF",
        ),
        (
            "8B036F0603",
            SELECT_RULE_FILE.to_string() + &write(3, "80017FFFFFFFFFFFFFFFFFFF"),
            "record 3 of 6F06 in 3F00, found 1 directory up, holds no well-formed expanded rule: \
             byte 1 of 12: behind object 80 stands no condition: 90, 97, 9E, A0 or AF is wanted",
        ),
        (
            "8B036F0603",
            SELECT_RULE_FILE.to_string() + &write(3, "80017F9000FF00FFFFFFFFFF"),
            "record 3 of 6F06 in 3F00, found 1 directory up, holds no well-formed expanded rule: \
             byte 6 of 12: object FF is no condition: 90, 97, 9E, A0 or AF is wanted",
        ),
    ] {
        denies(reference, &before, why);
    }
}

/// A directory of the identifier hides what keeps rules further up.
#[test]
fn the_nearest_file_counts_whatever_it_is() {
    let folder = folder("referred-hidden", "8B036F0602");
    let hiding =
        create("7F20", "8C0100").replace("83027F20", "83026F06").replace("0120C6", "0001C6");
    assert!(rules(&folder)[3].contains("kept in record 2 of 6F06 in 3F00, found 1 directory up"));
    played(&folder, &("00A4000C027F10\n".to_string() + &hiding), 2);
    let why = "denies everything: the nearest 6F06 in 3F00/7F10, found beside it, is a directory:";
    let told = rules(&folder).join(" ");
    assert!(told.contains(why), "{told}");
    // 7F10 itself is looked up above it, and still finds its rule.
    assert!(told.contains("8B036F0601\n      kept in record 1 of 6F06 in 3F00, found beside it"));
}
