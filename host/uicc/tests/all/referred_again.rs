//! `uicc export` of cards whose rules stand in records of files: these come
//! first, are opened where they no longer allow what was done, and what is lost
//! all the same is told.

use model::rule::Form;

use crate::cards::{tree, Kept};
use crate::folder::{Folder, Ran};
use crate::making_again::again;
use crate::refusals::create;

/// The record of a rule file: all rights always; READ only.
const OPEN: &str = "80017F9000FF";
const READ_ONLY: &str = "8001019000FF";
const OPENED: &str =
    "# Records that keep rules allow everything until all that they rule is made.\n";

/// CREATE of a rule file of two records of 6 bytes, with a rule, an object.
fn rule_file(identifier: &str, rule: &str) -> String {
    let objects = format!("8204422100068302{identifier}8A0105{rule}8002000C");
    let length = objects.len() / 2;
    format!("00E00000{:02X}62{length:02X}{objects}\n", length + 2)
}

/// SELECT of files one after the other.
fn select(path: &[&str]) -> String {
    path.iter().map(|identifier| format!("00A4000C02{identifier}\n")).collect()
}

fn update_record(number: u8, rule: &str) -> String {
    format!("00DC{number:02X}0406{rule}\n")
}

const ALWAYS: &str = "8C087F00000000000000";
const UPDATE: &str = "00D6000003414243\n";

/// A folder with the card `old` on which all these commands were done.
fn folder(name: &str, script: &[String]) -> Folder {
    let folder = Folder::new(name);
    folder.done(&["new", "old", "--slots", "16"]);
    let script = script.concat();
    let out = folder.fed(&["run", "-", "--image", "old"], &script).out;
    assert_eq!(out.matches("  9000  ").count(), script.lines().count(), "{out}");
    folder
}

/// The card comes back as a whole; gives the script.
fn whole(folder: &Folder) -> String {
    let (Ran { status, out, err }, new) = again(folder);
    assert_eq!((status, err.as_str()), (0, ""), "{out}");
    assert_eq!(tree(&new), tree(&Kept::read(&folder.read("old"))), "{out}");
    out
}

/// What the script makes, file by file.
fn files(script: &str) -> Vec<&str> {
    let named = script.lines().filter_map(|line| line.strip_prefix("# "));
    named
        .filter_map(|line| line.split_once(" in ").filter(|(name, _)| name.len() == 4))
        .map(|(name, _)| name)
        .collect()
}

/// The rule file is the card's last, and the directory's rule stands in it.
#[test]
fn what_keeps_rules_comes_first() {
    let script = [
        create("6F07", "8B036F0602"),
        create("7F10", "8B036F0601"),
        select(&["3F00"]),
        rule_file("6F06", ALWAYS),
        update_record(1, OPEN) + &update_record(2, OPEN),
        select(&["3F00", "6F07"]) + UPDATE,
        select(&["3F00", "7F10"]) + &create("6F08", "8B036F0602") + UPDATE,
    ];
    let script = whole(&folder("referred-first", &script));
    assert_eq!(files(&script), ["6F06", "6F07", "7F10", "6F08"], "{script}");
    assert!(!script.contains(OPENED), "{script}");
}

/// The rules allowed once what they allow no longer: their records stand open.
#[test]
fn what_was_closed_since_is_opened() {
    let script = [
        rule_file("6F06", ALWAYS),
        update_record(1, OPEN) + &update_record(2, OPEN),
        create("7F10", "8B036F0601"),
        create("6F07", "8B036F0602") + UPDATE,
        select(&["3F00", "6F06"]),
        update_record(1, READ_ONLY) + &update_record(2, READ_ONLY),
        "00040000\n".to_string(),
    ];
    let script = whole(&folder("referred-closed", &script));
    assert!(script.contains(OPENED), "{script}");
    let close = "# what 6F06 in 3F00 held\n00A4000C02 3F00\n00A4000C02 6F06\n\
                 00DC010406 8001019000FF\n00DC020406 8001019000FF\n\
                 # 6F06 in 3F00 is to become deactivated (04)\n00040000\n";
    assert!(script.ends_with(close), "{script}");
}

/// 6F05 rules 6F06, which rules 6F07; then both are closed, the first one last.
#[test]
fn a_chain_of_rule_files_comes_back() {
    let script = [
        create("6F07", "8B036F0601"),
        rule_file("6F06", "8B036F0501"),
        rule_file("6F05", ALWAYS) + &update_record(1, OPEN),
        select(&["6F06"]) + &update_record(1, OPEN),
        select(&["6F07"]) + UPDATE,
        select(&["6F06"]) + &update_record(1, READ_ONLY),
        select(&["6F05"]) + &update_record(1, READ_ONLY),
    ];
    let script = whole(&folder("referred-chain", &script));
    assert_eq!(files(&script), ["6F05", "6F06", "6F07"], "{script}");
    let place = |what: &str| script.find(what).unwrap_or_else(|| panic!("{what}\n{script}"));
    assert!(place("# what 6F06 in 3F00 held") < place("# what 6F05 in 3F00 held"), "{script}");
}

/// What a transparent file hides was done before it was there.
#[test]
fn what_hides_a_rule_file_comes_last() {
    let script = [
        rule_file("6F06", ALWAYS) + &update_record(1, OPEN),
        // The slot of 6F0F becomes that of the transparent 6F06.
        create("7F10", ALWAYS) + &create("6F0F", ALWAYS),
        create("6F07", "8B036F0601") + UPDATE,
        "00E40000026F0F\n".to_string() + &create("6F06", ALWAYS),
    ];
    let folder = folder("referred-hidden-again", &script);
    let script = whole(&folder);
    assert_eq!(files(&script), ["6F06", "7F10", "6F07", "6F06"], "{script}");
}

/// What is lost, as standard error tells it.
fn lost(folder: &Folder) -> Vec<String> {
    let (Ran { status, out, err }, _) = again(folder);
    assert_eq!(status, 4, "{out}");
    let told = |line: &str| line.strip_prefix("uicc: old: lost: ").expect(line).to_string();
    let lost: Vec<_> = err.lines().map(told).collect();
    lost.iter().for_each(|what| assert!(out.contains(&format!("# LOST: {what}\n")), "{out}"));
    lost
}

const SINCE: &str = "is answered 6982, security status not satisfied: closed, no authentication \
                     opens the rule; rule of";

#[test]
fn without_its_rule_file_a_file_stays_empty() {
    let script = [
        rule_file("6F06", ALWAYS) + &update_record(1, OPEN),
        create("6F07", "8B036F0601") + UPDATE,
        "00E40000026F06\n".to_string(),
    ];
    let told = lost(&folder("referred-deleted", &script));
    let why = format!("{SINCE} 6F07, UPDATE: never, since there is no 6F06 in 3F00");
    let what = "what 6F07 in 3F00 holds does not come back from byte 0 on";
    assert_eq!(told, [format!("{what}: UPDATE BINARY from 0 (3 bytes) {why}")]);
}

/// Two rule files that rule one another: another file stood there before.
#[test]
fn a_ring_is_told() {
    let script = [
        rule_file("6F06", ALWAYS) + &update_record(1, OPEN),
        rule_file("6F05", "8B036F0601") + &update_record(1, OPEN),
        "00E40000026F06\n".to_string(),
        rule_file("6F06", "8B036F0501") + &update_record(1, OPEN),
    ];
    let told = lost(&folder("referred-ring", &script));
    assert_eq!(told.len(), 2, "{told:#?}");
    for (name, what) in ["6F06", "6F05"].iter().zip(&told) {
        let begins = format!("what {name} in 3F00 holds does not come back from byte 0 on: ");
        assert!(what.starts_with(&begins), "{what}");
        assert!(what.contains(&format!("{SINCE} {name}, UPDATE: never, since ")), "{what}");
    }
}

/// A root with a reference comes only from elsewhere: on a fresh card it allows
/// nothing.
#[test]
fn a_root_with_a_reference_loses_its_files() {
    let script = [
        rule_file("6F06", ALWAYS) + &update_record(1, OPEN),
        create("7F10", ALWAYS) + &create("6F07", ALWAYS),
    ];
    let folder = folder("referred-root-again", &script);
    let mut kept = Kept::read(&folder.read("old"));
    let mut root = kept.card.record(0).clone();
    (root.form, root.rule) = (Form::Referred, vec![0x6F, 0x06, 0x01]);
    kept.card.put(0, root);
    folder.write("old", kept.bytes());
    assert!(folder
        .done(&["show", "old"])
        .contains("kept in record 1 of 6F06 in 3F00, found in it"));
    let why = |name: &str, right: &str| {
        format!("CREATE FILE {name} {SINCE} 3F00, {right}: never, since there is no 6F06 in 3F00")
    };
    let told = lost(&folder);
    let wanted = [
        format!("6F06 in 3F00 does not come back: {}", why("6F06", "CREATE EF")),
        format!(
            "7F10 in 3F00 does not come back, nor the file beneath it: {}",
            why("7F10", "CREATE DF")
        ),
    ];
    assert_eq!(told, wanted);
}
