//! What is told where a rule refuses (6982): whether anything opens it, whose
//! rule it is, what it asks for and what of that is missing.

use crate::folder::Folder;

pub const LACKING: &str =
    "6982  security status not satisfied: lacking, more authentication opens the rule";
pub const CLOSED: &str =
    "6982  security status not satisfied: closed, no authentication opens the rule";

/// A sentence about a command that no authentication opens, by a rule.
pub fn closed(rule: &str) -> String {
    format!(
        "is answered 6982, security status not satisfied: closed, no authentication opens the rule; \
         rule of {rule}: never"
    )
}

/// CREATE of a directory or a file with a rule, an object.
pub fn create(identifier: &str, rule: &str) -> String {
    let (descriptor, size) = match identifier.starts_with("7F") {
        true => ("82027821", "81020120C60100"),
        false => ("82024121", "80020009"),
    };
    let objects = format!("{descriptor}8302{identifier}8A0105{rule}{size}");
    let length = objects.len() / 2;
    format!("00E00000{:02X}62{length:02X}{objects}\n", length + 2)
}

/// A folder with a card of these files; a directory is current from then on.
fn folder(name: &str, files: &[(&str, &str)]) -> Folder {
    let folder = Folder::new(name);
    folder.done(&["new", "card"]);
    let script: String = files.iter().map(|(identifier, rule)| create(identifier, rule)).collect();
    let out = folder.fed(&["run", "-", "--image", "card"], &script).out;
    assert_eq!(out.matches("9000").count(), files.len(), "{out}");
    folder
}

/// What is printed below the image's name, but for the last two lines.
fn played(folder: &Folder, script: &str, state: &[&str]) -> Vec<String> {
    let ran = folder.fed(&[&["run", "-", "--image", "card"], state].concat(), script);
    assert_eq!((ran.status, ran.err.as_str()), (0, ""), "{script}");
    let lines: Vec<_> = ran.out.lines().map(str::to_string).collect();
    lines[1..lines.len() - 2].to_vec()
}

/// Nothing is done.
pub const NONE: [&str; 6] = ["--messaging", "0000", "--external", "0000", "--user", "0000"];

#[test]
fn a_refusal_says_what_would_open_it() {
    // DELETE: user 2; DEACTIVATE: never; UPDATE: external 3 and user 3; READ:
    // external 1. TERMINATE stands in no group.
    let folder = folder("refused", &[("6F07", "8C054B12FFB321")]);
    let script = "00B0000009\n00D6000001FF\n00040000\n00E80000\n";
    let wanted = [
        format!("   1  READ BINARY from 0             {LACKING}"),
        "        rule (8C)   of 6F07, READ: external authentication 1".to_string(),
        format!("   2  UPDATE BINARY from 0 (1 byte)  {LACKING}"),
        "        rule (8C)   of 6F07, UPDATE: external authentication 3 and user authentication 3"
            .to_string(),
        format!("   3  DEACTIVATE FILE                {CLOSED}"),
        "        rule (8C)   of 6F07, DEACTIVATE: never".to_string(),
        format!("   4  TERMINATE EF                   {CLOSED}"),
        "        rule (8C)   of 6F07, TERMINATE: never".to_string(),
    ];
    assert_eq!(played(&folder, script, &NONE), wanted);
    // A part of it is done.
    let some = played(&folder, script, &["--user", "0000"]);
    assert_eq!(some[0], "   1  READ BINARY from 0             9000  done");
    let missing = "        missing     user authentication 3".to_string();
    let part = [&wanted[2..4], &[missing], &wanted[4..]].concat();
    assert_eq!(some[some.len() - part.len()..], part);
    // What is closed stays so, whatever is done.
    let all = played(&folder, "00040000\n", &[]);
    assert_eq!(all, [format!("   1  DEACTIVATE FILE       {CLOSED}"), wanted[5].clone()]);
}

#[test]
fn a_directorys_rule_is_named_in_either_form() {
    // Create: user 1, or both external 2 and messaging 2; delete itself: always.
    let rule = "AB138001069E0111AF069E01229E01428001409000";
    let folder = folder("refused-expanded", &[("7F10", rule)]);
    let script = create("7F20", "8C0100") + &create("6F07", "8C0100") + "00E60000\n";
    let need = "user authentication 1 or (external authentication 2 and secure messaging 2)";
    let missing = "        missing     user authentication 1 or secure messaging 2".to_string();
    let wanted = [
        format!("   1  CREATE FILE 7F20      {LACKING}"),
        format!("        rule (AB)   of 7F10, CREATE DF: {need}"),
        missing.clone(),
        format!("   2  CREATE FILE 6F07      {LACKING}"),
        format!("        rule (AB)   of 7F10, CREATE EF: {need}"),
        missing,
        format!("   3  TERMINATE DF          {CLOSED}"),
        "        rule (AB)   of 7F10, TERMINATE: never".to_string(),
    ];
    assert_eq!(played(&folder, &script, &["--user", "0000", "--messaging", "FFFB"]), wanted);
}

/// The file's own rule and its directory's, of which one suffices: the library
/// says lacking where one of them is.
#[test]
fn delete_names_both_rules() {
    let (asks, never) = ("user authentication 1", "never");
    for (own, own_need, above, above_need, told) in [
        ("8C0240FF", never, "8C03030011", asks, LACKING),
        ("8C024011", asks, "8C020200", never, LACKING),
        ("8C024011", asks, "8C03030011", asks, LACKING),
        ("8C0100", never, "8C020200", never, CLOSED),
    ] {
        let folder = folder("refused-delete", &[("7F10", above), ("6F07", own)]);
        let lines = played(&folder, "00E40000026F07\n", &NONE);
        let wanted = [
            format!("   1  DELETE FILE 6F07      {told}"),
            format!("        rule (8C)   of 6F07, DELETE: {own_need}"),
            format!("        rule (8C)   or of 7F10, DELETE CHILD: {above_need}"),
        ];
        assert_eq!(lines, wanted, "{own} {above}");
    }
}

/// 42 conditions: `run` folds them, and a sentence leaves them to `uicc show`.
#[test]
fn a_long_rule_is_readable() {
    let conditions: String = (0..14).map(|environment| format!("017{environment:X}")).collect();
    let folder = folder("refused-long", &[("6F07", &format!("8C1C{conditions}"))]);
    let lines = played(&folder, "00B0000009\n", &NONE);
    assert!(lines.len() > 8 && lines.iter().all(|line| line.len() <= 120), "{lines:#?}");
    assert!(lines[1].starts_with("        rule (8C)   of 6F07, READ: secure messaging 0 or "));
    let told = lines.iter().map(|line| line.trim()).collect::<Vec<_>>().join(" ");
    for environment in 0..14 {
        for kind in ["secure messaging", "external authentication", "user authentication"] {
            let need = format!(" {kind} {environment} or ");
            let last = format!(" {kind} {environment}");
            assert!(told.contains(&need) || told.ends_with(&last), "{need}{lines:#?}");
        }
    }
    let err = folder.refused(1, &[&["read", "card", "6F07"], &NONE[..]].concat());
    let end =
        "lacking, more authentication opens the rule; uicc show tells the long rule of 6F07, READ\n";
    assert!(err.ends_with(end), "{err}");
}
