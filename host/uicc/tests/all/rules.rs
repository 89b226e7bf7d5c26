//! Cards of version 2 and expanded rules, from the command line to the script
//! that makes them again.

use crate::folder::Folder;

/// Create: user 1, or both external 2 and messaging 2. Delete itself: always.
const BANK: &str = "AB138001069E0111AF069E01229E01428001409000";
/// Delete: one of user 1 and all of (user 2, one of (user 3, all of (user 4, user
/// 5))).
const DEEP: &str = "AB1A800140A0159E0111AF109E0112A00B9E0113AF069E01149E0115";
/// 30 bytes, four deep.
const LONGEST: &str = "AB1E80017FA0199000AF159000A0119000AF0D900090009000900097009E0111";
/// Compact, and too long for version 1.
const SEVENTEEN: &str = "8C110000000000000000000000000000000100";

/// The CREATE of a file: its objects up to the rule, the rule, its size.
fn create(identifier: &str, rule: &str) -> String {
    let (descriptor, size) = match identifier {
        "7F10" => ("82023821", "81020100C60100"),
        _ => ("82024121", "80020009"),
    };
    let objects = format!("{descriptor}8302{identifier}8A0105{rule}{size}");
    let length = objects.len() / 2;
    format!("00E00000{:02X}62{length:02X}{objects}\n", length + 2)
}

/// A directory and two files in it, with a rule each.
fn script() -> String {
    create("7F10", BANK) + &create("6F07", LONGEST) + &create("6F08", SEVENTEEN)
}

fn folder(name: &str) -> Folder {
    let folder = Folder::new(name);
    folder.write("script", script());
    folder.done(&["new", "card", "--version", "2", "--slots", "8", "--rule", BANK]);
    folder
}

#[test]
fn a_card_of_version_2_is_made_and_shown() {
    let folder = Folder::new("version-2");
    let bare = &BANK[4..];
    for (name, rule) in [("object", BANK), ("bare", bare)] {
        let made = folder.done(&["new", name, "--version", "2", "--slots", "4", "--rule", rule]);
        let told = format!("fresh card of version 2, 4 slots, root total 192, root rule {BANK}\n");
        assert_eq!(made, format!("{name}: {told}"));
    }
    assert_eq!(folder.read("object"), folder.read("bare"));
    let out = folder.done(&["show", "bare"]);
    assert!(out.starts_with("card of version 2, 4 slots: 1 used, 3 free\n"), "{out}");
    let rule = format!(
        "\nrule 1, of directories, in their own records: {BANK}\n\
         \x20     DELETE: always\n\
         \x20     TERMINATE, ACTIVATE, DEACTIVATE, DELETE CHILD: never\n\
         \x20     CREATE DF, CREATE EF: user authentication 1 or \
         (external authentication 2 and secure messaging 2)\n"
    );
    assert!(out.ends_with(&rule), "{out}");
    for kind in ["1", "2", "3"] {
        let arguments = ["new", "card", "--version", kind, "--force", "--rule", "8C020100"];
        assert!(folder.done(&arguments).ends_with("root rule 0100\n"));
    }
}

/// The rule of a fresh card decides as it is told.
#[test]
fn the_state_decides_an_expanded_rule() {
    let folder = folder("version-2-state");
    folder.write("create", "00E0000015 6213 82024121 83026F07 8A0105 8C020100 80020009\n");
    for (messaging, external, user, word) in [
        ("0000", "0000", "0000", "6982"),
        ("0000", "0000", "0002", "9000"),
        ("0004", "0000", "0000", "6982"),
        ("0004", "0004", "0000", "9000"),
    ] {
        let state = ["--messaging", messaging, "--external", external, "--user", user];
        let fresh = ["run", "create", "--version", "2", "--rule", BANK];
        let out = folder.done(&[&fresh[..], &state].concat());
        assert!(out.contains(word), "{state:?}: {out}");
    }
}

#[test]
fn rules_are_shown_once_and_in_words() {
    let folder = folder("version-2-rules");
    let out = folder.done(&["run", "script", "--image", "card"]);
    assert_eq!(out.matches("9000  done").count(), 3, "{out}");
    // Another file with the same rule; in the root one with a directory's.
    let more = [create("6F09", SEVENTEEN), "00A4000C023F00\n".to_string(), create("6F0A", BANK)];
    folder.write("more", more.concat());
    folder.done(&["run", "more", "--image", "card"]);
    let out = folder.done(&["show", "card"]);
    let column = |line: &str| line.chars().skip(56).take(4).collect::<String>();
    let rules: Vec<_> = out.lines().skip(2).take(7).map(column).collect();
    assert_eq!(rules, ["rule", "   1", "   1", "   2", "   3", "   3", "   4"], "{out}");
    for told in [
        format!("rule 1, of directories, in their own records: {BANK}\n      DELETE: always\n"),
        format!("rule 2, of files, in their own records: {LONGEST}\n      DELETE, TERMINATE, "),
        format!("rule 3, of files, in their own records: {SEVENTEEN}\n      DELETE, TERMINATE, "),
        "      READ: always\n".to_string(),
        format!("rule 4, of files, in their own records: {BANK}\n"),
        "      WRITE, UPDATE: user authentication 1 or (external".to_string(),
    ] {
        assert!(out.contains(&told), "{told}{out}");
    }
    assert_eq!(out.matches("\nrule ").count(), 4, "{out}");
}

#[test]
fn an_expanded_template_is_told_in_words() {
    let folder = folder("version-2-template");
    folder.done(&["run", "script", "--image", "card"]);
    let out = folder.fed(&["run", "-", "--image", "card"], "00A4000402 3F00 00\n").out;
    let told = "        rule (AB)   DELETE: always; \
                TERMINATE, ACTIVATE, DEACTIVATE, DELETE CHILD: never; CREATE DF, CREATE EF:\n\
                \x20                     user authentication 1 or (external authentication 2 and secure messaging 2)\n";
    assert!(out.contains(told), "{out}");
}

/// Why 6A80, where it is the rule.
#[test]
fn a_wrong_rule_is_told_below_its_line() {
    let folder = folder("version-2-hints");
    let wrong = [
        create("6F07", "AB0580017F9000"),
        create("6F08", SEVENTEEN),
        create("6F07", "AB029000"),
        create("6F07", "8C020300"),
        create("6F07", "8C020100").replace("8A0105", "8A010C"),
        "00E0000003620182".to_string(),
    ];
    folder.write("wrong", wrong.concat());
    let hints = |out: &str| -> Vec<String> {
        out.lines()
            .filter_map(|line| line.strip_prefix("        rule "))
            .map(String::from)
            .collect()
    };
    let malformed = "(8C)   malformed: byte 1 of 2: the AM byte 03 asks for 2 SC bytes: 1 follow";
    let expanded = "(AB)   a card of version 1 takes no expanded rule";
    let out = folder.done(&["run", "wrong", "--version", "1"]);
    let long = "(8C)   17 bytes, and a card of version 1 takes 1 to 16";
    assert_eq!(hints(&out), [expanded, long, expanded, malformed], "{out}");
    assert_eq!(out.matches("6A80").count(), 6, "{out}");
    let begins = "(AB)   malformed: byte 1 of 2: a rule begins with object 80, not 90";
    for version in ["2", "3"] {
        let out = folder.done(&["run", "wrong", "--version", version]);
        assert_eq!(hints(&out), [begins, malformed], "{out}");
        assert_eq!(out.matches("6A80").count(), 4, "{out}");
    }
    folder.write("long", create("6F07", LONGEST));
    let out = folder.done(&["run", "long"]);
    assert_eq!(hints(&out), ["(AB)   30 bytes, and a card of version 3 takes 1 to 28"], "{out}");
}

/// A rule elsewhere, twice or nowhere, whatever the card's version.
#[test]
fn a_rule_that_is_not_found_is_told_below_its_line() {
    let folder = folder("version-2-not-found");
    for (rule, told) in [
        ("8C020100AB0580017F9000", "the rule stands in 8C and in AB: one of them is wanted"),
        ("AB0580017F90008C020100", "the rule stands in AB and in 8C: one of them is wanted"),
        ("8C0201008C020100", "the rule stands in 8C and in 8C: one of them is wanted"),
        ("8C0201008B036F0601", "the rule stands in 8C and in 8B: one of them is wanted"),
        ("8B036F0601AB0580017F9000", "the rule stands in 8B and in AB: one of them is wanted"),
        ("", "no rule: neither 8C, AB nor 8B"),
    ] {
        folder.write("wrong", create("6F07", rule));
        for version in ["1", "2", "3"] {
            let out = folder.done(&["run", "wrong", "--version", version]);
            let lines: Vec<_> = out.lines().skip(1).collect();
            assert_eq!(lines.len(), 3, "{out}");
            assert!(lines[0].contains("CREATE FILE") && lines[0].contains("  6A80  "), "{out}");
            assert_eq!(lines[1], format!("        rule        {told}"), "{out}");
        }
    }
}

/// What `DEEP` allows, behind so many columns, in two lines.
fn deep_words(indent: usize) -> String {
    format!(
        "DELETE: user authentication 1 or (user authentication 2 and (user authentication 3 \
         or (user authentication 4\n{:1$}and user authentication 5)))",
        "",
        indent + 2
    )
}

/// In `show` and below a SELECT as in `rule`.
#[test]
fn a_long_rule_is_told_in_several_lines() {
    let folder = Folder::new("version-2-long");
    folder.done(&["new", "card", "--version", "2", "--slots", "4", "--rule", DEEP]);
    let shown = folder.done(&["show", "card"]);
    let head = "rule 1, of directories, in their own records";
    let wanted = format!("{head}: {DEEP}\n      {}\n      TERM", deep_words(6));
    assert!(shown.contains(&wanted), "{shown}");
    let told = folder.fed(&["run", "-", "--image", "card"], "00A4000402 3F00 00\n").out;
    let wanted = "        rule (AB)   DELETE: user authentication 1 or (user authentication 2 \
                  and (user authentication 3\n\
                  \x20                     or (user authentication 4 and user authentication 5)));";
    assert!(told.contains(wanted), "{told}");
    let lines: Vec<_> = shown.lines().chain(told.lines()).collect();
    assert!(lines.iter().all(|line| line.len() <= 120), "{shown}{told}");
}

#[test]
fn a_rule_is_explained() {
    let folder = Folder::new("explained");
    let out = folder.done(&["rule", BANK]);
    assert_eq!(
        out,
        "expanded rule (AB) of 19 bytes, for cards of version 2 and 3\n\
         \x20  3  800106  CREATE DF, CREATE EF (file: WRITE, UPDATE)\n\
         \x20  6  9E0111    user authentication 1\n\
         \x20  9  AF06      or all of\n\
         \x20 11  9E0122      external authentication 2\n\
         \x20 14  9E0142      secure messaging 2\n\
         \x20 17  800140  DELETE\n\
         \x20 20  9000      always\n\
         in a directory:\n\
         \x20 DELETE: always\n\
         \x20 TERMINATE, ACTIVATE, DEACTIVATE, DELETE CHILD: never\n\
         \x20 CREATE DF, CREATE EF: user authentication 1 or \
         (external authentication 2 and secure messaging 2)\n\
         in a file with a body:\n\
         \x20 DELETE: always\n\
         \x20 TERMINATE, ACTIVATE, DEACTIVATE, READ: never\n\
         \x20 WRITE, UPDATE: user authentication 1 or \
         (external authentication 2 and secure messaging 2)\n"
    );
    let bare: Vec<&str> = ["rule", "80 01 06", "9E0111", "AF06", "9E01229E0142"].to_vec();
    assert!(folder.done(&bare).contains("\n   7  AF06      or all of\n"));
    let deep = folder.done(&["rule", DEEP]);
    assert_eq!(deep.matches(&deep_words(2)).count(), 2, "{deep}");
    assert!(folder.done(&["rule", "06", "00FF"]).contains(
        "   1  06      CREATE DF, CREATE EF (file: WRITE, UPDATE)\n\
         \x20  2  00        CREATE DF (file: WRITE): always\n\
         \x20  3  FF        CREATE EF (file: UPDATE): never\n"
    ));
}

#[test]
fn a_malformed_rule_is_refused() {
    let folder = Folder::new("malformed");
    for (arguments, told) in [
        (&["rule", "AB0380017F"][..], "byte 3 of 5: behind object 80 stands no condition"),
        (&["rule", "0300"], "byte 1 of 2: the AM byte 03 asks for 2 SC bytes: 1 follow"),
        (&["rule", "FF"], "byte 1 of 1: FF begins no rule"),
        (&["rule", ""], "uicc: a rule has at least one byte\n"),
        (&["rule", "AB8180017F9000"], "byte 2 of 7: the length 81 of object AB is over 7F"),
    ] {
        let err = folder.refused(1, arguments);
        assert!(err.contains(told), "{arguments:?}: {err}");
    }
    assert!(folder.names().is_empty());
}

/// A card of version 2 keeps its version, also where version 1 could hold all
/// of it.
#[test]
fn a_card_of_version_2_is_made_again() {
    for (name, rule, script) in [
        ("again-expanded", BANK, script()),
        ("again-compact", "7F00000000000000", "00040000\n".to_string()),
    ] {
        let folder = Folder::new(name);
        folder.write("script", script);
        folder.done(&["new", "old", "--version", "2", "--slots", "8", "--rule", rule]);
        folder.done(&["run", "script", "--image", "old"]);
        let script = folder.done(&["export", "old"]);
        let line = format!("new NEW.card --version 2 --slots 8 --total 448 --rule {rule}");
        assert!(script.contains(&format!("#     uicc {line}\n")), "{script}");
        folder.write("THIS.apdu", &script);
        folder.done(&line.split(' ').collect::<Vec<_>>());
        folder.done(&["run", "THIS.apdu", "--image", "NEW.card"]);
        assert_eq!(folder.read("NEW.card"), folder.read("old"), "{script}");
    }
}
