//! Card images in files: made, played on, shown; damaged ones are refused and
//! left alone.

use crate::folder::Folder;

const EXAMPLE: &str = include_str!("../../examples/first.apdu");
const EXAMPLE_TREE: &str = include_str!("../../examples/first.tree");

/// The example leaves a card that is shown exactly as the file beside it says.
#[test]
fn the_examples_card_is_shown_as_told() {
    let folder = Folder::new("example-tree");
    folder.write("first.apdu", EXAMPLE);
    folder.done(&["new", "my.card", "--slots", "8", "--total", "448"]);
    folder.done(&["run", "first.apdu", "--image", "my.card"]);
    assert_eq!(folder.done(&["show", "my.card"]), EXAMPLE_TREE);
}

/// A directory that was created with 06, and a file with 07: kept, told apart
/// from 04 and 05, and gone with the next change.
#[test]
fn life_cycles_with_bit_2_are_shown_in_words() {
    let folder = Folder::new("bit-2");
    folder.done(&["new", "card", "--slots", "8"]);
    folder.write(
        "script",
        "00E0000019 6217 82027821 83027F20 8A0106 8C03060000 81020080 C60100\n\
         00E0000015 6213 82024121 83026F07 8A0105 8C020100 80020009\n\
         00A4000C02 3F00\n\
         00A4000C02 7F20\n\
         00A4000C02 3F00\n\
         00E0000016 6214 82024121 83026F07 8A0107 8C03180000 80020009\n",
    );
    let out = folder.done(&["run", "script", "--image", "card"]);
    let words: Vec<_> = out.lines().filter_map(|line| line.get(28..32)).collect();
    assert_eq!(words[..6], ["9000", "6985", "9000", "6283", "9000", "9000"], "{out}");
    let lives = |out: &str| -> Vec<String> {
        let files = out.lines().skip(4).take(2);
        files.map(|line| line.chars().skip(28).take(16).collect()).collect()
    };
    let out = folder.done(&["show", "card"]);
    assert_eq!(lives(&out), ["deactivated (06)", "activated (07)  "], "{out}");
    folder.write("again", "00040000\n");
    folder.done(&["run", "again", "--image", "card"]);
    let out = folder.done(&["show", "card"]);
    assert_eq!(lives(&out), ["deactivated (06)", "deactivated     "], "{out}");
}

/// The first three commands of the example: 7F10, and in it 6F07 once.
fn three_commands() -> String {
    let lines: Vec<_> = EXAMPLE.lines().filter(|line| line.starts_with('0')).take(3).collect();
    lines.join("\n")
}

#[test]
fn an_image_is_made_played_on_and_shown() {
    let folder = Folder::new("image");
    let out = folder.done(&["new", "card", "--slots", "8", "--total", "448"]);
    assert!(out.starts_with("card: fresh card of version 3, 8 slots, root total 448"), "{out}");
    assert_eq!(folder.read("card").len(), 16 + 64 * 8 + 448);
    folder.write("script", three_commands());
    let out = folder.done(&["run", "script", "--image", "card"]);
    assert!(out.ends_with("card saved\n"), "{out}");
    assert_eq!(folder.names(), ["card", "script"], "no temporary file is left");
    let out = folder.done(&["show", "card"]);
    let lines: Vec<_> = out.lines().collect();
    assert_eq!(lines[0], "card of version 3, 8 slots: 3 used, 5 free");
    assert!(lines[3].starts_with("3F00 "), "{out}");
    assert!(lines[3].contains("448            1  [##############......] 128 left"), "{out}");
    assert!(lines[4].starts_with("`- 7F10 "), "{out}");
    assert!(lines[4].contains("183 left  <- current directory"), "{out}");
    assert!(lines[5].starts_with("   `- 6F07 "), "{out}");
    assert!(lines[5].contains("transparent   activated") && lines[5].contains("  9"), "{out}");
    assert!(lines[5].ends_with("<- current file"), "{out}");
}

#[test]
fn what_was_saved_is_there_at_the_next_run() {
    let folder = Folder::new("twice");
    folder.done(&["new", "card", "--slots", "8", "--total", "448"]);
    folder.write("script", three_commands());
    folder.done(&["run", "script", "--image", "card"]);
    folder.write("again", "00A4000C026F07\n");
    let out = folder.done(&["run", "again", "--image", "card"]);
    assert!(out.contains("SELECT 6F07") && out.contains("9000"), "{out}");
    assert!(out.ends_with("card is as it was\n"), "it was selected already: {out}");
}

#[test]
fn names_records_and_life_cycles_are_shown() {
    let folder = Folder::new("tree");
    folder.done(&["new", "card", "--slots", "8"]);
    folder.write(
        "script",
        "00E0000020 621E 82027821 83027F20 8405A000000087 8A0104 8C03060000 81020080 C60100\n\
         00A4000C023F00\n\
         00E0000017 6215 82044221000A 83026F3A 8A0103 8C020100 80020014\n",
    );
    let out = folder.done(&["run", "script", "--image", "card"]);
    assert_eq!(out.matches("9000").count(), 3, "{out}");
    let out = folder.done(&["show", "card"]);
    assert!(out.contains("|- 7F20"), "{out}");
    assert!(out.contains("deactivated") && out.contains("name A000000087"), "{out}");
    assert!(
        out.contains("linear fixed  initialisation") && out.contains("2 records of 10"),
        "{out}"
    );
}

#[test]
fn the_deepest_card_is_shown() {
    let folder = Folder::new("deep");
    folder.done(&["new", "card", "--slots", "1023"]);
    let script: String = (1..1022u32)
        .map(|number| {
            let (identifier, total) = (0x7000 + number, 64 * (1022 - number));
            format!("00E000001E 621C 82027821 8302{identifier:04X} 8A0105 8C087F00000000000000 8102{total:04X} C60100\n")
        })
        .collect();
    folder.write("script", script);
    let out = folder.done(&["run", "script", "--image", "card"]);
    assert_eq!(out.matches("9000  done").count(), 1021);
    let out = folder.done(&["show", "card"]);
    assert!(out.contains("(level 1021) 73FD"), "the innermost directory");
    assert!(out.lines().all(|line| line.len() < 200), "no line runs away");
}

#[test]
fn a_file_is_replaced_only_when_told_so() {
    let folder = Folder::new("replace");
    folder.write("card", "precious");
    let err = folder.refused(1, &["new", "card"]);
    assert!(err.contains("exists already") && err.contains("--force"), "{err}");
    assert_eq!(folder.read("card"), b"precious");
    folder.done(&["new", "card", "--force"]);
    assert_eq!(folder.read("card").len(), 16 + 64 * 64 + 64 * 63);
}

#[test]
fn a_save_that_fails_leaves_nothing_behind() {
    let folder = Folder::new("fails");
    std::fs::create_dir_all(folder.path("card/inside")).expect("a folder");
    let err = folder.refused(1, &["new", "card", "--force"]);
    assert!(err.contains("nothing was saved"), "{err}");
    assert_eq!(folder.names(), ["card"], "no temporary file is left");
    assert!(folder.refused(1, &["new", "no/such/folder/card"]).contains("nothing was saved"));
}

#[test]
fn a_read_only_image_is_not_replaced() {
    let folder = Folder::new("read-only");
    folder.done(&["new", "card"]);
    let before = folder.read("card");
    let mut permissions = folder.path("card").metadata().expect("it is there").permissions();
    permissions.set_readonly(true);
    std::fs::set_permissions(folder.path("card"), permissions).expect("it can be set");
    folder.write("script", "00040000\n");
    let err = folder.refused(1, &["run", "script", "--image", "card"]);
    assert!(err.contains("read-only"), "{err}");
    folder.refused(1, &["new", "card", "--force"]);
    assert_eq!(folder.read("card"), before);
    assert_eq!(folder.names(), ["card", "script"]);
}

#[cfg(unix)]
#[test]
fn a_link_stays_a_link() {
    let folder = Folder::new("link");
    folder.done(&["new", "card"]);
    std::os::unix::fs::symlink("card", folder.path("link")).expect("a link");
    folder.write("script", "00040000\n");
    folder.done(&["run", "script", "--image", "link"]);
    assert!(folder.path("link").symlink_metadata().expect("it is there").is_symlink());
    assert!(folder.done(&["show", "card"]).contains("deactivated"));
}
