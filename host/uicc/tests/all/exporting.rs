//! `uicc export`: what the script says, and what is told as lost.

use model::edition::Edition;
use model::{Card, Kind, Record};

use crate::folder::Folder;
use crate::refusals::closed;

const OPEN: [u8; 8] = [0x7F, 0, 0, 0, 0, 0, 0, 0];
/// Allows nothing.
const CLOSED: [u8; 1] = [0x00];
/// Allows CREATE of both kinds, and nothing else.
const CREATES: [u8; 3] = [0x06, 0x00, 0x00];

fn file(identifier: u16, parent: u16, life_cycle: u8, rule: &[u8]) -> Record {
    Record {
        kind: Kind::Ef,
        descriptor: 0x41,
        life_cycle,
        identifier,
        parent,
        level: if parent == 0 { 1 } else { 2 },
        size: 1,
        rule: rule.to_vec(),
        ..Record::FREE
    }
}

fn directory(identifier: u16, life_cycle: u8, rule: &[u8]) -> Record {
    let level = u16::from(identifier != 0x3F00);
    let size = if level == 0 { 1280 } else { 130 };
    let file = file(identifier, 0, life_cycle, rule);
    Record { kind: Kind::Df, descriptor: 0x38, level, size, ..file }
}

/// A card of these files, the root first.
fn card(files: &[Record]) -> Vec<u8> {
    let mut records = files.to_vec();
    records.resize(21, Record::FREE);
    Card { edition: Edition::BASE, current_df: 0, current_ef: None, records }.encode()
}

/// The commands of a script, and its comments but the first five.
fn parts(script: &str) -> (Vec<&str>, Vec<&str>) {
    let lines = script.lines().filter(|line| !line.is_empty());
    let (comments, commands): (Vec<_>, Vec<_>) = lines.partition(|line| line.starts_with('#'));
    (commands, comments.into_iter().skip(5).collect())
}

/// A terminated card with directories and files in all life cycles.
fn all_life_cycles() -> Vec<u8> {
    card(&[
        directory(0x3F00, 0x0C, &OPEN),
        directory(0x7F01, 0x04, &OPEN),
        file(0x6F01, 1, 0x06, &CLOSED),
        file(0x6F02, 1, 0x0C, &OPEN),
        directory(0x7F02, 0x0C, &OPEN),
        directory(0x7F03, 0x06, &CLOSED),
        directory(0x7F04, 0x0C, &OPEN),
        file(0x6F03, 6, 0x07, &CLOSED),
    ])
}

const COMMANDS: [&str; 18] = [
    "00E000001E 621C 82023821 83027F01 8A0105 8C087F00000000000000 81020082 C60100",
    "00E0000014 6212 82024121 83026F01 8A0106 8C0100 80020001",
    "00E000001B 6219 82024121 83026F02 8A0105 8C087F00000000000000 80020001",
    "00E80000",
    "00A4000C02 7F01",
    "00040000",
    "00A4000C02 3F00",
    "00E000001E 621C 82023821 83027F02 8A0105 8C087F00000000000000 81020082 C60100",
    "00E60000",
    "00A4000C02 3F00",
    "00E0000017 6215 82023821 83027F03 8A0106 8C0100 81020082 C60100",
    "00A4000C02 3F00",
    "00E000001E 621C 82023821 83027F04 8A0105 8C087F00000000000000 81020082 C60100",
    "00E0000014 6212 82024121 83026F03 8A0107 8C0100 80020001",
    "00A4000C02 7F04",
    "00E60000",
    "00A4000C02 3F00",
    "00FE0000",
];

const COMMENTS: [&str; 13] = [
    "# 7F01 in 3F00: directory, deactivated (04), total 130",
    "# 6F01 in 7F01: transparent, deactivated (06), size 1",
    "# 6F02 in 7F01: transparent, terminated (0C), size 1",
    "# 6F02 in 7F01 is to become terminated (0C)",
    "# 7F01 in 3F00 is to become deactivated (04)",
    "# 7F02 in 3F00: directory, terminated (0C), total 130",
    "# 7F02 in 3F00 is to become terminated (0C)",
    "# 7F03 in 3F00: directory, deactivated (06), total 130",
    "# 7F04 in 3F00: directory, terminated (0C), total 130",
    "# 6F03 in 7F04: transparent, activated (07), size 1",
    "# 7F04 in 3F00 is to become terminated (0C)",
    "# what is current in the end",
    "# 3F00 is to become terminated (0C)",
];

/// Deactivated and terminated directories get their files first; EFs and empty
/// directories get their life cycle at once, unless CREATE takes none such.
#[test]
fn life_cycles_come_when_the_files_are_made() {
    let folder = Folder::new("export-order");
    folder.write("card", all_life_cycles());
    let script = folder.done(&["export", "card"]);
    let (commands, comments) = parts(&script);
    assert_eq!(commands, COMMANDS, "{script}");
    assert_eq!(comments, COMMENTS, "{script}");
    assert!(script.contains("no command is refused, and all of the card is made again"));
}

/// A card with each thing that cannot be made again.
fn much_to_lose() -> Vec<u8> {
    let mut root = directory(0x3F00, 0x07, &OPEN);
    root.descriptor = 0x78;
    root.name = vec![0xA0, 0x01];
    let mut image = card(&[
        root,
        directory(0x7F01, 0x06, &OPEN),
        file(0x6F01, 1, 0x05, &CLOSED),
        directory(0x7F02, 0x04, &CREATES),
        file(0x6F02, 3, 0x0C, &CLOSED),
        directory(0x7F03, 0x05, &CLOSED),
        file(0x6F03, 5, 0x05, &CLOSED),
        Record { parent: 5, level: 2, size: 1, ..directory(0x7F04, 0x05, &CLOSED) },
        directory(0x7F05, 0x0C, &CREATES),
        directory(0x7F06, 0x01, &CREATES),
        file(0x6F04, 9, 0x05, &CLOSED),
    ]);
    // Current is 6F03 in 7F03, which is not made.
    image[7..11].copy_from_slice(&[0, 5, 0, 6]);
    image
}

/// What is lost of it, in the script and on standard error.
#[test]
fn what_is_lost_is_told() {
    let folder = Folder::new("export-lost");
    folder.write("card", much_to_lose());
    let ran = folder.uicc(&["export", "card"]);
    let wanted = [
        "7F01 in 3F00 comes back deactivated (04), not deactivated (06): no command writes 06",
        &format!(
            "6F02 in 7F02 comes back activated (05), not terminated (0C): TERMINATE EF {}",
            closed("6F02, TERMINATE")
        ),
        &format!(
            "7F02 in 3F00 comes back activated (05), not deactivated (04): DEACTIVATE FILE {}",
            closed("7F02, DEACTIVATE")
        ),
        &format!("6F03 in 7F03 does not come back: CREATE FILE 6F03 {}", closed("7F03, CREATE EF")),
        &format!("7F04 in 7F03 does not come back: CREATE FILE 7F04 {}", closed("7F03, CREATE DF")),
        &format!(
            "7F05 in 3F00 comes back activated (05), not terminated (0C): TERMINATE DF {}",
            closed("7F05, TERMINATE")
        ),
        "the descriptor 78 of 3F00 does not come back: uicc new gives another",
        "the name A001 of 3F00 does not come back: uicc new gives none",
        "3F00 comes back activated (05), not activated (07): no command writes 07",
    ];
    let err: Vec<_> = ran.err.lines().collect();
    assert_eq!(err, wanted.map(|what| format!("uicc: card: lost: {what}")), "{}", ran.err);
    let (_, comments) = parts(&ran.out);
    let lost: Vec<_> = comments.iter().filter_map(|line| line.strip_prefix("# LOST: ")).collect();
    assert_eq!(lost, wanted, "{}", ran.out);
    assert_eq!(ran.status, 4);
    let head = "and NOT ALL of the card is made again:\n# 9 lines below begin with LOST.\n";
    assert!(ran.out.contains(head), "{}", ran.out);
    assert!(comments.contains(&"# 3F00 is current in the end, since 6F03 in 7F03 is not made"));
}

/// The maker gives the root 05, so that a rule that never allows DEACTIVATE
/// loses its 04 also where no file is in it.
#[test]
fn an_empty_root_can_lose_its_life_cycle() {
    let folder = Folder::new("export-root");
    folder.write("card", card(&[directory(0x3F00, 0x04, &CLOSED)]));
    let ran = folder.uicc(&["export", "card"]);
    let told = "3F00 comes back activated (05), not deactivated (04): DEACTIVATE FILE";
    let denied = closed("3F00, DEACTIVATE");
    assert_eq!((ran.status, ran.err), (4, format!("uicc: card: lost: {told} {denied}\n")));
}

/// A root that lets no file be made, with a tree beneath a directory.
#[test]
fn a_directory_that_is_not_made_takes_its_files_along() {
    let folder = Folder::new("export-closed");
    let files = [
        directory(0x3F00, 0x05, &[0x02, 0x00]),
        directory(0x7F01, 0x05, &OPEN),
        file(0x6F01, 1, 0x05, &OPEN),
        file(0x6F02, 0, 0x05, &OPEN),
    ];
    folder.write("card", card(&files));
    let ran = folder.uicc(&["export", "card"]);
    let told = "lost: 7F01 in 3F00 does not come back, nor the file beneath it: CREATE FILE 7F01";
    let denied = closed("3F00, CREATE DF");
    assert_eq!((ran.status, ran.err), (4, format!("uicc: card: {told} {denied}\n")));
    assert!(ran.out.contains("made again:\n# one line below begins with LOST.\n"), "{}", ran.out);
    let commands = parts(&ran.out).0;
    let wanted = [
        "00E000001B 6219 82024121 83026F02 8A0105 8C087F00000000000000 80020001",
        "00A4000C02 3F00",
    ];
    assert_eq!(commands, wanted, "6F02 is made all the same: {}", ran.out);
    for (line, status) in [
        ("$UICC export card 2>/dev/full", 4),
        ("$UICC export card >/dev/full", 1),
        ("(sleep 0.2; $UICC export card 2>&-; echo $? >s) | true; exit $(cat s)", 4),
    ] {
        assert_eq!(folder.shell(line).status, status, "{line}");
    }
}

#[test]
fn a_fresh_card_needs_no_command() {
    let folder = Folder::new("export-fresh");
    folder.done(&["new", "card", "--slots", "2", "--total", "9", "--rule", "00"]);
    let script = folder.done(&["export", "card"]);
    assert_eq!(parts(&script), (Vec::new(), Vec::new()), "{script}");
    let made = "uicc new NEW.card --version 3 --slots 2 --total 9 --rule 00\n";
    assert!(script.contains(made), "{script}");
    for version in ["1", "2"] {
        let more = ["--force", "--version", version];
        folder.done(&[&["new", "card", "--slots", "2"][..], &more].concat());
        let made = format!("uicc new NEW.card --version {version} --slots 2 --total 64 --rule 7F");
        assert!(folder.done(&["export", "card"]).contains(&made));
    }
}
