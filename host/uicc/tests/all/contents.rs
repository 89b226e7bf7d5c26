//! `uicc export`: what files hold comes back by UPDATEs, and what does not is
//! told as lost.

use model::edition::{Edition, Version};
use model::{Card, Kind, Record};

use crate::cards::{tree, Kept};
use crate::folder::{Folder, Ran};
use crate::refusals::closed;

const OPEN: [u8; 8] = [0x7F, 0, 0, 0, 0, 0, 0, 0];
/// Allows UPDATE, and nothing else.
const UPDATES: [u8; 2] = [0x02, 0x00];
/// Allows nothing.
const CLOSED: [u8; 1] = [0x00];

fn file(identifier: u16, life_cycle: u8, rule: &[u8], size: u32, start: u16) -> Record {
    Record {
        kind: Kind::Ef,
        descriptor: 0x41,
        life_cycle,
        identifier,
        level: 1,
        size,
        start,
        rule: rule.to_vec(),
        ..Record::FREE
    }
}

fn records(identifier: u16, size: u32, start: u16, record_length: u16) -> Record {
    Record { descriptor: 0x46, record_length, ..file(identifier, 0x05, &OPEN, size, start) }
}

/// A card with these files in its root, and a pool that begins with these bytes.
fn kept(files: &[Record], total: u32, begin: &[u8]) -> Kept {
    let root = Record {
        kind: Kind::Df,
        descriptor: 0x38,
        level: 0,
        ..file(0x3F00, 0x05, &OPEN, total, 0)
    };
    let mut all = [&[root], files].concat();
    all.resize((total as usize).div_ceil(64) + 1, Record::FREE);
    let edition = Edition::of(Version::Three);
    let card = Card { edition, current_df: 0, current_ef: None, records: all };
    let mut pool = begin.to_vec();
    pool.resize(total as usize, 0);
    Kept::new(card, pool)
}

/// Exports a card and plays the script; gives the export and the new card.
fn again(folder: &Folder, old: &Kept) -> (Ran, Kept) {
    folder.write("old", old.bytes());
    let export = folder.uicc(&["export", "old"]);
    folder.write("THIS.apdu", &export.out);
    let new = export.out.lines().find_map(|line| line.strip_prefix("#     uicc new NEW.card "));
    let new: Vec<&str> = new.expect("it says on which card").split(' ').collect();
    folder.done(&[&["new", "NEW.card", "--force"], &new[..]].concat());
    folder.done(&["run", "THIS.apdu", "--image", "NEW.card"]);
    (export, Kept::read(&folder.read("NEW.card")))
}

/// The commands of a script but CREATE and SELECT.
fn commands(script: &str) -> Vec<&str> {
    let is_other = |line: &&str| !["", "#", "00E0", "00A4"].contains(&&line[..line.len().min(4)]);
    script.lines().filter(|line| !line.starts_with('#')).filter(is_other).collect()
}

/// Bytes that are FF need no command, records neither; a file that was
/// deactivated or terminated comes to that when it is filled.
#[test]
fn what_files_hold_comes_back() {
    let folder = Folder::new("contents-back");
    let mut body = vec![0xFF; 600];
    body[..4].copy_from_slice(&[0x62, 0x02, 0xFF, 0x41]);
    body[300] = 0x42;
    body[556..560].copy_from_slice(&[0x43, 0xFF, 0xFF, 0x44]);
    let begin = [&body[..], b"\xFF\xFFABCD\xFF\xFF", b"down", b"over", b"once"].concat();
    let files = [
        file(0x6F01, 0x05, &UPDATES, 600, 0),
        records(0x6F02, 8, 600, 2),
        file(0x6F03, 0x04, &OPEN, 4, 608),
        file(0x6F04, 0x0C, &OPEN, 4, 612),
        file(0x6F05, 0x07, &UPDATES, 4, 616),
        file(0x6F06, 0x04, &CLOSED, 0x10, 620),
    ];
    let mut old = kept(&files, 1100, &begin);
    old.pool[620..636].fill(0xFF);
    let (export, new) = again(&folder, &old);
    assert_eq!((export.status, export.err.as_str()), (0, ""), "{}", export.out);
    assert_eq!(tree(&new), tree(&old), "{}", export.out);
    let wanted = [
        "00D6000004 6202FF41",
        "00D6012C01 42",
        "00D6022C04 43FFFF44",
        "00DC020402 4142",
        "00DC030402 4344",
        "00D6000004 646F776E",
        "00040000",
        "00D6000004 6F766572",
        "00E80000",
        "00D6000004 6F6E6365",
    ];
    assert_eq!(commands(&export.out), wanted, "{}", export.out);
    assert!(export.out.contains("no command is refused, and all of the card is made again."));
}

/// What is told as lost of the files below.
fn losses() -> [String; 7] {
    let asleep =
        "is answered 6985, conditions of use not satisfied: the file is not activated, or a \
                  directory above it is terminated";
    let holds = |name: &str, from: usize| {
        let what = format!("what {name} in 3F00 holds does not come back from byte {from} on");
        format!("{what}: UPDATE BINARY from {from} ({} bytes)", 4 - from)
    };
    [
        format!("{} {}", holds("6F01", 1), closed("6F01, UPDATE")),
        format!("{} {asleep}", holds("6F02", 0)),
        format!("{} {asleep}", holds("6F03", 0)),
        format!("{} {asleep}", holds("6F04", 0)),
        format!("{} {}", holds("6F05", 0), closed("6F05, UPDATE")),
        format!("{} {}", holds("6F06", 0), closed("6F06, UPDATE")),
        format!(
            "6F06 in 3F00 comes back activated (05), not terminated (0C): TERMINATE EF {}",
            closed("6F06, TERMINATE")
        ),
    ]
}

/// An image from elsewhere may hold what no UPDATE brings back. The life cycle
/// stays, and nothing of the contents is lost in silence.
#[test]
fn what_does_not_come_back_is_told() {
    let folder = Folder::new("contents-lost");
    let files = [
        file(0x6F01, 0x05, &CLOSED, 4, 0),
        file(0x6F02, 0x04, &UPDATES, 4, 4),
        file(0x6F03, 0x06, &OPEN, 4, 8),
        file(0x6F04, 0x03, &OPEN, 4, 12),
        file(0x6F05, 0x04, &CLOSED, 4, 16),
        file(0x6F06, 0x0C, &CLOSED, 4, 20),
    ];
    let old = kept(&files, 500, b"\xFFabcdefghijklmnopqrstuvw");
    let (export, new) = again(&folder, &old);
    let err: Vec<_> = export.err.lines().collect();
    assert_eq!(err, losses().map(|what| format!("uicc: old: lost: {what}")), "{}", export.out);
    let lost: Vec<_> =
        export.out.lines().filter_map(|line| line.strip_prefix("# LOST: ")).collect();
    assert_eq!(lost, losses());
    assert_eq!(export.status, 4);
    let lives =
        |kept: &Kept| -> Vec<u8> { (1..6).map(|slot| kept.card.record(slot).life_cycle).collect() };
    assert_eq!(lives(&new), lives(&old));
    assert!((1..7).all(|slot| new.body(slot) == [0xFF; 4]));
}

/// Bytes behind the last that an UPDATE BINARY reaches.
#[test]
fn what_no_command_reaches_is_lost() {
    let folder = Folder::new("contents-reach");
    for (last, lost) in [(33_021, 0), (33_022, 1)] {
        let mut body = vec![0x11; 33_000];
        body[32_700..].fill(0xFF);
        body.resize(last, 0xFF);
        body.push(0x22);
        let size = body.len() as u32 + 10;
        body.resize(body.len() + 10, 0xFF);
        let old = kept(&[file(0x6F01, 0x05, &OPEN, size, 0)], size + 64, &body);
        let (export, new) = again(&folder, &old);
        assert_eq!(export.status, if lost > 0 { 4 } else { 0 }, "{}", export.err);
        assert_eq!(export.err.lines().count(), lost, "{}", export.err);
        assert_eq!(tree(&new) == tree(&old), lost == 0);
        let told = "from byte 33022 on: no command reaches it\n";
        assert_eq!(export.err.ends_with(told), lost > 0, "{}", export.err);
    }
}
