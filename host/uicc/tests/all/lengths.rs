//! The file of a card: the image, and on version 3 the pool behind it. Any other
//! length is refused with the reason, and the file left alone.

use crate::folder::Folder;

/// Tries everything that opens a card.
fn refused(folder: &Folder, name: &str, bytes: &[u8], told: &str) {
    folder.write(name, bytes);
    for arguments in [
        &["show", name][..],
        &["export", name],
        &["read", name, "6F07"],
        &["write", name, "6F07", "script"],
        &["run", "script", "--image", name],
    ] {
        let err = folder.refused(1, arguments);
        assert!(err.contains(name) && err.contains(told), "{arguments:?}: {told}: {err}");
    }
    assert_eq!(folder.read(name), bytes, "{name} is left as it is");
}

fn folder(name: &str) -> Folder {
    let folder = Folder::new(name);
    folder.write("script", "00040000\n");
    folder
}

#[test]
fn a_damaged_image_is_refused_and_left_alone() {
    let folder = folder("damaged");
    for version in ["1", "2", "3"] {
        folder.done(&["new", "card", "--slots", "4", "--version", version, "--force"]);
        let good = folder.read("card");
        let with = |place: usize, byte: u8| {
            let mut bent = good.clone();
            bent[place] = byte;
            bent
        };
        refused(&folder, "bent", &with(16 + 2, 0x02), "the card image is damaged");
        refused(&folder, "version-0", &with(4, 0), "the card image is damaged");
        refused(&folder, "version-4", &with(4, 4), "the card image is damaged");
        refused(&folder, "no-slots", &with(6, 0), "its header tells 0 slots");
        refused(&folder, "many-slots", &with(5, 0xFF), "its header tells 65284 slots");
        refused(&folder, "fewer-slots", &with(6, 3), "the card image is damaged");
        refused(&folder, "empty", &[], "no card image: it does not begin with UFT");
        refused(&folder, "text", b"hello", "no card image: it does not begin with UFT");
        refused(&folder, "mark", &good[..3], "the file is cut: it has 3 bytes");
        let long = [&good[..], &[0; 131_000]].concat();
        refused(&folder, "long", &long, "it has more than 130896 bytes");
    }
    assert!(folder.refused(1, &["show", "missing"]).contains("uicc new makes one"));
}

/// A file that is one byte shorter or longer, or that has the pool of another
/// version.
#[test]
fn a_file_of_another_length_is_refused() {
    let folder = folder("lengths-of-files");
    for (version, pool) in [("1", 0), ("2", 0), ("3", 192)] {
        folder.done(&["new", "card", "--slots", "4", "--version", version, "--force"]);
        let good = folder.read("card");
        assert_eq!(good.len(), 16 + 64 * 4 + pool, "version {version}");
        let cut = &good[..16 + 64 * 4 - 1];
        let told = "the file is cut: an image of 4 slots has 272 bytes, and 271 are there";
        refused(&folder, "cut", cut, told);
        let more = [&good[..], &[0]].concat();
        refused(&folder, "more", &more, "the file has 1 byte too many: ");
    }
    let good = folder.read("card");
    let pool = "behind the image of 272 bytes the pool has 192, the root's total";
    for given in [0, 1, 191] {
        let told = format!("the file is cut: {pool}, and {given} are there");
        refused(&folder, "short-pool", &good[..272 + given], &told);
    }
    let more = [&good[..], &[0; 64]].concat();
    refused(&folder, "long-pool", &more, &format!("64 bytes too many: {pool}, and 256 are there"));
    folder.done(&["new", "old", "--slots", "4", "--version", "1"]);
    let both = [&folder.read("old")[..], &good[272..]].concat();
    let told = "192 bytes too many: the image of 4 slots has 272 bytes, and version 1 has no pool";
    refused(&folder, "old-with-pool", &both, told);
}

/// The root's total stands in the image, so that a bent one is found by the
/// image and not by the length.
#[test]
fn a_total_that_no_card_has_is_damage() {
    let folder = folder("totals-of-files");
    folder.done(&["new", "card", "--slots", "4", "--total", "100"]);
    let mut bytes = folder.read("card");
    assert_eq!(bytes.len(), 272 + 100);
    bytes[16 + 12] = 0xFF;
    refused(&folder, "bent", &bytes, "the card image is damaged");
    (bytes[16 + 12], bytes[16 + 15]) = (0, 101);
    refused(&folder, "other", &bytes, "the file is cut: behind the image of 272 bytes");
}

/// Any bytes at any place make a card or an error, and never a panic.
#[test]
fn no_bytes_make_a_panic() {
    let folder = folder("any-bytes");
    folder.done(&["new", "card", "--slots", "2", "--total", "3"]);
    let good = folder.read("card");
    for place in 0..good.len() {
        let mut bent = good.clone();
        bent[place] = bent[place].wrapping_add(1);
        folder.write("bent", &bent);
        let ran = folder.uicc(&["show", "bent"]);
        let pool = place >= 16 + 2 * 64;
        let either = if ran.status == 0 { ran.err.is_empty() } else { ran.out.is_empty() };
        assert!([0, 1].contains(&ran.status) && either, "byte {place}: {}", ran.err);
        assert!(ran.status == 0 || !pool, "byte {place}: the pool is not judged");
    }
}

/// Cards of versions 1 and 2 are used and saved as before, without a byte more.
#[test]
fn older_cards_stay_as_they_are() {
    for version in ["1", "2"] {
        let folder = Folder::new(&format!("older-{version}"));
        folder.done(&["new", "card", "--slots", "4", "--version", version]);
        folder.write(
            "script",
            "00E0000016 6214 82024121 83026F07 8A0105 8C03030000 80020009\n00D6000001 41\n00B0000001\n",
        );
        let out = folder.done(&["run", "script", "--image", "card"]);
        let why =
            format!("unknown instruction: files of a card of version {version} have no bodies");
        assert_eq!(out.matches(&format!("6D00  {why}\n")).count(), 2, "{out}");
        assert!(out.ends_with("card saved\n"), "{out}");
        let after = folder.read("card");
        assert_eq!(after.len(), 16 + 64 * 4);
        let shown = folder.done(&["show", "card"]);
        assert!(!shown.contains("pool") && !shown.contains("start"), "{shown}");
        let told = format!("6F07: READ BINARY from 0 is answered 6D00, {why}\n");
        assert!(folder.refused(1, &["read", "card", "6F07"]).ends_with(&told));
        let err = folder.refused(1, &["write", "card", "6F07", "script"]);
        assert!(err.contains("is answered 6D00") && err.contains("nothing was saved"), "{err}");
        assert_eq!(folder.read("card"), after);
    }
}
