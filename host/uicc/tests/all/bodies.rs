//! Bodies on cards of version 3: what `uicc run` and `uicc show` tell of them.

use crate::folder::Folder;

/// A directory with a transparent file of 20 bytes and one with 3 records of 4.
pub const FILES: &str = "\
00E0000019 6217 82027821 83027F10 8A0105 8C03060000 81020100 C60100
00E0000017 6215 82024121 83026F07 8A0105 8C040B000000 80020014
00E0000018 6216 820442210004 83026F3A 8A0105 8C03030000 8002000C
";

/// A folder with such a card, `card`, whose root is current.
pub fn folder(name: &str) -> Folder {
    let folder = Folder::new(name);
    folder.done(&["new", "card", "--slots", "8", "--total", "448"]);
    folder.write("files", format!("{FILES}00A4000C023F00\n"));
    let out = folder.done(&["run", "files", "--image", "card"]);
    assert_eq!(out.matches("9000  done").count(), 4, "{out}");
    folder
}

const SCRIPT: &str = "\
00B0000005
00A4000C02 7F10
00A4000C02 6F07
00D6000305 48656C6C6F
00B0000014
00B0001004
00B0001203
00B0001401
00B0800001
00B0000000
00D6001402 4141
00D6001302 4141
00D6000302 41
00B2010404
00A4000C02 6F3A
00DC020404 41427E7F
00B2020404
00B2040404
00B2000404
00B2020405
00DC030403 414243
00B2020204
00B0000001
";

const TOLD: &str = "\
card
   1  READ BINARY from 0               6986  no current EF: SELECT one first
   2  SELECT 7F10                      9000  done
   3  SELECT 6F07                      9000  done
   4  UPDATE BINARY from 3 (5 bytes)   9000  done
   5  READ BINARY from 0               9000  done
        byte 0      FF FF FF 48 65 6C 6C 6F FF FF FF FF FF FF FF FF  ...Hello........
        byte 16     FF FF FF FF                                      ....
   6  READ BINARY from 16              9000  done
        byte 16     FF FF FF FF  ....
   7  READ BINARY from 18              6700  wrong length: the file has fewer than 21 bytes
   8  READ BINARY from 20              6B00  wrong parameters P1 P2: the file ends before byte 20
   9  READ BINARY                      6B00  wrong parameters P1 P2: a start is below 8000
  10  READ BINARY from 0               6700  wrong length: the file has fewer than 256 bytes
  11  UPDATE BINARY from 20 (2 bytes)  6B00  wrong parameters P1 P2: the file ends before byte 20
  12  UPDATE BINARY from 19 (2 bytes)  6700  wrong length: the file has fewer than 21 bytes
  13  UPDATE BINARY from 3             6700  wrong length: the command is too short or too long
  14  READ RECORD 1                    6981  wrong structure: the file has no records: READ BINARY is for it
  15  SELECT 6F3A                      9000  done
  16  UPDATE RECORD 2                  9000  done
  17  READ RECORD 2                    9000  done
        byte 0      41 42 7E 7F  AB~.
  18  READ RECORD 4                    6A83  record not found: the file ends before record 4
  19  READ RECORD 0                    6A83  record not found: records count from 1
  20  READ RECORD 2                    6700  wrong length: no record of the file has 5 bytes
  21  UPDATE RECORD 3                  6700  wrong length: no record of the file has 3 bytes
  22  READ RECORD                      6B00  wrong parameters P1 P2: P2 must be 04
  23  READ BINARY from 0               6981  wrong structure: the file has records: READ RECORD is for it
current directory: total 256, room 96, 2 files in it, 2 beneath it
card saved
";

#[test]
fn reads_and_updates_are_told_in_words() {
    let folder = folder("bodies-words");
    let ran = folder.fed(&["run", "-", "--image", "card"], SCRIPT);
    assert_eq!((ran.status, ran.err.as_str()), (0, ""));
    assert_eq!(ran.out, TOLD);
}

/// What a rule, a life cycle or a card's version refuses.
#[test]
fn refusals_are_told_in_words() {
    let folder = folder("bodies-refused");
    let select = "00A4000C027F10\n00A4000C026F07\n";
    let run = |script: &str| folder.fed(&["run", "-", "--image", "card"], script).out;
    assert!(run(&format!("{select}00040000\n00B0000001\n00D600000141\n")).contains(
        "  6985  conditions of use not satisfied: the file is not activated, or a directory above \
         it is terminated\n"
    ));
    let fresh = folder.fed(&["run", "-", "--version", "2"], "00B0000001\n").out;
    let told = "6D00  unknown instruction: files of a card of version 2 have no bodies\n";
    assert!(fresh.contains(told), "{fresh}");
    let channel = run("01B0000001\n");
    assert!(channel.contains("6985  conditions of use not satisfied: life cycle or"), "{channel}");
}

/// What `show` draws of the pool: the line about it, the gaps, what would move.
fn map(folder: &Folder) -> Vec<String> {
    let shown = folder.done(&["show", "card"]);
    let lines = shown.lines().skip_while(|line| !line.starts_with("pool of"));
    lines.take_while(|line| !line.is_empty()).map(str::to_string).collect()
}

#[test]
fn the_pool_is_drawn() {
    let folder = Folder::new("bodies-map");
    folder.done(&["new", "card", "--slots", "8", "--total", "448"]);
    let all_free = map(&folder);
    assert_eq!(all_free[0], "pool of 448 bytes: 0 used, 448 free: 1 gap of 448 bytes");
    assert_eq!(all_free[1].matches('.').count(), 64 + 1, "{}", all_free[1]);
    assert_eq!(all_free[2..4], ["      gap from  length", "             0     448"]);
    assert_eq!(all_free[4], "      no new file needs bodies to be moved");
    // Three files of 100, 28 and 64 bytes; the first is deleted.
    let create = |identifier: &str, size: &str| {
        format!("00E0000017 6215 82024121 8302{identifier} 8A0105 8C0443000000 8002{size}\n")
    };
    let files = [create("6F01", "0064"), create("6F02", "001C"), create("6F03", "0040")];
    let ran = folder.fed(&["run", "-", "--image", "card"], &files.concat());
    assert_eq!(ran.out.matches("9000").count(), 3, "{}", ran.out);
    let shown = folder.done(&["show", "card"]);
    let starts: Vec<_> = shown.lines().skip(4).take(3).map(|line| &line[46..61]).collect();
    assert_eq!(starts, ["     100      0", "      28    100", "      64    128"], "{shown}");
    folder.fed(&["run", "-", "--image", "card"], "00E40000026F01\n");
    let gaps = map(&folder);
    assert_eq!(gaps[0], "pool of 448 bytes: 92 used, 356 free: 2 gaps, the largest of 256 bytes");
    let bar = format!("      [{}+{}+{}]  # used,", ".".repeat(14), "#".repeat(12), ".".repeat(36));
    assert!(gaps[1].starts_with(&bar), "{}", gaps[1]);
    assert_eq!(gaps[3..5], ["             0     100", "           192     256"]);
    assert_eq!(gaps[5], "      no new file needs bodies to be moved", "the root has room for 164");
}

/// Which new file moves bodies is told, and so it is: one byte less moves none.
#[test]
fn what_would_be_moved_is_told() {
    let folder = Folder::new("bodies-moved");
    folder.done(&["new", "card", "--slots", "16", "--total", "900"]);
    let create = |identifier: &str, size: u16| {
        format!("00E0000016 6214 82024121 8302{identifier} 8A0105 8C03410000 8002{size:04X}\n")
    };
    let run = |script: &str| folder.fed(&["run", "-", "--image", "card"], script).out;
    let files = [create("6F01", 200), create("6F02", 8), create("6F03", 200), create("6F04", 8)];
    assert_eq!(
        run(&(files.concat() + "00E40000026F01\n00E40000026F03\n")).matches("9000").count(),
        6
    );
    let gaps = map(&folder);
    assert_eq!(
        gaps[3..6],
        ["             0     200", "           208     200", "           416     484"]
    );
    let rooms = folder.done(&["show", "card"]);
    assert!(rooms.contains("] 756 left"), "{rooms}");
    let told =
        "      a new file of 485 to 692 bytes in 3F00 needs bodies to be moved first: no gap \
                holds it";
    assert_eq!(gaps[6], told);
    let before = folder.read("card");
    run(&create("6F05", 484));
    let starts = |shown: &str| -> Vec<String> {
        let files = shown.lines().skip(4).take_while(|line| !line.is_empty());
        files.map(|line| line[54..61].trim().to_string()).collect()
    };
    let shown = folder.done(&["show", "card"]);
    assert_eq!(starts(&shown), ["416", "200", "408"], "none moved: {shown}");
    folder.write("card", before);
    run(&create("6F05", 485));
    let shown = folder.done(&["show", "card"]);
    assert_eq!(starts(&shown), ["16", "0", "8"], "all moved: {shown}");
    assert!(shown.contains("      no new file needs bodies to be moved\n"), "{shown}");
}

/// A card without a gap, one whose directories take no file, and the longest
/// pool.
#[test]
fn the_pool_is_drawn_at_its_ends() {
    let folder = Folder::new("bodies-ends");
    folder.done(&["new", "card", "--slots", "2", "--total", "1"]);
    assert_eq!(map(&folder)[0], "pool of 1 byte: 0 used, 1 free: 1 gap of 1 byte");
    folder.fed(&["run", "-", "--image", "card"], "00040000\n");
    assert_eq!(map(&folder)[4], "      no directory takes a new file");
    folder.done(&["new", "card", "--slots", "1023", "--force"]);
    let longest = map(&folder);
    assert_eq!(longest[0], "pool of 65408 bytes: 0 used, 65408 free: 1 gap of 65408 bytes");
    assert!(longest[1].ends_with("]  # used, . free, + both; 1022 bytes a sign"), "{}", longest[1]);
}
