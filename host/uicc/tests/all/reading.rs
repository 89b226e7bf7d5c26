//! `uicc read` and `uicc write`.

use crate::bodies::folder;
use crate::folder::Folder;

const NOT_SAVED: &str = "nothing was saved, the file is as it was\n";

/// A refusal of `write` that leaves the card as it was.
fn not_written(folder: &Folder, arguments: &[&str], told: &str) {
    let before = folder.read("card");
    let err = folder.refused(1, &[&["write", "card"], arguments].concat());
    assert!(err.contains(told) && err.ends_with(NOT_SAVED), "{arguments:?}: {err}");
    assert_eq!(folder.read("card"), before, "{arguments:?}");
}

#[test]
fn a_transparent_file_is_read_and_written() {
    let folder = folder("reading-bytes");
    folder.write("hello", "Hello");
    let out = folder.done(&["write", "card", "7F10/6F07", "hello", "--from", "3"]);
    assert_eq!(out, "card: 7F10/6F07: 5 bytes written\ncard saved\n");
    let out = folder.done(&["write", "card", "3F00/7F10/6F07", "hello", "--from", "3"]);
    assert_eq!(out, "card: 7F10/6F07: 5 bytes written\ncard is as it was\n");
    assert_eq!(
        folder.done(&["read", "card", "3f00/7f10/6f07"]),
        "7F10/6F07: transparent, 20 bytes\n\
         \x20       byte 0      FF FF FF 48 65 6C 6C 6F FF FF FF FF FF FF FF FF  ...Hello........\n\
         \x20       byte 16     FF FF FF FF                                      ....\n"
    );
    let part = ["read", "card", "7F10/6F07", "--from", "4", "--count", "3"];
    let told = "7F10/6F07: transparent, 20 bytes\n        byte 4      65 6C 6C  ell\n";
    assert_eq!(folder.done(&part), told);
    assert_eq!(folder.done(&[&part[..], &["--output", "-"]].concat()), "ell");
    let whole = folder.shell("$UICC read card 7F10/6F07 --output - | od -An -c -N 5");
    assert_eq!(whole.out.trim(), "377 377 377   H   e");
    let ran = folder.fed(&["write", "card", "7F10/6F07", "-"], "From a stream, whole");
    assert_eq!((ran.status, ran.err.as_str()), (0, ""));
    let out = folder.done(&["read", "card", "7F10/6F07", "--output", "-"]);
    assert_eq!(out, "From a stream, whole");
}

#[test]
fn records_are_read_and_written() {
    let folder = folder("reading-records");
    folder.write("two", "ABCDEFGH");
    folder.write("one", "wxyz");
    folder.done(&["write", "card", "7F10/6F3A", "two"]);
    folder.done(&["write", "card", "7F10/6F3A", "one", "--record", "3"]);
    assert_eq!(
        folder.done(&["read", "card", "7F10/6F3A"]),
        "7F10/6F3A: linear fixed, 3 records of 4 bytes\n\
         record 1\n        byte 0      41 42 43 44  ABCD\n\
         record 2\n        byte 0      45 46 47 48  EFGH\n\
         record 3\n        byte 0      77 78 79 7A  wxyz\n"
    );
    let second = ["read", "card", "7F10/6F3A", "--record", "2", "--output", "-"];
    assert_eq!(folder.done(&second), "EFGH");
    let all = folder.done(&["read", "card", "7F10/6F3A", "--output", "-"]);
    assert_eq!(all, "ABCDEFGHwxyz", "the records one after the other");
    for (arguments, told) in [
        (&["--record", "0"][..], "READ RECORD 0 is answered 6A83, record not found: records"),
        (&["--record", "4"], "READ RECORD 4 is answered 6A83, record not found: the file ends"),
        (&["--record", "255"], "READ RECORD 255 is answered 6A83"),
        (&["--from", "0"], "READ BINARY from 0 is answered 6981, wrong structure: the file has"),
        (&["--count", "4"], "READ BINARY from 0 is answered 6981"),
    ] {
        let err = folder.refused(1, &[&["read", "card", "7F10/6F3A"], arguments].concat());
        assert!(err.contains(told), "{arguments:?}: {err}");
    }
}

#[test]
fn what_is_no_whole_record_is_refused() {
    let folder = folder("reading-no-records");
    folder.write("one", "wxyz");
    folder.write("three", "abc");
    folder.write("much", "0123456789ABCDEF");
    let records = "7F10/6F3A: its records have 4 bytes, and 3 bytes are no whole number of them";
    not_written(&folder, &["7F10/6F3A", "three"], records);
    let length = "7F10/6F3A: record 1 has 4 bytes, and 3 bytes are given";
    not_written(&folder, &["7F10/6F3A", "three", "--record", "1"], length);
    let much = "7F10/6F3A: 16 bytes are given, and it has 12 bytes";
    not_written(&folder, &["7F10/6F3A", "much"], much);
    not_written(
        &folder,
        &["7F10/6F3A", "one", "--record", "4"],
        "UPDATE RECORD 4 is answered 6A83",
    );
    not_written(&folder, &["7F10/6F3A", "one", "--from", "0"], "is answered 6981, wrong structure");
}

#[test]
fn what_does_not_fit_is_refused_before_it_is_written() {
    let folder = folder("reading-long");
    folder.write("long", "123456789012345678901");
    folder.write("three", "abc");
    folder.write("empty", "");
    let long = "card: 7F10/6F07: 21 bytes are given, and it has 20 bytes: nothing";
    not_written(&folder, &["7F10/6F07", "long"], long);
    let end = "7F10/6F07: 3 bytes are given, and it has 2 bytes from byte 18 on: nothing";
    not_written(&folder, &["7F10/6F07", "three", "--from", "18"], end);
    let past =
        "UPDATE BINARY from 20 (3 bytes) is answered 6B00, wrong parameters P1 P2: the file \
                ends before byte 20 (at byte 0 of the input)";
    not_written(&folder, &["7F10/6F07", "three", "--from", "20"], past);
    let reach =
        "no command reaches byte 32768: READ BINARY and UPDATE BINARY start at byte 32767 or";
    not_written(&folder, &["7F10/6F07", "three", "--from", "32768"], reach);
    not_written(&folder, &["7F10/6F07", "empty"], "7F10/6F07: there is no byte to write");
    let one = "UPDATE RECORD 1 is answered 6981, wrong structure: the file has no records";
    not_written(&folder, &["7F10/6F07", "three", "--record", "1"], one);
    let far = folder.refused(1, &["read", "card", "7F10/6F07", "--from", "20"]);
    assert!(far.contains("READ BINARY from 20 is answered 6B00"), "{far}");
    let many = folder.refused(1, &["read", "card", "7F10/6F07", "--count", "21"]);
    assert!(many.contains("is answered 6700, wrong length: the file has fewer than 21"), "{many}");
    let zero = folder.refused(1, &["write", "card", "7F10/6F07", "/dev/zero"]);
    assert!(zero.contains("/dev/zero: this has more than 65408 bytes"), "{zero}");
    assert!(folder.refused(1, &["write", "card", "7F10/6F07", "none"]).contains("uicc: none: "));
}

#[test]
fn a_wrong_path_is_refused() {
    let folder = folder("reading-paths");
    folder.write("input", "abc");
    for (path, told) in [
        ("6F07", "card: 6F07: in 3F00: SELECT 6F07 is answered 6A82, file not found"),
        ("7F10/6F08", "7F10/6F08: in 7F10: SELECT 6F08 is answered 6A82, file not found"),
        ("7F11/6F07", "7F11/6F07: in 3F00: SELECT 7F11 is answered 6A82"),
        ("7F10/7F10/6F07", "there is no 7F10 in 7F10"),
        ("7F10/6F07/6F3A", "7F10/6F07/6F3A: there is no 6F3A in 6F07"),
        ("7F10", "card: 7F10 is a directory: only files have bodies"),
        ("3F00", "card: 3F00 is a directory: only files have bodies"),
    ] {
        let err = folder.refused(1, &["read", "card", path]);
        assert!(err.contains(told), "{path}: {err}");
        not_written(&folder, &[path, "input"], told);
    }
}

/// SELECT finds a directory beside the current one; a path does not.
#[test]
fn a_path_leads_only_down() {
    let folder = folder("reading-beside");
    let more = "00E0000019 6217 82027821 83027F20 8A0105 8C03060000 81020001 C60100\n";
    folder.fed(&["run", "-", "--image", "card"], more);
    let err = folder.refused(1, &["read", "card", "7F10/7F20/6F07"]);
    assert!(err.contains("there is no 7F20 in 7F10"), "{err}");
}

/// What is current stays, and of the image every byte.
#[test]
fn nothing_but_the_body_changes() {
    let folder = folder("reading-current");
    folder.write("input", "abc");
    let image = 16 + 64 * 8;
    for select in ["00A4000C023F00\n", "00A4000C027F10\n", "00A4000C026F3A\n", "00A4000C026F07\n"] {
        folder.fed(&["run", "-", "--image", "card"], select);
        let before = folder.read("card");
        folder.done(&["read", "card", "7F10/6F07"]);
        assert_eq!(folder.read("card"), before, "{select}: read changes nothing");
        folder.write("input", format!("a{}c", &select[12..14]));
        folder.done(&["write", "card", "7F10/6F07", "input", "--from", "2"]);
        let after = folder.read("card");
        assert_eq!(after[..image], before[..image], "{select}");
        let changed: Vec<_> = (image..after.len()).filter(|at| after[*at] != before[*at]).collect();
        assert!(changed.iter().all(|at| (image + 2..image + 6).contains(at)), "{changed:?}");
        assert!(!changed.is_empty() || select.contains("6F07"), "{select}");
    }
}

/// The rule and the life cycle decide, under the state that is told.
#[test]
fn refusals_are_told_with_the_cards_word() {
    let folder = Folder::new("reading-refused");
    folder.done(&["new", "card", "--slots", "8"]);
    folder.write("input", "abc");
    // READ wants user 1, UPDATE external 1; the second file is deactivated.
    let ruled = "8C03032111";
    let files = format!(
        "00E0000016 6214 82024121 83026F01 8A0105 {ruled} 80020009\n\
         00E0000016 6214 82024121 83026F02 8A0104 {ruled} 80020009\n"
    );
    let ran = folder.fed(&["run", "-", "--image", "card"], &files);
    assert_eq!(ran.out.matches("9000").count(), 2, "{}", ran.out);
    let denied = "is answered 6982, security status not satisfied: \
                  lacking, more authentication opens the rule; rule of 6F01";
    let err = folder.refused(1, &["read", "card", "6F01", "--user", "0000"]);
    let read = format!("6F01: READ BINARY from 0 {denied}, READ: user authentication 1\n");
    assert!(err.ends_with(&read), "{err}");
    folder.done(&["read", "card", "6F01", "--user", "0002", "--external", "0000"]);
    let update = format!(
        "6F01: UPDATE BINARY from 0 (3 bytes) {denied}, UPDATE: external authentication 1 (at byte \
         0 of the input)"
    );
    not_written(&folder, &["6F01", "input", "--external", "FFFD"], &update);
    folder.done(&["write", "card", "6F01", "input", "--external", "0002", "--user", "0000"]);
    let life = "6985, conditions of use not satisfied: the file is not activated";
    assert!(folder.refused(1, &["read", "card", "6F02"]).contains(life));
    not_written(&folder, &["6F02", "input"], life);
    folder.fed(&["run", "-", "--image", "card"], "00FE0000\n");
    let err = folder.refused(1, &["read", "card", "6F01"]);
    assert!(err.contains("6F01: SELECT 3F00 is answered 6985"), "{err}");
}

/// Bodies of more than one piece, up to the last byte that a command reaches.
#[test]
fn long_bodies_come_in_pieces() {
    let folder = Folder::new("reading-pieces");
    folder.done(&["new", "card", "--slots", "1023"]);
    let create = "00E0000018 6216 82024121 83026F01 8A0105 8C03030000 8004000084D0\n";
    let ran = folder.fed(&["run", "-", "--image", "card"], create);
    assert!(ran.out.contains("9000"), "{}", ran.out);
    let body: Vec<u8> = (0..34_000_u32).map(|place| (place % 251) as u8).collect();
    let reach = |many: usize| folder.write("input", &body[..many]);
    reach(33_022);
    folder.done(&["write", "card", "6F01", "input"]);
    let image = 16 + 64 * 1023;
    let pool = folder.read("card")[image..].to_vec();
    assert!(
        pool[..33_022] == body[..33_022] && pool[33_022..34_000].iter().all(|byte| *byte == 0xFF)
    );
    reach(33_023);
    not_written(&folder, &["6F01", "input"], "no command reaches byte 33022: ");
    let out = folder.done(&["read", "card", "6F01", "--count", "33023", "--output", "out"]);
    assert_eq!(out, "out: 33023 bytes of 6F01: transparent, 34000 bytes\n");
    assert!(folder.read("out") == pool[..33_023]);
    let err = folder.refused(1, &["read", "card", "6F01"]);
    assert!(err.contains("no command reaches byte 33023: "), "{err}");
    let told = folder.done(&["read", "card", "6F01", "--from", "250", "--count", "20"]);
    assert_eq!(told.lines().count(), 3, "one row of bytes, however many pieces: {told}");
}

/// `--output` takes no file's place unasked, and the card's never.
#[test]
fn an_output_takes_no_files_place() {
    let folder = folder("reading-output");
    folder.write("out", "precious");
    let read = ["read", "card", "7F10/6F07", "--output"];
    let err = folder.refused(1, &[&read[..], &["out"]].concat());
    assert!(err.contains("out exists already"), "{err}");
    assert_eq!(folder.read("out"), b"precious");
    let out = folder.done(&[&read[..], &["out", "--force"]].concat());
    assert_eq!(out, "out: 20 bytes of 7F10/6F07: transparent, 20 bytes\n");
    assert_eq!(folder.read("out"), [0xFF; 20]);
    let card = folder.read("card");
    for name in ["card", "./card", "../uicc-reading-output/card"] {
        let err = folder.refused(1, &[&read[..], &[name, "--force"]].concat());
        assert!(err.contains("this is the card that is read"), "{err}");
    }
    assert_eq!(folder.read("card"), card);
    assert_eq!(folder.names(), ["card", "files", "out"]);
}

/// A lost output does not hide that a file was saved.
#[test]
fn what_was_saved_is_told_truly() {
    let folder = folder("reading-told");
    folder.write("input", "abc");
    for (line, status, told) in [
        ("$UICC write card 7F10/6F07 input >/dev/full", 3, "card WAS saved"),
        ("$UICC read card 7F10/6F07 --output out >/dev/full", 3, "out WAS saved"),
        ("$UICC read card 7F10/6F07 >/dev/full", 1, "the output cannot be written"),
        ("$UICC read card 7F10/6F07 --output - >&-", 1, "the output cannot be written"),
        ("$UICC write card 7F10/6F07 - <&-", 1, "standard input is closed"),
        ("cat card | $UICC read /dev/stdin 7F10/6F07 --output - | grep -c abc 1>&2", 0, "1"),
    ] {
        let ran = folder.shell(line);
        assert_eq!(ran.status, status, "{line}: {}", ran.err);
        assert!(ran.err.contains(told), "{line}: {}", ran.err);
    }
    assert!(folder.done(&["read", "card", "7F10/6F07"]).contains("abc."));
}
