//! The program: what it refuses, what it prints, and that nothing makes it panic.

use std::process::Command;

/// The status of a line of the shell, standard output and standard error.
fn line(line: &str) -> (Option<i32>, String, String) {
    let mut shell = Command::new("sh");
    let run = shell.args(["-c", line]).env("P", env!("CARGO_BIN_EXE_bench")).output();
    let run = run.expect("the shell starts");
    let text = |bytes: &[u8]| String::from_utf8_lossy(bytes).into_owned();
    (run.status.code(), text(&run.stdout), text(&run.stderr))
}

#[test]
fn a_shape_that_is_none_is_refused() {
    let (status, _, err) = line("$P --milliseconds 0 --shape nosuch");
    assert_eq!(status, Some(2));
    assert!(err.contains("no shape has \"nosuch\"") && err.contains("files"), "{err}");
}

#[test]
fn the_searches_have_no_shape() {
    for text in ["--searches --shape nesting", "--shape '' --searches", "--searches nesting"] {
        let (status, out, err) = line(&format!("$P --milliseconds 0 {text}"));
        assert_eq!((status, out.as_str()), (Some(2), ""), "{text}");
        assert!(err.starts_with("usage: bench") && err.contains("--searches"), "{err}");
    }
}

/// What stands left of the first bar, with the slot.
fn rows(card: &str) -> Vec<&str> {
    let lines = card.lines().filter_map(|line| Some(line.split_once(" |")?.0));
    lines.filter(|left| !left.starts_with(' ')).collect()
}

#[test]
fn the_searches_print_every_row_once() {
    let (status, out, err) = line("$P --milliseconds 0 --searches");
    assert_eq!((status, err.as_str()), (Some(0), ""));
    let parts: Vec<_> = out.split("\n\n").collect();
    let [head, one, many, deep, largest] = parts.try_into().expect("five parts");
    assert!(head.contains("nanoseconds") && rows(head).is_empty(), "{head}");
    assert!(one.starts_with("one directory of 900 files\n"), "{one}");
    let ends = ["child, not found      -", "DF, not found         -"];
    let first = ["child, found first    1", "DF, found first       1"];
    let [child, df] = [0, 1].map(|sort| (first[sort], ends[sort]));
    assert_eq!(rows(one), [child.0, "child, found last   901", child.1, df.0, df.1]);
    assert!(many.starts_with("900 files in 40 directories\n"), "{many}");
    let [last, last_df] = ["child, found last   940", "DF, found last       40"];
    assert_eq!(rows(many), [child.0, last, child.1, df.0, last_df, df.1]);
    assert!(deep.starts_with("deepest nesting\n"), "{deep}");
    let [last, last_df] = ["child, found last  1021", "DF, found last     1021"];
    assert_eq!(rows(deep), [child.0, last, child.1, df.0, last_df, df.1]);
    let wanted: Vec<_> = largest.lines().filter(|line| line.contains("wanted: ")).collect();
    assert!(wanted.len() == 2 && largest.lines().count() == 2, "{largest}");
}

#[test]
fn nothing_makes_it_panic() {
    for (text, status) in [
        ("$P --bogus 2>/dev/full", 2),
        ("$P --shape nosuch 2>/dev/full", 2),
        ("$P $(printf '\\377')", 2),
        ("$P --shape $(printf '\\377')", 2),
        ("$P --milliseconds 0 --shape nesting >/dev/full 2>/dev/full", 1),
        ("$P --milliseconds 0 --shape nesting >&-", 1),
        ("$P --searches --milliseconds", 2),
        ("$P --milliseconds 0 --searches >/dev/full", 1),
        ("$P --milliseconds 0 --searches >/dev/full 2>/dev/full", 1),
        ("$P --milliseconds 0 --searches >&-", 1),
    ] {
        assert_eq!(line(text).0, Some(status), "{text}");
    }
}
