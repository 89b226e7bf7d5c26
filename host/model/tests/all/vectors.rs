//! The model agrees with every case of the vectors of its level, the shared
//! ones where they are there, and the stored ones.
//!
//! The stored copy is made again with
//! `cargo test --offline -p model --test all -- --ignored`,
//! at a new level after the file of the level before was renamed.

use std::collections::BTreeMap;
use std::time::Instant;

use crate::common::say;
use crate::sorts::{choose, STORED_CASES};
use model::edition::LEVEL;
use model::lines::Case;
use model::vectors::{case_lines, shared_file, shared_text, stored_file, stored_text};

/// Checks every line; gives the number of cases of each kind.
fn check(text: &str) -> BTreeMap<char, usize> {
    let mut counts = BTreeMap::new();
    for (number, line) in case_lines(text).enumerate() {
        let (case, wanted) = line.split_once(" > ").expect("a case and its result");
        let parsed = Case::parse(case)
            .unwrap_or_else(|| panic!("case {number} is of no known kind: {case:.200}"));
        assert_eq!(parsed.line(), case, "case {number}, written again");
        assert_eq!(parsed.result(), wanted, "case {number}:\n{case}");
        *counts.entry(line.chars().next().unwrap_or(' ')).or_insert(0) += 1;
    }
    counts
}

/// Whether the model gives a line's result at this level.
fn holds(line: &str) -> bool {
    let parts = line.split_once(" > ");
    let given = parts.and_then(|(case, wanted)| Some((Case::parse(case)?.result(), wanted)));
    given.is_some_and(|(given, wanted)| given == wanted)
}

fn tell(what: &str, counts: &BTreeMap<char, usize>, start: Instant) {
    let all: usize = counts.values().sum();
    let rate = all as f64 / start.elapsed().as_secs_f64();
    say(&format!("{what}: {all} cases agree {counts:?}, {rate:.0} a second"));
}

#[test]
fn every_case_of_the_shared_vectors_agrees() {
    match shared_text() {
        Err(reason) => {
            assert!(!shared_file().is_file(), "{reason}");
            say(&format!("SKIPPED: the shared vectors of level {LEVEL}: {reason}"));
        }
        Ok(text) => {
            let start = Instant::now();
            let counts = check(&text);
            assert_eq!(counts.values().sum::<usize>(), 2500, "cases in the shared file");
            tell("shared vectors", &counts, start);
        }
    }
}

#[test]
fn every_stored_case_agrees() {
    let text = stored_text().expect("the stored cases are there");
    let start = Instant::now();
    let counts = check(&text);
    for kind in "MCRYEWD".chars() {
        assert!(counts.contains_key(&kind), "no stored case of kind {kind}");
    }
    assert!(counts.values().sum::<usize>() >= STORED_CASES, "too few stored cases");
    tell("stored cases", &counts, start);
}

#[test]
fn the_stored_cases_hold_every_word_and_answer() {
    let text = stored_text().expect("the stored cases are there");
    for word in model::words::ALL {
        let sign = format!(" > C 0 {word:04X} ");
        assert!(text.contains(&sign), "no stored case with word {word:04X}");
    }
    for sign in
        ["C 1 0000", "C 5 0000", "C 6 0000", "M 0", "M 2", "M 3", "M 4", "R 0", "R 1", "W 0", "W 1"]
    {
        assert!(text.contains(&format!(" > {sign}")), "no stored case with {sign}");
    }
    assert!(text.contains(" > E malformed"), "no stored malformed rule");
}

/// A61, in what others gave: the number is not 0 exactly with answer 0 and 6982.
#[test]
fn the_stored_results_tell_a_number_exactly_with_6982() {
    let text = stored_text().expect("the stored cases are there");
    for line in case_lines(&text).filter(|line| line.starts_with("C ")) {
        let (_, result) = line.split_once(" > ").expect("a case and its result");
        let fields: Vec<&str> = result.split(' ').collect();
        let refused = result.starts_with("C 0 6982 ");
        assert_eq!(["1", "2"].contains(&fields[7]), refused, "{line:.200}");
        assert_eq!(fields[7] == "0", !refused, "{line:.200}");
    }
}

/// A wrong result must be found: each stored case is given a changed result.
#[test]
fn a_changed_result_does_not_agree() {
    let text = stored_text().expect("the stored cases are there");
    for line in case_lines(&text) {
        let (case, wanted) = line.split_once(" > ").expect("a case and its result");
        let (kind, figures) = wanted.split_at(2);
        let first = if figures.starts_with('0') { "1" } else { "0" };
        let changed = format!("{kind}{first}{}", &figures[1..]);
        let given = Case::parse(case).expect("a known case").result();
        assert_ne!(given, changed, "{case:.200}");
    }
}

#[test]
#[ignore = "writes the stored cases anew from the shared vectors"]
fn make_the_stored_cases_again() {
    let shared = shared_text().expect("the shared vectors are needed for this");
    // A level's shared cases need not show all that those of an earlier one did:
    // what is stored is chosen from too, as long as it holds.
    let stored = stored_text().unwrap_or_default();
    let candidates = case_lines(&shared).chain(case_lines(&stored).filter(|line| holds(line)));
    let text = candidates.collect::<Vec<_>>().join("\n");
    let mut out = format!(
        "# Some of the cases of level-{LEVEL:02}.txt.xz and of earlier levels, the shortest of each\n\
         # sort, chosen by the ignored test of model/tests/all/vectors.rs; the line format is in\n\
         # src/lines.rs.\n"
    );
    for line in choose(&text) {
        out.push_str(line);
        out.push('\n');
    }
    std::fs::write(stored_file(), out).expect("the stored cases can be written");
}
