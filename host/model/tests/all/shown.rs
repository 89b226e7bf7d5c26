//! What the stored vectors show, ticket by ticket.

use std::collections::BTreeSet;

use crate::sorts::sort_of;
use model::vectors::{case_lines, stored_text};

/// The sorts of the stored cases.
fn stored_sorts() -> BTreeSet<String> {
    let text = stored_text().expect("the stored cases are there");
    case_lines(&text).map(sort_of).collect()
}

/// Asserts that the stored cases have one of each sort, or of a finer one.
#[track_caller]
fn stored_show<T: AsRef<str>>(sorts: &[T]) {
    let stored = stored_sorts();
    for sort in sorts.iter().map(AsRef::as_ref) {
        let is_it = |one: &String| one == sort || one.starts_with(&format!("{sort} "));
        assert!(stored.iter().any(is_it), "no stored case of sort {sort}");
    }
}

/// There is no TERMINATE EF of 07 among the shared cases so far; that is in
/// life_cycle.rs.
#[test]
fn the_stored_cases_show_06_and_07() {
    stored_show(&[
        "C A4 0C 0 6283 06",
        "C A4 0C 0 9000 07",
        "C E0 0 9000 above of 06",
        "C E0 0 9000 of 06",
        "C E0 0 9000 of 07",
        "C 44 0 6985 07",
        "C 04 0 9000 07",
        "C E0 0 6985 in 06",
        "C E6 0 6985 06",
        "C E6 0 9000 07",
        "C E8 0 6985 06",
        "C E8 0 9000 06",
    ]);
}

/// There is no P2 04 without Le among the shared cases so far; that is in fcp.rs.
#[test]
fn the_stored_cases_show_templates() {
    stored_show(&[
        "C A4 04 0 9000 DF",
        "C A4 04 0 9000 named DF",
        "C A4 04 0 9000 EF",
        "C A4 04 0 9000 records",
        "C A4 04 0 6283",
        "C A4 04 0 6285",
        "C A4 04 0 6A82",
        "C A4 04 0 6700 8 bytes",
        "C A4 0C 0 6700 8 bytes",
        "C A4 04 5 0000 none",
        "C A4 04 5 0000 short",
        "C A4 04 1 0000",
    ]);
}

/// Ticket 3.
#[test]
fn the_stored_cases_show_versions_and_forms() {
    stored_show(&[
        "E 1 granted",
        "E 1 closed",
        "E 1 malformed",
        "W 1 1 0",
        "W 2 0 1",
        "W 2 1 0",
        "W 2 1 1",
        "W 3 0 0",
        "W 3 0 1",
        "W 3 1 0",
        "W 3 1 1",
        "M 1 1 4",
        "M 2 0 0",
        "M 2 1 4",
        "M 3 0 0",
        "M 3 1 0",
        "M 3 1 4",
        "M 256 0 2",
        "R 2 0",
        "R 2 1",
        "R 3 0",
        "R 3 1",
        "R 4 1",
        "C E0 0 9000 v2 AB",
        "C E0 0 9000 v2 AB long",
        "C E0 0 6A80 v2 AB",
        "C E0 0 6A80 v2 AB long",
        "C E0 0 6A80 v1 AB",
        "C E0 0 9000 v2 long",
        "C E0 0 6982 by AB",
        "C 44 0 9000 by AB",
        "C A4 04 0 9000 DF AB",
        "C A4 04 0 9000 named DF AB",
        "C A4 04 0 9000 records AB",
    ]);
}

/// Ticket 4. There is no READ RECORD of a record that is not there among the
/// shared cases so far; that is in reading.rs.
#[test]
fn the_stored_cases_show_bodies() {
    for instruction in ["B0", "D6", "B2", "DC"] {
        for word in ["6700", "6982", "6985", "6986", "6B00", "9000"] {
            stored_show(&[&format!("C {instruction} 0 {word} v3")]);
        }
        stored_show(&["v1", "v2"].map(|version| format!("C {instruction} 0 6D00 {version}")));
    }
    stored_show(&[
        "C B0 0 6981 v3",
        "C D6 0 6981 v3",
        "C B2 0 6981 v3",
        "C DC 0 6981 v3",
        "C DC 0 6A83 v3",
        "C B0 5 0000 v3",
        "C B2 5 0000 v3",
        "C A4 0C 6 0000",
        "C E0 0 9000 above",
        "C E0 0 9000 in a gap",
        "C E0 0 9000 packed",
        "C E4 0 9000 wiped",
    ]);
}

/// Ticket 6. There is no UPDATE BINARY that lacks something among the shared
/// cases so far, nor a TERMINATE CARD USAGE that is closed; those are in
/// security.rs.
#[test]
fn the_stored_cases_show_what_is_lacking() {
    let both = ["44", "04", "E0", "E4", "E6", "E8", "B0", "B2", "DC"];
    for (instruction, number) in
        both.into_iter().flat_map(|one| [(one, 1), (one, 2)]).chain([("D6", 2), ("FE", 1)])
    {
        let (start, end) = (format!("C {instruction} 0 6982"), [" lacking", " closed"][number - 1]);
        let is_it = |sort: &String| sort.starts_with(&start) && sort.contains(end);
        assert!(stored_sorts().iter().any(is_it), "no stored case of {start}{end}");
    }
    stored_show(&[
        "C E4 0 6982 lacking of two",
        "C E8 0 6982 by AB lacking",
        "C E8 0 6982 by AB closed",
        "E 0 closed",
        "E 0 granted closed",
        "E 0 granted lacking closed",
        "E 0 lacking closed",
        "E 1 closed",
        "E 1 granted closed",
        "E 1 lacking closed",
    ]);
}

/// Ticket 7. A record that is not there, a maker's call with a good reference, W
/// and E with form 2, and D on version 2 are not among the shared cases so far;
/// those are in referred.rs and deciding.rs.
#[test]
fn the_stored_cases_show_rules_kept_in_a_file() {
    stored_show(&[
        "D 1 record",
        "D 3 record",
        "D 3 pool",
        "D 3 NoRuleFile",
        "D 3 OtherKind",
        "D 3 Itself",
        "M 3 2 4",
        "C E0 0 6A80 v1 8B",
        "C E0 0 6A80 v3 8B",
        "C E0 0 9000 v3 8B",
        "C A4 04 0 9000 DF 8B",
        "C B2 0 9000 v3 by 8B pool",
        "C B2 0 6982 v3 by 8B pool closed",
        "C B2 0 6982 v3 by 8B Malformed closed",
        "C DC 0 6982 v3 by 8B Itself closed",
        "C 44 0 6982 by 8B OtherKind closed",
        "C 04 0 6982 by 8B NoRuleFile closed",
    ]);
}
