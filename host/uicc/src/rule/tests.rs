//! Words against the model's decision, and what is told of malformed rules.

mod folding;
mod malformed;
mod meaning;
pub mod random;
pub mod reading;

use super::*;

/// The whole rule in one line.
fn told(rule: Rule, owner: Owner) -> Option<String> {
    words(rule, owner).ok().map(|parts| parts.join("; "))
}

#[test]
fn a_compact_rule_tells_every_right() {
    for (rule, owner, wanted) in [
        (
            &[0x01, 0x00][..],
            Owner::File,
            "DELETE, TERMINATE, ACTIVATE, DEACTIVATE, WRITE, UPDATE: never; READ: always",
        ),
        (
            &[0x7F, 0, 0, 0, 0, 0, 0, 0],
            Owner::Directory,
            "DELETE, TERMINATE, ACTIVATE, DEACTIVATE, CREATE DF, CREATE EF, DELETE CHILD: always",
        ),
        (
            &[0x43, 0xFF, 0x13, 0x00],
            Owner::File,
            "DELETE, TERMINATE, ACTIVATE, DEACTIVATE, WRITE: never; \
             UPDATE: user authentication 3; READ: always",
        ),
        // Three groups: what one of them refuses, another may grant.
        (
            &[0x06, 0x00, 0xFF, 0x02, 0xB2, 0x02, 0x11],
            Owner::Directory,
            "DELETE, TERMINATE, ACTIVATE, DEACTIVATE, DELETE CHILD: never; CREATE DF: always; \
             CREATE EF: (external authentication 2 and user authentication 2) \
             or user authentication 1",
        ),
        (
            &[0x00],
            Owner::Directory,
            "DELETE, TERMINATE, ACTIVATE, DEACTIVATE, CREATE DF, CREATE EF, DELETE CHILD: never",
        ),
    ] {
        assert_eq!(told(Rule::compact(rule), owner).as_deref(), Some(wanted), "{rule:02X?}");
    }
}

#[test]
fn an_expanded_rule_tells_every_right() {
    for (rule, wanted) in [
        (
            &[0x80, 0x01, 0x40, 0x90, 0x00, 0x80, 0x01, 0x20, 0x97, 0x00][..],
            "DELETE: always; \
             TERMINATE, ACTIVATE, DEACTIVATE, CREATE DF, CREATE EF, DELETE CHILD: never",
        ),
        // Conditions in a row and groups are alternatives; never adds nothing.
        (
            &[
                0x80, 0x01, 0x7F, 0x9E, 0x01, 0x11, 0x97, 0x00, 0x80, 0x01, 0x20, 0xAF, 0x06, 0x9E,
                0x01, 0x22, 0x9E, 0x01, 0x42,
            ],
            "DELETE, ACTIVATE, DEACTIVATE, CREATE DF, CREATE EF, DELETE CHILD: \
             user authentication 1; TERMINATE: user authentication 1 or \
             (external authentication 2 and secure messaging 2)",
        ),
        // Four deep: A0 (AF (A0 (AF (1, 2), 3), 4), 5).
        (
            &[
                0x80, 0x01, 0x01, 0xA0, 0x15, 0xAF, 0x10, 0xA0, 0x0B, 0xAF, 0x06, 0x9E, 0x01, 0x11,
                0x9E, 0x01, 0x12, 0x9E, 0x01, 0x13, 0x9E, 0x01, 0x14, 0x9E, 0x01, 0x15,
            ],
            "DELETE, TERMINATE, ACTIVATE, DEACTIVATE, CREATE DF, CREATE EF: never; DELETE CHILD: \
             (((user authentication 1 and user authentication 2) or user authentication 3) \
             and user authentication 4) or user authentication 5",
        ),
        // What always holds, or never, is said as short as that.
        (
            &[
                0x80, 0x01, 0x7F, 0xAF, 0x09, 0x90, 0x00, 0xA0, 0x05, 0x90, 0x00, 0x9E, 0x01, 0x11,
                0x80, 0x01, 0x01, 0xAF, 0x04, 0x97, 0x00, 0x90, 0x00,
            ],
            "DELETE, TERMINATE, ACTIVATE, DEACTIVATE, CREATE DF, CREATE EF, DELETE CHILD: always",
        ),
    ] {
        let given = told(Rule::expanded(rule), Owner::Directory);
        assert_eq!(given.as_deref(), Some(wanted), "{rule:02X?}");
    }
}

/// Every byte of a rule stands in one line of its explanation.
#[test]
fn an_explanation_has_every_byte_once() {
    for (row, bytes) in [
        ("8C070600FF02B20211", 9),
        ("7F00000000000000", 8),
        ("00", 1),
        ("AB138001069E0111AF069E01229E01428001409000", 21),
        ("80017FA0109000AF0C9000A0089000AF0490009000", 21),
    ] {
        let written = crate::hex::bytes(row).expect("hex");
        let told = explain(&written).expect("a good rule");
        let listed = told.lines().skip(1).take_while(|line| line.starts_with("  "));
        let listed: String = listed.filter_map(|line| line.split_whitespace().nth(1)).collect();
        let before = if matches!(written[0], 0x8C | 0xAB) { 4 } else { 0 };
        assert_eq!((listed.as_str(), written.len()), (&row[before..], bytes), "{told}");
    }
}
