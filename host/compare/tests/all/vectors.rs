//! The proved card gives the results of the vectors: the stored ones, and the
//! shared ones where they are there.

use std::collections::BTreeMap;

use crate::impostor::{word, Impostor, Maker, HONEST};
use crate::judge::numbered;
use crate::say;
use compare::vectors::check_vectors;
use compare::{Proved, Subject, Told};
use model::vectors::{case_lines, shared_file, shared_text, stored_text};
use model::State;

/// The kinds of lines; each text has some of each.
const KINDS: [char; 7] = ['C', 'M', 'R', 'Y', 'E', 'W', 'D'];
/// The longest rule that a record of any version takes, and that another file keeps.
const LONGEST_RULE: usize = 30;
const LONGEST_KEPT: usize = 255;

/// Whether the card can be asked: of E, only what a record can hold, and of
/// expanded rules what a file can keep.
fn can_be_asked(line: &str) -> bool {
    let mut fields = line.split(' ').skip(1);
    let (Some(form), Some(rule), true) = (fields.next(), fields.next(), line.starts_with('E'))
    else {
        return true;
    };
    let longest = if form == "1" { LONGEST_KEPT } else { LONGEST_RULE };
    rule != "-" && rule.len() <= 2 * longest
}

/// Runs a text against the proved card; no line of these kinds may be left out.
fn all_agree(text: &str, fewest: usize) -> BTreeMap<char, usize> {
    let counts = check_vectors(&Proved, text).unwrap_or_else(|wrong| panic!("{wrong}"));
    for kind in KINDS {
        let of_kind = case_lines(text).filter(|line| line.starts_with(kind));
        let there = of_kind.filter(|line| can_be_asked(line)).count();
        assert!(there >= fewest, "{there} lines of {kind}");
        assert_eq!(counts.get(&kind), Some(&there), "{kind}: {counts:?}");
    }
    counts
}

#[test]
fn every_stored_case_agrees() {
    let text = stored_text().expect("the stored cases are there");
    all_agree(&text, 6);
}

#[test]
fn every_shared_case_agrees() {
    match shared_text() {
        Err(reason) => {
            assert!(!shared_file().is_file(), "{reason}");
            say(&format!("SKIPPED: the shared vectors against the proved card: {reason}"));
        }
        Ok(text) => {
            let counts = all_agree(&text, 25);
            let all: usize = counts.values().sum();
            say(&format!("shared vectors: {all} agree with the proved card {counts:?}"));
        }
    }
}

/// The proved card, but the report counts one file more.
struct OneMore;

impl Subject for OneMore {
    fn make(&self, buffer: &mut [u8], version: u32, total: u32, form: u32, rule: &[u8]) -> u32 {
        Proved.make(buffer, version, total, form, rule)
    }

    fn command(
        &self,
        image: &mut [u8],
        pool: &mut [u8],
        command: &[u8],
        response: &mut [u8],
        state: &State,
    ) -> Told {
        Proved.command(image, pool, command, response, state)
    }

    fn report(&self, image: &[u8]) -> (u32, [u32; 4]) {
        let (answer, [total, room, children, beneath]) = Proved.report(image);
        (answer, [total, room, children, beneath + 1])
    }

    fn rule(&self, image: &[u8], pool: &[u8], slot: u32) -> (u32, [u32; 3]) {
        Proved.rule(image, pool, slot)
    }

    fn sound(&self, image: &[u8]) -> bool {
        Proved.sound(image)
    }
}

#[test]
fn a_wrong_card_fails_the_vectors() {
    let text = stored_text().expect("the stored cases are there");
    let wrong = check_vectors(&OneMore, &text).expect_err("a count is wrong");
    assert!(wrong.starts_with("R "), "{wrong}");
}

/// E and W are asked by other calls, and a wrong answer to those shows; so does a
/// wrong number.
#[test]
fn a_wrong_rule_fails_the_vectors() {
    let text = stored_text().expect("the stored cases are there");
    let only = |kind: char| -> String {
        case_lines(&text).filter(|line| line.starts_with(kind)).map(|l| format!("{l}\n")).collect()
    };
    let denying =
        Impostor { command: |_, _, _| Told { numbers: [0, 2, 0], ..word(0x6982) }, ..HONEST };
    // Lacking and closed exchanged, and neither told.
    let exchanging = Impostor {
        command: |_, _, told| match told.numbers[1] {
            0 => told,
            number => numbered(told, 3 - number),
        },
        ..HONEST
    };
    let silent = Impostor { command: |_, _, told| numbered(told, 0), ..HONEST };
    let forgetful = Maker(|version, _| (version, 0));
    let short = Impostor {
        rule: |_, (answer, [sort, from, length])| (answer, [sort, from, length.saturating_sub(1)]),
        ..HONEST
    };
    let cases: [(&dyn Subject, char); 7] = [
        (&short, 'D'),
        (&denying, 'E'),
        (&forgetful, 'E'),
        (&forgetful, 'W'),
        (&exchanging, 'C'),
        (&exchanging, 'E'),
        (&silent, 'E'),
    ];
    for (subject, kind) in cases {
        let wrong = check_vectors(subject, &only(kind)).expect_err("a rule is wrong");
        assert!(wrong.starts_with(kind), "{wrong}");
        assert!(check_vectors(&HONEST, &only(kind)).is_ok());
    }
}
