//! Cards that get Ticket 6 of 02 wrong are found, and told in a small form: what
//! is lacking and what is closed, DELETE's two rules, and where the number is 0.
//! Each row says within how many cases of the mix its card is found.

use crate::impostor::{
    found, found_among, found_small_in, found_small_within, Came, Impostor, Left, Spoil, HONEST,
};
use crate::judge::{numbered, telling, Judge, RIGHT};
use cases::Kind;
use compare::{opened, run, Disagreement, Model, Pair, Told};
use model::lines::Case as Line;
use model::rule::Condition;
use model::vectors::case_lines;
use model::{bodies, Card, Decision, State};

/// SC bytes that are closed and told as lacking.
fn as_lacking(condition: &Condition, state: &State, wrong: fn(u8) -> bool) -> Decision {
    match condition {
        Condition::Byte(sc) if wrong(*sc) => Decision::Lacking,
        _ => condition.decide(state),
    }
}

/// Those that are not granted decide.
fn of_denied(all: &[Decision], decide: fn(&[Decision]) -> Option<Decision>) -> Decision {
    let denied: Vec<_> = all.iter().copied().filter(|one| !one.is_granted()).collect();
    decide(&denied).unwrap_or(Decision::Granted)
}

/// Cards that judge a condition, a template, a row or the groups wrongly.
const JUDGES: [(usize, &str, Spoil); 12] = [
    (100, "n = 15 lacks", |came, _, told| {
        let leaf = |c: &_, s: &_| as_lacking(c, s, |sc| sc & 0x0F == 15 && sc != 0xFF);
        telling(came, told, &Judge { leaf, ..RIGHT })
    }),
    (300, "FF lacks", |came, _, told| {
        let leaf = |c: &_, s: &_| as_lacking(c, s, |sc| sc == 0xFF);
        telling(came, told, &Judge { leaf, ..RIGHT })
    }),
    (100, "a byte that names no condition lacks", |came, _, told| {
        let leaf = |c: &_, s: &_| as_lacking(c, s, |sc| sc & 0x70 == 0 && sc != 0);
        telling(came, told, &Judge { leaf, ..RIGHT })
    }),
    (300, "97 lacks", |came, _, told| {
        let leaf = |c: &Condition, s: &_| match c {
            Condition::Never => Decision::Lacking,
            _ => c.decide(s),
        };
        telling(came, told, &Judge { leaf, ..RIGHT })
    }),
    (200, "AF lacks if one of it can be opened", |came, _, told| {
        let all_of = |all: &[Decision]| match of_denied(all, |denied| denied.first().copied()) {
            Decision::Granted => Decision::Granted,
            _ => all.iter().copied().min().unwrap_or(Decision::Closed).max(Decision::Lacking),
        };
        telling(came, told, &Judge { all_of, ..RIGHT })
    }),
    (800, "AF by the first of it that does not hold", |came, _, told| {
        let all_of = |all: &[Decision]| of_denied(all, |denied| denied.first().copied());
        telling(came, told, &Judge { all_of, ..RIGHT })
    }),
    (800, "A0 by the last of it", |came, _, told| {
        let one_of = |all: &[Decision]| all.last().copied().unwrap_or(Decision::Closed);
        telling(came, told, &Judge { one_of, ..RIGHT })
    }),
    (800, "A0 is closed if one of it is", |came, _, told| {
        let one_of = |all: &[Decision]| of_denied(all, |denied| denied.iter().copied().max());
        telling(came, told, &Judge { one_of, ..RIGHT })
    }),
    (2500, "a row by the last of it", |came, _, told| {
        let row = |all: &[Decision]| all.last().copied().unwrap_or(Decision::Closed);
        telling(came, told, &Judge { row, ..RIGHT })
    }),
    (500, "the first group that names the right", |came, _, told| {
        let groups = |all: &[Decision]| all.first().copied().unwrap_or(Decision::Closed);
        telling(came, told, &Judge { groups, ..RIGHT })
    }),
    (800, "the last group that names the right", |came, _, told| {
        let groups = |all: &[Decision]| all.last().copied().unwrap_or(Decision::Closed);
        telling(came, told, &Judge { groups, ..RIGHT })
    }),
    (50, "a right that no group names lacks", |came, _, told| {
        let groups = |all: &[Decision]| all.iter().copied().min().unwrap_or(Decision::Lacking);
        telling(came, told, &Judge { groups, ..RIGHT })
    }),
];

/// Lacking only where one of these states opens it.
fn tried(came: &Came, told: Told, states: &[State]) -> Told {
    let opens = |state: &State| Came { state, ..*came }.given(came.command).told.word != 0x6982;
    match told.numbers[1] == 1 && !states.iter().any(opens) {
        true => numbered(told, 2),
        false => told,
    }
}

/// Cards that tell closed where some state opens, or the other way round.
const TOLD: [(usize, &str, Spoil); 7] = [
    (50, "lacking is never told", |_, _, told| match told.numbers[1] {
        1 => numbered(told, 2),
        _ => told,
    }),
    (50, "closed is never told", |_, _, told| match told.numbers[1] {
        2 => numbered(told, 1),
        _ => told,
    }),
    (20, "lacking and closed exchanged", |_, _, told| match told.numbers[1] {
        0 => told,
        number => numbered(told, 3 - number),
    }),
    (200, "only the user's set is tried", |came, _, told| {
        tried(came, told, &[State { user: 0xFFFF, ..*came.state }])
    }),
    (200, "one set after the other is tried", |came, _, told| {
        let State { channels, .. } = *came.state;
        let none = State { channels, ..State::EMPTY };
        let messaging = State { messaging: 0xFFFF, ..none };
        let external = State { external: 0xFFFF, ..none };
        tried(came, told, &[messaging, external, State { user: 0xFFFF, ..none }])
    }),
    (100, "environments up to 7 are tried", |came, _, told| {
        let [messaging, external, user] = [0x00FF; 3];
        tried(came, told, &[State { messaging, external, user, ..*came.state }])
    }),
    (400, "environment 14 is not tried", |came, _, told| {
        let [messaging, external, user] = [0x3FFF; 3];
        tried(came, told, &[State { messaging, external, user, ..*came.state }])
    }),
];

/// Cards that put DELETE's two rules together wrongly.
const DELETIONS: [(usize, &str, Spoil); 3] = [
    (300, "closed wins over lacking in DELETE", |came, _, told| {
        telling(came, told, &Judge { deletion: |own, other| own.max(other), ..RIGHT })
    }),
    (300, "DELETE tells the child's rule", |came, _, told| {
        telling(came, told, &Judge { deletion: |own, _| own, ..RIGHT })
    }),
    (600, "DELETE tells the directory's rule", |came, _, told| {
        telling(came, told, &Judge { deletion: |_, other| other, ..RIGHT })
    }),
];

/// The number of the rules that the command asks, left behind with this word.
fn left_behind(came: &Came, told: Told, word: u16, judge: &Judge) -> Told {
    match judge.command(came).filter(|_| told.word == word) {
        Some(decision) => numbered(told, decision.number().into()),
        None => told,
    }
}

/// A judge that does not look at DELETE's second rule.
const CHILD_ALONE: Judge = Judge { deletion: |own, _| own, ..RIGHT };

/// Cards that tell a number where security refused nothing, or none where it did.
const WITHOUT: [(usize, &str, Spoil); 10] = [
    (20, "6982 without a number", |_, _, told| numbered(told, 0)),
    (200, "left with 6985", |came, _, told| left_behind(came, told, 0x6985, &RIGHT)),
    (700, "left with 6B00", |came, _, told| left_behind(came, told, 0x6B00, &RIGHT)),
    (600, "left with 6700", |came, _, told| left_behind(came, told, 0x6700, &RIGHT)),
    (8000, "left with 6E00", |came, _, told| left_behind(came, told, 0x6E00, &RIGHT)),
    (1600, "left with 6D00", |came, _, told| left_behind(came, told, 0x6D00, &RIGHT)),
    (100, "left of the child's rule with 9000", |came, _, told| {
        left_behind(came, told, 0x9000, &CHILD_ALONE)
    }),
    (20, "closed with answer 1", |_, _, told| match told.answer {
        1 => numbered(told, 2),
        _ => told,
    }),
    (60, "lacking with answer 5", |_, _, told| match told.answer {
        5 => numbered(told, 1),
        _ => told,
    }),
    (300, "the rule's number with answer 6", |came, _, told| {
        let length = Card::decode(came.image).and_then(|card| bodies::pool_length(&card));
        let pool = vec![0; length.unwrap_or(0)];
        match told.answer {
            6 => numbered(told, Came { pool: &pool, ..*came }.given(came.command).told.numbers[1]),
            _ => told,
        }
    }),
];

/// A card on which the child's rule alone allows DELETE.
fn child_alone(came: &Came, left: &mut Left, told: Told) -> Told {
    let deletes = came.command.get(1) == Some(&0xE4) && matches!(told.word, 0x9000 | 0x6982);
    match CHILD_ALONE.command(came).filter(|_| deletes) {
        Some(denied @ (Decision::Lacking | Decision::Closed)) => {
            left.restore(came);
            numbered(Told { word: 0x6982, ..told }, denied.number().into())
        }
        _ => told,
    }
}

#[test]
fn every_wrong_judge_is_found() {
    for (count, title, command) in JUDGES {
        found_small_within(count, title, command);
        for kind in [Kind::Security, Kind::Rule] {
            found_small_in(title, command, kind, 8);
        }
    }
}

#[test]
fn lacking_and_closed_told_wrongly_are_found() {
    for (count, title, command) in TOLD.into_iter().chain(DELETIONS) {
        found_small_within(count, title, command);
    }
    found_small_within(100, "DELETE asks the child alone", child_alone);
}

#[test]
fn histories_of_locked_files_find_them_too() {
    for (_, title, command) in TOLD {
        found_small_in(title, command, Kind::Locked, 8);
    }
}

#[test]
fn numbers_where_security_refused_nothing_are_found() {
    for (count, title, command) in WITHOUT {
        found_small_within(count, title, command);
    }
}

/// Held against themselves: what the card does under full sets finds these. What
/// is told of it can be read again.
#[test]
fn full_sets_find_what_both_sides_tell_wrongly() {
    for (_, title, command) in JUDGES.into_iter().chain(TOLD).chain(DELETIONS) {
        let wrong = Impostor { command, ..HONEST };
        let found = found(Pair { card: &wrong, model: &wrong }, Some(Kind::Security));
        let found = found.unwrap_or_else(|| panic!("not found: {title}"));
        let told = found.to_string();
        let again: Vec<_> = case_lines(&told).map(Line::parse).collect();
        let Disagreement::Opened { line, .. } = found else { panic!("{title}: {told}") };
        assert_eq!(again, [Some(*line)], "{title}: {told}");
        assert!(told.len() < 2500, "{title}: {told}");
    }
}

/// Rules kept in files are among what full sets open, and do not.
#[test]
fn full_sets_find_what_both_sides_tell_wrongly_of_rules_in_files() {
    for (_, title, command) in JUDGES.into_iter().chain(TOLD) {
        let wrong = Impostor { command, ..HONEST };
        let found = found_among(6000, Pair { card: &wrong, model: &wrong }, Some(Kind::Referred));
        assert!(matches!(found, Some(Disagreement::Opened { .. })), "{title}: {found:?}");
    }
}

/// What is closed is told so under full sets too.
#[test]
fn a_rule_that_is_closed_under_one_state_alone_is_found() {
    let wavering = Impostor {
        command: |came, _, told| match *came.state == State::FULL && told.word == 0x6982 {
            true => numbered(told, 1),
            false => told,
        },
        ..HONEST
    };
    let mut image = vec![0; 16 + 64 * 2];
    assert_eq!(model::make(&mut image, 1, 64, 0, &[0x00]), 0);
    let line = Line::command(&image, &[], &[0x00, 0x04, 0x00, 0x00], &[], State::EMPTY);
    let complaint = |card: &Impostor| {
        let given = run(card, &line).expect("a command has a call");
        opened::complaint(card, &line, &given)
    };
    assert_eq!(complaint(&wavering).as_deref(), Some("closed, and under full sets it is not"));
    assert_eq!(complaint(&HONEST), None);
}

/// And demand 1 finds these.
#[test]
fn demand_1_finds_numbers_that_both_sides_tell_wrongly() {
    for (count, title, command) in WITHOUT {
        let wrong = Impostor { command, ..HONEST };
        match found_among(count, Pair { card: &wrong, model: &wrong }, None) {
            Some(Disagreement::Demand1 { .. }) => {}
            other => panic!("{title}: {other:?}"),
        }
    }
}

/// The judge without a flaw is the model's.
#[test]
fn without_a_flaw_nothing_is_told_wrongly() {
    let honest = Impostor { command: |came, _, told| telling(came, told, &RIGHT), ..HONEST };
    let pair = Pair { card: &honest, model: &Model };
    for kind in [Kind::Security, Kind::SoundCommand, Kind::Locked, Kind::Rule, Kind::Referred] {
        assert_eq!(found(pair, Some(kind)), None, "{kind:?}");
    }
    assert_eq!(found_among(100, pair, Some(Kind::RuleFiles)), None);
}
