//! 02, Ticket 6: the decision on a rule is one of three. What the model tells
//! from how a rule is put together is held against all states there are.

use crate::common::*;
use model::lines::hex;
use model::rule::{decide, Form, Right};
use model::security::condition;
use model::Decision::{self, Closed, Granted, Lacking};
use model::State;

/// The right that the rules of these tests are asked for.
const ASKED: Right = Right::Deactivate;

/// Every combination of the three bits of some environments, the other bits all
/// off, or all on.
fn states_of(environments: &[u8]) -> Vec<State> {
    let mask = environments.iter().fold(0, |mask, n| mask | 1u16 << n);
    let sets: Vec<u16> = (0..=u16::MAX).filter(|set| set & !mask == 0).collect();
    let mut states = Vec::new();
    for &messaging in &sets {
        for &external in &sets {
            for &user in &sets {
                let off = State { messaging, external, user, channels: 0 };
                let [messaging, external, user] = [messaging, external, user].map(|s| s | !mask);
                states.extend([off, State { messaging, external, user, channels: 0 }]);
            }
        }
    }
    states
}

/// The ticket's words, by trying: closed if none of the states opens it, which
/// must be all that make a difference; else granted or lacking.
#[track_caller]
fn as_tried(what: &str, states: &[State], decided: impl Fn(&State) -> Decision) -> Decision {
    let opened = states.iter().any(|state| decided(state) == Granted);
    for state in states {
        let wanted = if opened { Lacking } else { Closed };
        let given = decided(state);
        assert!(given == wanted || opened && given == Granted, "{what} {state:?} {given:?}");
    }
    decided(&State::EMPTY)
}

/// Every SC byte under all eight states of its environment.
#[test]
fn every_sc_byte_by_trying_all_states() {
    let mut closed = Vec::new();
    for sc in 0..=255u8 {
        let states = states_of(&[sc & 0x0F]);
        assert_eq!(states.len(), 16);
        let decided = as_tried(&format!("SC {sc:02X}"), &states, |state| condition(sc, state));
        closed.extend((decided == Closed).then_some(sc));
    }
    // No condition named, or n = 15; FF is of these, 00 is not.
    let wanted: Vec<u8> = (1..=255).filter(|sc| sc & 0x70 == 0 || sc & 0x0F == 15).collect();
    assert_eq!(closed, wanted);
}

/// Which of the three it is goes by the bits that are asked for alone.
#[test]
fn a_byte_lacks_until_its_last_bit() {
    let all_but = |messaging: u16, external: u16, user: u16| State {
        messaging: !messaging,
        external: !external,
        user: !user,
        channels: 0,
    };
    for n in 0..15u8 {
        let bit = 1 << n;
        for (sc, state, wanted) in [
            (0x10 | n, all_but(0, 0, bit), Lacking),
            (0x20 | n, all_but(0, bit, 0), Lacking),
            (0x40 | n, all_but(bit, 0, 0), Lacking),
            (0x90 | n, all_but(bit, bit, 0), Granted),
            (0xF0 | n, all_but(0, 0, bit), Lacking),
            (0xF0 | n, all_but(bit, 0, 0), Lacking),
            (0xF0 | n, State::FULL, Granted),
            (0x70 | n, all_but(bit, bit, 0), Granted),
            (0x70 | n, all_but(bit, bit, bit), Lacking),
            (0x80 | n, State::FULL, Closed),
            (n.max(1), State::FULL, Closed),
        ] {
            assert_eq!(condition(sc, &state), wanted, "SC {sc:02X} {state:04X?}");
        }
    }
    for sc in [0x1F, 0x2F, 0x4F, 0x7F, 0x8F, 0x9F, 0xEF, 0xFF] {
        assert_eq!(condition(sc, &State::FULL), Closed, "SC {sc:02X}");
    }
    assert_eq!(condition(0x00, &State::EMPTY), Granted);
}

/// The SC_DOs open nothing, little and all: decisions without a bit, with user
/// bit 1, and with full sets.
#[track_caller]
fn decides(conditions: &str, wanted: [Decision; 3]) {
    let rule = bytes(&format!("800108{conditions}"));
    let user = State { user: 2, ..State::EMPTY };
    let given = [State::EMPTY, user, State::FULL].map(|s| decide(Form::Expanded, &rule, ASKED, &s));
    assert_eq!(given, wanted, "{conditions}");
}

#[test]
fn templates_by_what_is_in_them() {
    const OPENS: [Decision; 3] = [Lacking, Granted, Granted];
    const LATER: [Decision; 3] = [Lacking, Lacking, Granted];
    decides("9000", [Granted; 3]);
    decides("9700", [Closed; 3]);
    decides("9E0111", OPENS);
    decides("9E01FF", [Closed; 3]);
    decides("9E011F", [Closed; 3]);
    decides("9E0180", [Closed; 3]);
    // One of a row suffices, and one of A0.
    decides("9700 9E0111", OPENS);
    decides("9700 9E0112", LATER);
    decides("9700 9E01FF", [Closed; 3]);
    decides("A005 9700 9E0111", OPENS);
    decides("A005 9E0112 9700", LATER);
    decides("A005 9E010F 9700", [Closed; 3]);
    // A never closes AF, wherever it stands.
    decides("AF05 9E0111 9700", [Closed; 3]);
    decides("AF04 9000 9700", [Closed; 3]);
    decides("AF06 9E0111 9E01FF", [Closed; 3]);
    decides("AF05 9000 9E0111", OPENS);
    decides("AF06 9E0111 9E0112", LATER);
    decides("AF06 9E0111 9E0141", LATER);
    // Templates in templates.
    decides("A009 9700 AF05 9E0111 9700", [Closed; 3]);
    decides("A00A 9E0112 AF05 9E0111 9700", LATER);
    decides("AF0A 9E0111 A005 9700 9E0112", LATER);
    decides("AF0A 9E0111 A005 9700 9E01FF", [Closed; 3]);
    decides("A00E AF05 9E0111 9700 AF05 9000 9E0111", OPENS);
}

/// A bit in no group, an empty rule and a malformed one are closed; of groups
/// the most open counts.
#[test]
fn rules_of_groups() {
    let full = [Lacking, Granted, Granted];
    for (form, rule, wanted) in [
        (Form::Compact, "00", [Closed; 3]),
        (Form::Compact, "7700000000000000", [Closed; 3]),
        (Form::Compact, "770000000000 00", [Closed; 3]),
        (Form::Compact, "-", [Closed; 3]),
        (Form::Compact, "0800 80", [Closed; 3]),
        (Form::Compact, "08FF", [Closed; 3]),
        (Form::Compact, "08FF 0811", full),
        (Form::Compact, "0811 08FF", full),
        (Form::Compact, "08FF 0400 0880", [Closed; 3]),
        (Form::Compact, "0811 0800", [Granted; 3]),
        (Form::Compact, "0C11FF", full),
        (Form::Compact, "0CFF11", [Closed; 3]),
        (Form::Expanded, "-", [Closed; 3]),
        (Form::Expanded, "800100 9000", [Closed; 3]),
        (Form::Expanded, "800177 9000", [Closed; 3]),
        (Form::Expanded, "800108 9000 9700 97", [Closed; 3]),
        (Form::Expanded, "800108 9700 800108 9E0111", full),
        (Form::Expanded, "800108 9E0111 800108 9700", full),
        (Form::Expanded, "800108 9700 80017F 9E01F1", [Lacking, Lacking, Granted]),
    ] {
        let user = State { user: 2, ..State::EMPTY };
        let given =
            [State::EMPTY, user, State::FULL].map(|s| decide(form, &bytes(rule), ASKED, &s));
        assert_eq!(given, wanted, "{form:?} {rule}");
    }
}

const ENVIRONMENTS: [u8; 2] = [0, 14];

/// An SC byte of few environments, or with n = 15; one in three is decided by
/// itself.
fn sc_byte(random: &mut Random) -> u8 {
    let n = [0, 14, 0, 14, 15][random.below(5)];
    match random.below(3) {
        0 => [0x00, 0xFF, n, 0x80 | n][random.below(4)],
        _ => (random.next() as u8 & 0xF0) | n,
    }
}

/// An SC_DO with templates at most so deep inside one another.
fn sc_do(random: &mut Random, deep: usize) -> String {
    if deep == 0 || random.below(4) == 0 {
        return match random.below(8) {
            0 => "9000".to_string(),
            1 => "9700".to_string(),
            _ => format!("9E01{:02X}", sc_byte(random)),
        };
    }
    let inside: String = (0..2 + random.below(2) / deep).map(|_| sc_do(random, deep - 1)).collect();
    object([0xA0, 0xAF][random.below(2)], &inside)
}

/// A compact or an expanded rule of one to three groups that all name the asked
/// right, or mostly.
fn some_rule(random: &mut Random, form: Form) -> Vec<u8> {
    let groups = (0..1 + random.below(3)).map(|_| match (form, random.below(6)) {
        (Form::Compact, 0) => format!("04{:02X}", sc_byte(random)),
        (Form::Compact, _) => format!("08{:02X}", sc_byte(random)),
        (_, 0) => format!("800177{}", sc_do(random, 2)),
        (_, _) => format!("800108{}", sc_do(random, 4)),
    });
    bytes(&groups.collect::<String>())
}

/// Both forms, templates up to four deep, under all states that make a
/// difference; each of the three comes often.
#[test]
fn rules_by_trying_all_states() {
    let (mut random, mut counts) = (Random(61), [0; 3]);
    let states = states_of(&ENVIRONMENTS);
    assert_eq!(states.len(), 128);
    for (number, form) in (0..4000).flat_map(|n| Form::DECIDING.map(|form| (n, form))) {
        let rule = some_rule(&mut random, form);
        let what = format!("{number}: {form:?} {}", hex(&rule));
        let decided = as_tried(&what, &states, |state| decide(form, &rule, ASKED, state));
        counts[usize::from(decided.number())] += 1;
    }
    assert!(counts.iter().all(|&count| count > 800), "{counts:?}");
}

/// A62: where rules name all environments, the full sets and many others at
/// random. What is closed stays so; what is lacking the full sets open; a bit
/// more never makes it less open.
#[test]
fn rules_of_all_environments_by_trying_many_states() {
    let (mut random, mut counts) = (Random(62), [0; 3]);
    for _ in 0..4000 {
        let groups = (0..1 + random.below(4)).flat_map(|_| [0x08, random.next() as u8]);
        let rule: Vec<u8> = groups.collect();
        let decided = |state: &State| decide(Form::Compact, &rule, ASKED, state);
        let at_first = decided(&State::EMPTY);
        counts[usize::from(at_first.number())] += 1;
        assert_eq!(decided(&State::FULL) == Closed, at_first == Closed, "{}", hex(&rule));
        assert_ne!(decided(&State::FULL), Lacking, "{}", hex(&rule));
        for _ in 0..30 {
            let (one, more) = (random.state(), random.state());
            let with_more = State {
                messaging: one.messaging | more.messaging,
                external: one.external | more.external,
                user: one.user | more.user,
                channels: more.channels,
            };
            assert_eq!(decided(&one) == Closed, at_first == Closed, "{}", hex(&rule));
            assert!(decided(&with_more) <= decided(&one), "{}", hex(&rule));
        }
    }
    assert!(counts[0] > 5 && counts[1] > 1000 && counts[2] > 100, "{counts:?}");
}

/// As a line of the vectors has them.
#[test]
fn the_numbers_are_0_1_and_2() {
    assert_eq!(Decision::ALL.map(Decision::number), [0, 1, 2]);
    assert_eq!(Decision::ALL, [Granted, Lacking, Closed]);
    let line = model::lines::Case::parse("E 0 54001100 0000 0000 0000").expect("a case");
    assert_eq!(line.result(), "E 0212022");
}
