//! Commands that come to step J, and the rules that they ask (02, Ticket 6): each
//! decision by every command, in both forms, by every sort of condition, under
//! states that just miss; and what comes before and after step J.

use std::collections::BTreeMap;

use crate::asked::Asked;
use crate::common::say;
use cases::decided::{self, Wish};
use cases::{editions, Generator, Kind, Random};
use model::lines::Case as Line;
use model::rule::{decide, fit, Right};
use model::{command, words, Decision, Outcome, State};

const SEED: u64 = 1208;

#[track_caller]
fn each_at_least(what: &str, counts: &BTreeMap<String, usize>, fewest: usize, wanted: &[String]) {
    let count = |name: &String| counts.get(name).copied().unwrap_or(0);
    let rarest = wanted.iter().map(count).min().unwrap_or(0);
    say(&format!("{what}: {} things shown, the rarest {rarest} times", wanted.len()));
    let lacking: Vec<_> = wanted.iter().filter(|name| count(name) < fewest).collect();
    assert!(lacking.is_empty(), "{what}, fewer than {fewest}: {lacking:?}: {counts:#?}");
}

/// How often each thing is shown by the commands of a kind.
fn counts(kind: Kind, cases: usize) -> BTreeMap<String, usize> {
    let mut counts = BTreeMap::new();
    let lines = Generator::only(SEED, kind).take(cases).flat_map(|made| made.case.lines());
    for name in lines.filter_map(Asked::of).flat_map(|asked| asked.names()) {
        *counts.entry(name).or_insert(0) += 1;
    }
    counts
}

fn names<const N: usize>(names: [&str; N]) -> Vec<String> {
    names.map(str::to_string).into()
}

/// The instructions that ask one rule; CREATE by the kind of file.
const OF_ONE_RULE: [&str; 11] =
    ["44", "04", "E8", "E6", "FE", "E0 DF", "E0 EF", "B0", "D6", "B2", "DC"];

/// A rule decides as it was made to, and fits.
#[test]
fn rules_decide_as_wished() {
    let mut random = Random::new(SEED);
    let mut counts = [0; 3];
    for _ in 0..20_000 {
        let (edition, state) = (editions::any(&mut random), decided::state(&mut random));
        let decision = decided::decision(&mut random, &state);
        let wish = Wish { right: random.pick(Right::ALL), state, decision };
        let rule = decided::rule(&mut random, edition, &wish);
        assert!(fit(edition, rule.form, &rule.bytes), "{rule:02X?}");
        let given = decide(rule.form, &rule.bytes, wish.right, &state);
        assert_eq!(given, decision, "{wish:?} {rule:02X?}");
        counts[usize::from(decision.number())] += 1;
    }
    assert!(counts.iter().all(|&count| count > 3000), "{counts:?}");
}

/// Each right of a locked file lacks something at first, and full sets open it.
#[test]
fn locked_rules_are_opened_by_full_sets() {
    let mut random = Random::new(SEED + 1);
    let mut forms = [0; 2];
    for _ in 0..3000 {
        let edition = editions::any(&mut random);
        let rule = decided::locked(&mut random, edition);
        assert!(fit(edition, rule.form, &rule.bytes), "{rule:02X?}");
        let under = |state| Right::ALL.map(|right| decide(rule.form, &rule.bytes, right, state));
        assert_eq!(under(&State::EMPTY), [Decision::Lacking; 7], "{rule:02X?}");
        assert_eq!(under(&State::FULL), [Decision::Granted; 7], "{rule:02X?}");
        forms[usize::from(rule.form.number())] += 1;
    }
    assert!(forms.iter().all(|&count| count > 800), "{forms:?}");
}

/// Nothing but the sets in bits 0 to 14 can lack.
#[test]
fn what_is_possible() {
    let all_but_15 = State { messaging: 0x7FFF, external: 0x7FFF, user: 0x7FFF, channels: 0 };
    for state in [State::FULL, all_but_15] {
        assert!(!decided::is_possible(Decision::Lacking, &state));
    }
    for bit in 0..15 {
        let state = State { external: !(1 << bit), ..State::FULL };
        assert!(decided::is_possible(Decision::Lacking, &state), "bit {bit}");
    }
    assert!(decided::is_possible(Decision::Closed, &State::FULL));
    assert!(decided::is_possible(Decision::Granted, &State::EMPTY));
}

#[test]
fn every_command_shows_each_decision_in_both_forms() {
    let counts = counts(Kind::Security, 9000);
    let each = |decision: &str| {
        let forms = ["compact", "expanded"].into_iter();
        let both = forms.flat_map(move |form| OF_ONE_RULE.map(|ins| format!("{ins} {form}")));
        both.map(move |name| format!("{name} {decision}")).collect::<Vec<_>>()
    };
    for decision in ["granted", "lacking", "closed"] {
        each_at_least(&format!("commands, {decision}"), &counts, 10, &each(decision));
    }
    let of_two = ["granted", "lacking", "closed"].into_iter();
    let of_two = of_two.flat_map(|own| ["granted", "lacking", "closed"].map(|by| (own, by)));
    let of_two: Vec<_> = of_two.map(|(own, by)| format!("E4 own {own}, directory {by}")).collect();
    each_at_least("DELETE by its two rules", &counts, 40, &of_two);
}

#[test]
fn every_sort_of_condition_and_of_state_is_met() {
    let counts = counts(Kind::Security, 9000);
    let sorts = names([
        "closed by FF",
        "closed by n = 15",
        "closed by no named condition",
        "closed by 97",
        "closed, AF with a 97",
        "closed, AF with a 97 and what would hold",
        "closed, AF with a 97 and what lacks",
        "closed, A0",
        "closed, in no group",
        "closed, several groups",
        "lacking, A0 with a 97 and a byte",
        "lacking, AF with what holds",
        "lacking beside a closed group",
        "lacking, one of several asked for",
        "lacking, all asked for",
    ]);
    each_at_least("conditions", &counts, 10, &sorts);
    for depth in 1..=4 {
        let deep = ["lacking", "closed"].map(|how| format!("{how}, {depth} deep"));
        each_at_least("templates", &counts, 25, &deep);
    }
    let states = names([
        "lacking with empty sets",
        "closed with empty sets",
        "closed with full sets",
        "lacking with all but one bit",
        "closed with all but one bit",
        "lacking for one bit",
        "granted with one bit alone",
        "lacking with some bits",
        "closed with some bits",
    ]);
    each_at_least("states", &counts, 20, &states);
}

/// What would come after J if it were granted, and what comes before it.
#[test]
fn step_j_in_its_order() {
    let counts = counts(Kind::Security, 9000);
    for how in ["lacking", "closed"] {
        let later = ["6985", "6A89", "6A84", "6981", "6B00", "6A83", "6700", "answer 5", "9000"];
        let later: Vec<_> = later.iter().map(|word| format!("{how} before {word}")).collect();
        each_at_least(&format!("{how} before a later step"), &counts, 8, &later);
        each_at_least(how, &counts, 2, &[format!("{how} before 6A8A")]);
        let earlier = ["6985 of a channel", "answer 6"].map(|what| format!("{what}, {how}"));
        each_at_least(&format!("before J, {how}"), &counts, 15, &earlier);
    }
}

/// In histories too, which go on after a refusal; and on images at random.
#[test]
fn histories_and_images_lack_and_are_closed() {
    let forms = ["compact", "expanded"];
    let all = |instructions: &[&str], how: &str| -> Vec<String> {
        let both = |ins: &&str| forms.map(|form| format!("{ins} {form} {how}"));
        instructions.iter().flat_map(both).collect()
    };
    let often = ["44", "04", "E0 DF", "E0 EF"];
    let locked = counts(Kind::Locked, 500);
    each_at_least("locked files", &locked, 40, &all(&often, "lacking"));
    each_at_least("locked files", &locked, 40, &all(&often, "granted"));
    each_at_least(
        "locked files",
        &locked,
        2,
        &all(&["E6", "E8", "B0", "D6", "B2", "DC"], "lacking"),
    );
    let deleted = ["own lacking, directory lacking", "own granted, directory lacking"];
    each_at_least("locked files", &locked, 5, &deleted.map(|how| format!("E4 {how}")));
    each_at_least("histories", &counts(Kind::History, 400), 10, &all(&often, "closed"));
    let on_images = counts(Kind::SoundCommand, 6000);
    each_at_least("images", &on_images, 1, &all(&["E0 EF"], "lacking"));
    each_at_least("images", &on_images, 5, &all(&often, "closed"));
}

/// A history tells first that something is lacking, and later does it: the same
/// command is done under a state with more bits, nothing else having happened.
#[test]
fn what_is_lacking_in_a_history_some_state_opens() {
    let mut opened = 0;
    for made in Generator::only(SEED, Kind::Locked).take(200) {
        for line in made.case.lines() {
            let Line::Command { image, pool, command: bytes, state, response } = line else {
                continue;
            };
            let run = |state: &State| {
                let [mut image, mut pool, mut response] =
                    [&image, &pool, &response].map(Vec::clone);
                command(&mut image, &mut pool, &bytes, &mut response, state)
            };
            let channels = state.channels;
            let wanted = match run(&state).security {
                1 => 0,
                2 => 2,
                _ => continue,
            };
            assert_eq!(run(&State { channels, ..State::FULL }).security, wanted, "{bytes:02X?}");
            opened += usize::from(wanted == 0);
        }
    }
    assert!(opened > 300, "{opened} were opened");
}

/// A61 on all kinds: the number is not 0 exactly with answer 0 and 6982.
#[test]
fn the_number_comes_exactly_with_6982() {
    let mut seen = BTreeMap::new();
    for line in Generator::new(SEED).take(5000).flat_map(|made| made.case.lines()) {
        let Line::Command { mut image, mut pool, command: bytes, state, mut response } = line
        else {
            continue;
        };
        let given = command(&mut image, &mut pool, &bytes, &mut response, &state);
        let Outcome { answer, word, security, .. } = given;
        let refused = answer == 0 && word == words::SECURITY_NOT_SATISFIED;
        assert_eq!(security != 0, refused, "{bytes:02X?} {given:?}");
        *seen.entry((answer, security)).or_insert(0) += 1;
    }
    assert_eq!(
        seen.keys().copied().collect::<Vec<_>>(),
        [(0, 0), (0, 1), (0, 2), (1, 0), (5, 0), (6, 0)]
    );
    assert!(seen.values().all(|&count| count > 40), "{seen:?}");
}
