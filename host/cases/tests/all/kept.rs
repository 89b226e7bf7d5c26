//! Rules kept in a file (02, Ticket 7): commands that ask them, calls that tell
//! where they stand, and histories in which they are written.

use std::collections::BTreeMap;

use crate::asked::asks_of;
use crate::common::say;
use crate::met::{lost, met, OF_THE_FILE, OF_THE_RECORD};
use cases::{worst, Case, Generator, Kind};
use model::deciding::{decide, place_of, rule_of, Place};
use model::lines::Case as Line;
use model::rule::{Form, Right};
use model::soundness::sound_card;
use model::{command, words, Outcome, State};

const SEED: u64 = 1507;

type Counts = BTreeMap<String, usize>;

fn count(counts: &mut Counts, name: impl Into<String>) {
    *counts.entry(name.into()).or_insert(0) += 1;
}

#[track_caller]
fn each_at_least<T: AsRef<str>>(what: &str, counts: &Counts, fewest: usize, wanted: &[T]) {
    let of = |name: &T| counts.get(name.as_ref()).copied().unwrap_or(0);
    let rarest = wanted.iter().map(of).min().unwrap_or(0);
    say(&format!("{what}: {} things shown, the rarest {rarest} times", wanted.len()));
    let lacking: Vec<_> =
        wanted.iter().filter(|name| of(name) < fewest).map(AsRef::as_ref).collect();
    assert!(lacking.is_empty(), "{what}, fewer than {fewest}: {lacking:?}: {counts:#?}");
}

/// Granted, lacking or closed by a rule that was found; or that none was.
fn how(outcome: &Outcome, found: bool) -> &'static str {
    match (outcome.word, outcome.security, found) {
        (words::SECURITY_NOT_SATISFIED, 2, false) => "nowhere",
        (words::SECURITY_NOT_SATISFIED, 2, true) => "closed",
        (words::SECURITY_NOT_SATISFIED, _, _) => "lacking",
        _ => "granted",
    }
}

/// What commands of the kind show: of each file asked what it met, of those that
/// ask one rule how they went.
fn shown_by_commands(cases: usize) -> Counts {
    let mut counts = Counts::new();
    for made in Generator::only(SEED, Kind::Referred).take(cases) {
        let Case::OneCommand { mut image, mut pool, command: bytes, mut response, state } =
            made.case
        else {
            panic!("it is one command");
        };
        let card = sound_card(&image).expect("a sound card");
        let before = pool.clone();
        let asks = asks_of(&card, &bytes).expect("a command that asks a rule");
        let outcome = command(&mut image, &mut pool, &bytes, &mut response, &state);
        for (slot, _) in &asks {
            met(&card, &before, *slot).into_iter().for_each(|name| count(&mut counts, name));
        }
        let early = state.another_channel_open() || card.is_terminated(0);
        let referred = |slot: usize| card.record(slot).form == Form::Referred;
        if early {
            continue;
        }
        match *asks.as_slice() {
            [(slot, right)] if referred(slot) => {
                let kind = match (bytes[1], right) {
                    (0xE0, Right::CreateDf) => " DF",
                    (0xE0, _) => " EF",
                    _ => "",
                };
                let found = rule_of(&card, &before, slot).is_ok();
                count(&mut counts, format!("{:02X}{kind} {}", bytes[1], how(&outcome, found)));
            }
            [(own, _), (directory, _)] => {
                let by = [referred(own), referred(directory)];
                count(&mut counts, format!("E4 {by:?} {}", outcome.security == 0));
            }
            _ => {}
        }
    }
    counts
}

#[test]
fn commands_meet_every_sort_of_reference() {
    let counts = shown_by_commands(8000);
    each_at_least("references asked", &counts, 25, &OF_THE_FILE);
    each_at_least("records asked", &counts, 25, &OF_THE_RECORD);
    let instructions = ["44", "04", "E8", "E6", "FE", "E0 DF", "E0 EF", "B0", "D6", "B2", "DC"];
    let ways = ["granted", "lacking", "closed", "nowhere"];
    let wanted: Vec<_> =
        instructions.iter().flat_map(|ins| ways.map(|way| format!("{ins} {way}"))).collect();
    each_at_least("commands by references", &counts, 10, &wanted);
    let of_delete = [[true, true], [true, false]]
        .map(|by| [true, false].map(|granted| format!("E4 {by:?} {granted}")));
    each_at_least("DELETE by references", &counts, 25, &of_delete.concat());
}

/// The answer and the place of each call, and what the slot shows.
#[test]
fn places_of_every_sort() {
    let mut counts = Counts::new();
    for made in Generator::only(SEED + 1, Kind::Deciding).take(8000) {
        let Case::Deciding { image, pool, slot } = made.case else {
            panic!("it asks for a place");
        };
        let (answer, place) = place_of(&image, &pool, slot);
        let Some(card) = sound_card(&image).filter(|_| answer == 0) else {
            assert!([1, 6].contains(&answer) && place == Place::Nowhere);
            count(&mut counts, format!("answer {answer}"));
            continue;
        };
        let version = card.edition.version_number();
        let names = met(&card, &pool, slot);
        for name in &names {
            count(&mut counts, *name);
        }
        match rule_of(&card, &pool, slot) {
            Ok(found) => {
                let stands = if names.is_empty() { "in the record" } else { "in the pool" };
                assert_eq!(matches!(place, Place::InPool { .. }), !names.is_empty());
                assert!(!found.rule.is_empty() && found.place == place);
                count(&mut counts, format!("v{version} {stands}"));
            }
            Err(reason) => {
                let told = names.iter().any(|name| lost(reason).contains(name));
                assert!(told || !card.record(slot).is_used(), "{reason:?}: {names:?}");
                let past = if slot < card.records.len() { "" } else { ", past the last" };
                count(&mut counts, format!("{reason:?}{past}"));
            }
        }
    }
    each_at_least("references", &counts, 25, &OF_THE_FILE);
    each_at_least("records", &counts, 25, &OF_THE_RECORD);
    let reasons = ["NoRuleFile", "Itself", "OtherKind", "NoSuchRecord", "Malformed"];
    each_at_least("reasons", &counts, 100, &reasons);
    let others = ["NotAFile", "NotAFile, past the last", "answer 1", "answer 6"];
    each_at_least("other answers", &counts, 50, &others);
    each_at_least("rules", &counts, 50, &["v1 in the record", "v2 in the record"]);
    each_at_least("rules", &counts, 300, &["v3 in the record", "v3 in the pool"]);
}

/// Every D line has a result of the vectors' format, and is parsed again.
#[test]
fn places_as_lines() {
    for made in Generator::only(SEED, Kind::Deciding).take(300) {
        let [line] = made.case.lines().try_into().expect("one line");
        assert_eq!(Line::parse(&line.line()), Some(line.clone()));
        let result = line.result();
        let fields: Vec<_> = result.split(' ').collect();
        let offset: Option<usize> = fields[2].parse().ok();
        assert!(fields.len() == 4 && fields[0] == "D" && offset.is_some(), "{result}");
        assert_eq!(fields[1] == "none", result == "D none 0 -", "{result}");
    }
}

/// The longest rule is found from the innermost of as many directories as the
/// card can have, and from all others.
#[test]
fn the_rule_that_is_looked_for_longest() {
    for slots in [16, 64, worst::MOST_SLOTS] {
        let (worst, pool) = worst::referred_of(slots);
        let card = sound_card(&worst.image).expect("sound");
        // The rule file costs as much as five directories.
        assert!(usize::from(card.record(card.current_df).level) + 7 > slots, "{slots} slots");
        for slot in [0, 2, card.current_df] {
            let found = rule_of(&card, &pool, slot).expect("a rule");
            assert_eq!((found.rule.len(), found.place), (255, Place::InPool { from: 0, to: 255 }));
            assert!(decide(&card, &pool, slot, Right::Terminate, &State::EMPTY).is_granted());
        }
    }
}

/// What was asked last of the ruled file, and how it went.
struct Last {
    command: Vec<u8>,
    state: State,
    how: &'static str,
    /// What was done since to a rule file.
    since: Vec<&'static str>,
}

/// What a history shows: of each command that asks a reference how the same one
/// went before, and what was done between.
fn shown_by_history(history: &cases::History, counts: &mut Counts) {
    let mut last: Option<Last> = None;
    history.play(|before, step, outcome, after| {
        let card = sound_card(&before.image).expect("sound before");
        let asks = asks_of(&card, &step.command).unwrap_or_default();
        let done = outcome.word == words::SUCCESS;
        let current = card.current_ef.map(|slot| card.record(slot).identifier);
        let ins = step.command[1];
        if let &[(slot, _)] = asks.as_slice() {
            if card.record(slot).form == Form::Referred && current != Some(0x2F06) {
                let names = met(&card, &before.pool, slot);
                names.into_iter().for_each(|name| count(counts, name));
                let found = rule_of(&card, &before.pool, slot).is_ok();
                let how = how(&outcome, found);
                let same = |last: &&Last| last.command == step.command && last.state == step.state;
                if let Some(last) = last.as_ref().filter(same) {
                    for since in &last.since {
                        count(counts, format!("{since}: {} to {how}", last.how));
                    }
                }
                let (command, state) = (step.command.clone(), step.state);
                last = Some(Last { command, state, how, since: Vec::new() });
            }
        }
        let since = match (ins, current) {
            (0xDC, Some(0x2F06)) if before.pool != after.pool => "written",
            (0x04 | 0x44 | 0xE8, Some(0x2F06)) if done => "life cycle",
            (0xE4, _) if done => "deleted",
            (0xE0, _) if done => "made",
            _ => return,
        };
        last.iter_mut().for_each(|last| last.since.push(since));
    });
}

#[test]
fn writing_the_rule_file_changes_the_next_outcome() {
    let mut counts = Counts::new();
    for made in Generator::only(SEED + 2, Kind::RuleFiles).take(1500) {
        let Case::History(history) = made.case else { panic!("it is a history") };
        shown_by_history(&history, &mut counts);
    }
    let ways = ["nowhere", "closed", "lacking", "granted"];
    let changes = ways.iter().flat_map(|from| ways.map(|to| (from, to)));
    let changes: Vec<_> = changes.map(|(from, to)| format!("written: {from} to {to}")).collect();
    each_at_least("rule files written", &counts, 10, &changes);
    let of_the_file = [
        "found in the DF that holds it",
        "found one above",
        "found further above",
        "another of it further above",
        "nowhere",
        "a transparent EF before a linear fixed one",
        "rule file deactivated",
        "rule file terminated",
    ];
    each_at_least("rule files in histories", &counts, 25, &of_the_file);
}
