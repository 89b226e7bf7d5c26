//! The generator reaches what it is made for: over a fixed seed and count,
//! every word, every answer, every kind, both sides of each line.

use std::collections::{BTreeMap, BTreeSet};
use std::time::Instant;

use crate::common::say;
use cases::{Case, Generator, Kind};
use model::command::Instruction;
use model::lines::Case as Line;
use model::{command, make, replay, report, words};

const SEED: u64 = 20_240_229;
const COUNT: usize = 6000;

#[test]
fn every_word_and_every_answer_occurs() {
    let mut words_seen = BTreeSet::new();
    let mut answers_seen = BTreeSet::new();
    let mut lines = 0;
    let start = Instant::now();
    for line in Generator::new(SEED).take(COUNT).flat_map(|made| made.case.lines()) {
        lines += 1;
        match line {
            Line::Make { mut buffer, version, total, form, rule } => {
                answers_seen.insert(('M', make(&mut buffer, version, total, form, &rule)));
            }
            Line::Command { mut image, mut pool, command: bytes, state, mut response } => {
                let outcome = command(&mut image, &mut pool, &bytes, &mut response, &state);
                answers_seen.insert(('C', outcome.answer));
                if outcome.answer == 0 {
                    words_seen.insert(outcome.word);
                }
            }
            Line::Report { image } => {
                answers_seen.insert(('R', report(&image).0));
            }
            _ => {}
        }
    }
    let rate = f64::from(lines) / start.elapsed().as_secs_f64();
    say(&format!("generated: {COUNT} cases, {lines} lines, made and run {rate:.0} a second"));
    assert_eq!(words_seen, words::ALL.into_iter().collect());
    let all = [
        ('C', 0),
        ('C', 1),
        ('C', 5),
        ('C', 6),
        ('M', 0),
        ('M', 2),
        ('M', 3),
        ('M', 4),
        ('R', 0),
        ('R', 1),
    ];
    assert_eq!(answers_seen, all.into_iter().collect());
}

#[test]
fn every_kind_occurs_in_the_mix() {
    let mut counts = BTreeMap::new();
    for made in Generator::new(SEED).take(COUNT) {
        *counts.entry(made.kind).or_insert(0) += 1;
    }
    for (kind, weight) in Kind::MIX {
        let share = counts.get(&kind).copied().unwrap_or(0) * 1000 / COUNT;
        assert!(share * 2 + 4 >= weight, "{kind:?} comes {share} times in a thousand");
    }
}

#[test]
fn every_instruction_succeeds_and_is_refused() {
    let mut seen = BTreeSet::new();
    for made in Generator::only(SEED, Kind::SoundCommand).take(3000) {
        let Case::OneCommand { mut image, mut pool, command: bytes, mut response, state } =
            made.case
        else {
            panic!("a sound command is one command");
        };
        let outcome = command(&mut image, &mut pool, &bytes, &mut response, &state);
        assert_ne!(outcome.answer, 1);
        let ins = bytes.get(1).copied().unwrap_or(0);
        seen.insert((ins, words::is_success(outcome.word)));
    }
    for (ins, instruction) in Instruction::ALL {
        assert!(seen.contains(&(ins, true)), "{instruction:?} never succeeds");
        assert!(seen.contains(&(ins, false)), "{instruction:?} is never refused");
    }
}

#[test]
fn near_misses_are_mostly_refused_in_steps_a_to_h() {
    let mut counts = BTreeMap::new();
    for made in Generator::only(SEED, Kind::NearMiss).take(1500) {
        let Case::OneCommand { mut image, mut pool, command: bytes, mut response, state } =
            made.case
        else {
            panic!("a near-miss is one command");
        };
        let word = command(&mut image, &mut pool, &bytes, &mut response, &state).word;
        *counts.entry(word).or_insert(0) += 1;
    }
    let early = [
        words::WRONG_LENGTH,
        words::UNKNOWN_CLASS,
        words::UNKNOWN_INSTRUCTION,
        words::WRONG_PARAMETERS,
        words::CONDITIONS_NOT_SATISFIED,
    ];
    let found: i32 = early.iter().map(|word| counts.get(word).copied().unwrap_or(0)).sum();
    assert!(found > 1400, "early refusals: {counts:?}");
    assert!(early.iter().all(|word| counts.get(word).copied().unwrap_or(0) > 20), "{counts:?}");
}

#[test]
fn templates_are_good_and_broken() {
    let mut counts = BTreeMap::new();
    for made in Generator::only(SEED, Kind::Template).take(2000) {
        let Case::Template { data, .. } = &made.case else {
            panic!("a template is a template");
        };
        assert!((1..=255).contains(&data.len()), "Lc tells the length");
        let result = made.case.lines()[0].result();
        let word = result.split(' ').nth(2).unwrap_or("").to_string();
        *counts.entry(word).or_insert(0) += 1;
    }
    assert!(counts["9000"] > 400, "{counts:?}");
    assert!(counts["6A80"] > 800, "{counts:?}");
    assert!(!counts.contains_key("6700"), "{counts:?}");
}

#[test]
fn replay_shows_each_of_its_outputs() {
    let mut seen = BTreeSet::new();
    for made in Generator::only(SEED, Kind::Replay).take(1500) {
        let Case::Replay { input } = made.case else {
            panic!("a replay is a replay");
        };
        let output = String::from_utf8(replay(&input)).expect("replay prints text");
        let last = output.lines().last().unwrap_or("none").to_string();
        let sort = if last.len() == 4 && last != "none" { "word".to_string() } else { last };
        seen.insert((sort, output.lines().count() > 1, input.len() > 32_767));
    }
    for wanted in [
        ("BIG", false, true),
        ("BAD", false, false),
        ("CUT", false, false),
        ("CUT", true, false),
        ("CUT", true, true),
        ("none", false, false),
        ("word", true, false),
    ] {
        assert!(seen.contains(&(wanted.0.to_string(), wanted.1, wanted.2)), "{wanted:?}: {seen:?}");
    }
}

#[test]
fn rules_are_granted_lacking_closed_malformed_and_unfit() {
    let mut seen = BTreeSet::new();
    for made in Generator::only(SEED, Kind::Rule).take(1000) {
        for line in made.case.lines() {
            let result = line.result();
            // Which digits there are, each once.
            let digits: Option<BTreeSet<_>> =
                result.strip_prefix("E ").map(|d| d.chars().collect());
            seen.insert(match digits.map(String::from_iter) {
                Some(_) if result == "E malformed" => "malformed".to_string(),
                Some(digits) => digits,
                None => result,
            });
        }
    }
    let wanted = ["malformed", "0", "1", "2", "01", "02", "12", "012", "W 0", "W 1"];
    assert_eq!(seen, wanted.into_iter().map(str::to_string).collect());
}

#[test]
fn no_generated_line_makes_the_model_contradict_itself() {
    for line in Generator::new(SEED + 1).take(2000).flat_map(|made| made.case.lines()) {
        if let Line::Command { image, pool, command: bytes, state, response: lent } = line {
            let [mut after, mut pool_after, mut response] = [&image, &pool, &lent].map(Vec::clone);
            let outcome = command(&mut after, &mut pool_after, &bytes, &mut response, &state);
            assert_eq!(model::sound(&image), model::sound(&after), "soundness is kept");
            assert_eq!(response[outcome.data..], lent[outcome.data..], "bytes past the data");
            if !words::is_success(outcome.word) {
                assert_eq!(image, after, "a refusal leaves the image");
                assert_eq!(lent, response, "a refusal leaves the response buffer");
                assert_eq!(pool, pool_after, "a refusal leaves the pool");
            }
        }
    }
}
