//! The proved card agrees with the model on generated cases of every kind,
//! from fixed seeds, and on every near-miss.

use std::collections::BTreeSet;
use std::process::{Child, Command, Stdio};

use crate::say;
use cases::near::every_near_miss;
use cases::{Generator, Kind};
use compare::shrink::smallest;
use compare::{check_case, Pair, Tally};

/// One row of cases for each of two processes, and how many make 100,000
/// commands.
const SEEDS: [u64; 2] = [20_261_115, 20_261_116];
const CASES_EACH: usize = 28_000;

/// Compares a case; a disagreement fails the test with its smallest form.
fn must_agree(case: &cases::Case, what: &str, tally: &mut Tally) {
    if let Err(found) = check_case(Pair::PROVED, case, tally) {
        panic!("{what} shows a disagreement; shrunk:\n{}", smallest(Pair::PROVED, found));
    }
}

/// Starts the comparison of a seed's cases. It is a process and no thread,
/// because an emulator is several times slower in a process with threads.
fn started(seed: u64) -> Child {
    let (seed, count) = (seed.to_string(), CASES_EACH.to_string());
    let mut program = Command::new(env!("CARGO_BIN_EXE_compare"));
    program.args(["--seed", &seed, "--count", &count]);
    program.stdout(Stdio::piped()).stderr(Stdio::piped()).spawn().expect("it starts")
}

/// What the program tells it compared, in the order in which a tally is told.
fn tally_of(told: &str) -> Tally {
    let (_, counts) = told.split_once(" s: ").unwrap_or_else(|| panic!("no tally: {told}"));
    let number = |part: &str| part.parse().ok();
    let numbers: Vec<u64> =
        counts.split(|c: char| !c.is_ascii_digit()).filter_map(number).collect();
    let Ok(numbers) = <[u64; 17]>::try_from(numbers) else { panic!("not a tally: {counts}") };
    let [cases, commands, effects, lacking, closed, ledger_steps, templates, ..] = numbers;
    let [_, _, _, _, _, _, _, reads, updates, packings, made_again, makes, ..] = numbers;
    let [.., reports, replays, places, in_pools, nowhere] = numbers;
    Tally {
        cases,
        makes,
        commands,
        effects,
        lacking,
        closed,
        reports,
        replays,
        ledger_steps,
        templates,
        reads,
        updates,
        packings,
        made_again,
        places,
        in_pools,
        nowhere,
    }
}

#[test]
fn a_tally_is_read_as_it_is_told() {
    let tally = Tally {
        cases: 1,
        makes: 2,
        commands: 3,
        effects: 4,
        reports: 5,
        replays: 6,
        ledger_steps: 7,
        templates: 8,
        reads: 9,
        updates: 10,
        packings: 11,
        made_again: 12,
        lacking: 13,
        closed: 14,
        places: 15,
        in_pools: 16,
        nowhere: 17,
    };
    assert_eq!(tally_of(&format!("seed 18: all agree in 19.0 s: {tally}\n")), tally);
}

#[test]
fn every_kind_is_among_the_cases_of_each_seed() {
    for seed in SEEDS {
        let mut kinds = BTreeSet::new();
        let mut all = Generator::new(seed).take(CASES_EACH);
        let full = all.any(|made| kinds.insert(made.kind) && kinds.len() == Kind::MIX.len());
        assert!(full, "seed {seed}: {kinds:?}");
    }
}

#[test]
fn two_hundred_thousand_commands_agree() {
    let mut tally = Tally::default();
    let runs = SEEDS.map(started).map(Child::wait_with_output);
    for (run, seed) in runs.into_iter().zip(SEEDS) {
        let run = run.expect("it ends");
        let told = String::from_utf8_lossy(&run.stdout);
        let complaint = String::from_utf8_lossy(&run.stderr);
        assert!(run.status.success(), "seed {seed}: {}: {told}{complaint}", run.status);
        say(&format!("proved card and model: {}", told.trim_end()));
        tally += tally_of(&told);
    }
    assert!(tally.commands >= 200_000, "{tally}");
    assert!(tally.effects * 3 > tally.commands, "too few commands had an effect: {tally}");
    assert!(tally.ledger_steps * 5 > tally.commands * 2, "too few beside the ledger: {tally}");
    assert!(tally.lacking > 5_000 && tally.closed > 20_000, "too few of a sort denied: {tally}");
    assert!(tally.templates > 10_000 && tally.made_again > 3_000, "{tally}");
    assert!(tally.reads > 1_000 && tally.updates > 1_000 && tally.packings > 200, "{tally}");
    assert!(tally.places > 8_000 && tally.in_pools > 2_500 && tally.nowhere > 4_000, "{tally}");
    let others = [tally.makes, tally.reports, tally.replays];
    assert!(others.iter().all(|&count| count > 1000), "{tally}");
}

#[test]
fn every_near_miss_agrees() {
    let mut tally = Tally::default();
    for (index, case) in every_near_miss().enumerate() {
        must_agree(&case, &format!("near-miss {index}"), &mut tally);
    }
    assert!(tally.commands > 8000, "{tally}");
    assert!(tally.effects * 10 < tally.commands, "near-misses are mostly refused: {tally}");
}
