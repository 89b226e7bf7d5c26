//! Rules kept in files (02, Ticket 7), by the proved card and the model: a command
//! asked again after its rule was written, and smaller cards with such rules.

use crate::say;
use cases::rule_files::kept;
use cases::{Case, Generator, History, Kind, Lent, Random};
use compare::records::{changed, changes_of, owned, Change};
use compare::shrink::smallest;
use compare::smaller::{packed, rank};
use compare::{check_case, run, Outcome, Pair, Proved, Tally, Told};
use model::deciding::{place_of, Place};
use model::lines::Case as Line;
use model::rule::Form;
use model::{sound, Card, State};

const SEED: u64 = 20_261_120;
const HISTORIES: usize = 120;

/// What the proved card tells of each command of a history.
fn told_by_the_card(history: &History) -> Vec<Told> {
    let mut lent = history.fresh();
    let told = history.steps.iter().map(|step| {
        let Lent { image, pool } = &lent;
        let line = Line::command(image, pool, &step.command, &step.response, step.state);
        let Some(Outcome::Command { told, image, pool, .. }) = run(&Proved, &line) else {
            panic!("a command has a call");
        };
        lent = Lent { image, pool };
        told
    });
    told.collect()
}

/// How often a command is told something else than the last time, with a record
/// written in between.
fn turned(history: &History) -> usize {
    let mut last: Vec<(&[u8], State, Told)> = Vec::new();
    let (mut written, mut turned) = (false, 0);
    for (step, told) in history.steps.iter().zip(told_by_the_card(history)) {
        match step.command.as_slice() {
            [_, 0xDC, ..] => written |= told.word == 0x9000,
            [_, 0x04 | 0x44 | 0xB0 | 0xD6 | 0xE0, ..] => {
                let same = |(command, state, _): &&(&[u8], State, Told)| {
                    *command == step.command && *state == step.state
                };
                let before = last.iter().rev().find(same).map(|(.., told)| *told);
                let security = |told: Told| (told.word == 0x6982, told.numbers[1]);
                let other = before.is_some_and(|before| security(before) != security(told));
                turned += usize::from(written && other);
                last.push((&step.command, step.state, told));
                written = false;
            }
            _ => {}
        }
    }
    turned
}

#[test]
fn a_written_rule_decides_at_once() {
    let (mut tally, mut turns) = (Tally::default(), 0);
    for made in Generator::only(SEED, Kind::RuleFiles).take(HISTORIES) {
        if let Err(found) = check_case(Pair::PROVED, &made.case, &mut tally) {
            panic!("{}", smallest(Pair::PROVED, found));
        }
        let Case::History(history) = made.case else { panic!("a history") };
        turns += turned(&history);
    }
    say(&format!("rule files: {turns} commands decided otherwise once written: {tally}"));
    assert!(turns > 60 && tally.in_pools > 300 && tally.nowhere > 300, "{turns}: {tally}");
}

/// Every change of records leaves a sound card; where one alone is left, the files
/// that it rules have the rule that they had.
#[test]
fn smaller_records_keep_a_card_sound() {
    let (mut random, mut made, mut same) = (Random::new(31), 0, 0);
    for _ in 0..150 {
        let cases::kept::Kept { card, pool } = kept(&mut random);
        let image = card.encode();
        for (slot, change) in changes_of(&image) {
            let Some((new, held)) = changed(&image, &pool, slot, change) else { continue };
            assert!(sound(&new) && held.len() == pool.len(), "{change:?}: {new:02X?}");
            made += 1;
            let Change::Only(number) = change else { continue };
            let ruled = |file: &usize| {
                let place = place_of(&image, &pool, *file).1;
                let file = card.record(*file);
                let in_pool = matches!(place, Place::InPool { from, .. }
                    if model::bodies::body(card.record(slot)).contains(&from));
                file.form == Form::Referred && file.rule[2] == number && in_pool
            };
            for file in card.used_slots().filter(ruled) {
                let rule = |image: &[u8], pool: &[u8]| {
                    place_of(image, pool, file).1.bytes(image, pool).to_vec()
                };
                assert_eq!(rule(&image, &pool), rule(&new, &held));
                same += 1;
            }
        }
    }
    assert!(made > 1000 && same > 30, "{made} made, {same} with their rule");
}

/// References become open rules, and a packed card's slots are found again.
#[test]
fn references_and_slots_are_taken_along() {
    let (mut random, mut opened, mut moved) = (Random::new(32), 0, 0);
    for _ in 0..300 {
        let image = kept(&mut random).card.encode();
        let card = Card::decode(&image).expect("a card");
        let is_referred = |card: &Card| card.records.iter().any(|r| r.form == Form::Referred);
        match owned(&image, 0, card.records.len()) {
            Some(open) => {
                let open_card = Card::decode(&open).expect("a card");
                assert!(sound(&open) && is_referred(&card) && !is_referred(&open_card));
                opened += 1;
            }
            None => assert!(!is_referred(&card)),
        }
        let Some(smaller) = packed(&image, 1).and_then(|image| Card::decode(&image)) else {
            continue;
        };
        for slot in card.used_slots() {
            let new = rank(&image, slot);
            assert_eq!(smaller.record(new).identifier, card.record(slot).identifier);
            moved += usize::from(new != slot);
        }
        let free = (0..card.records.len()).find(|&slot| !card.record(slot).is_used());
        assert!(free.map_or(true, |free| !smaller.record(rank(&image, free)).is_used()));
        assert!(rank(&image, usize::MAX) >= smaller.records.len());
    }
    assert!(opened > 100 && moved > 100, "{opened} opened, {moved} moved");
}
