//! Histories: most commands succeed, the wanted situations occur, and demand
//! 3's ledger agrees with the model on every one of them.

use std::collections::BTreeSet;

use crate::common::say;
use cases::history::history_of;
use cases::themes::Theme;
use cases::{Case, Generator, History, Kind, Lent, Random, Step};
use model::ledger::{announced, current_df_slot, Ledger};
use model::record::charge;
use model::soundness::sound_card;
use model::{command, report, words, Card, Word};

const SEED: u64 = 77;
const COUNT: usize = 1500;

fn histories() -> impl Iterator<Item = History> {
    Generator::only(SEED, Kind::History).take(COUNT).map(|made| match made.case {
        Case::History(history) => history,
        other => panic!("not a history: {other:?}"),
    })
}

#[test]
fn more_than_half_of_all_commands_succeed() {
    let (mut all, mut succeeded) = (0u64, 0u64);
    for history in histories() {
        history.play(|_, _, outcome, _| {
            assert_ne!(outcome.answer, 1, "histories stay on sound images");
            all += 1;
            succeeded += u64::from(words::is_success(outcome.word));
        });
    }
    let share = succeeded * 100 / all;
    say(&format!("histories: {COUNT}, {all} commands, {share} in a hundred succeed"));
    assert!(share > 50, "{share} in a hundred");
}

/// The history with the ledger beside the card; gives how many CREATEs
/// succeeded, how many were refused for memory, how many met the exact room
/// and how many asked for one more.
fn audit(history: &History) -> [u64; 4] {
    let Lent { mut image, mut pool } = history.fresh();
    let mut ledger = Ledger::open(history.total);
    let mut counts = [0; 4];
    for step in &history.steps {
        let before = current_df_slot(&image);
        let mut response = step.response.clone();
        let word = command(&mut image, &mut pool, &step.command, &mut response, &step.state).word;
        assert!(ledger.agrees(&step.command, word, before), "{step:02X?} answered {word:04X}");
        if step.command.get(1) == Some(&0xE0) {
            let room = ledger.room(before).expect("the ledger knows the current directory");
            let asked = announced(&step.command).map(|new| charge(new.size));
            counts[0] += u64::from(word == words::SUCCESS);
            counts[1] += u64::from(word == words::NOT_ENOUGH_MEMORY);
            counts[2] += u64::from(word == words::SUCCESS && asked == Some(room));
            counts[3] += u64::from(word == words::NOT_ENOUGH_MEMORY && asked == Some(room + 1));
        }
        let after = current_df_slot(&image);
        ledger.enter(&step.command, word, before, after);
        let (_, [total, room, children, _]) = report(&image);
        assert_eq!(ledger.total(after), Some(total));
        assert_eq!(ledger.room(after), Some(u64::from(room)));
        assert_eq!(ledger.children(after), children as usize);
    }
    counts
}

#[test]
fn the_ledger_agrees_and_exact_room_and_one_above_occur() {
    let mut sums = [0; 4];
    for history in histories() {
        for (sum, count) in sums.iter_mut().zip(audit(&history)) {
            *sum += count;
        }
    }
    let [created, refused, exact, above] = sums;
    say(&format!(
        "ledger: {created} CREATEs granted, {refused} refused for memory, \
         {exact} at the exact room, {above} one above"
    ));
    assert!(created > 5000 && refused > 500, "{sums:?}");
    assert!(exact > 300 && above > 300, "{sums:?}");
}

/// The situations that one step shows, told by the card before and after and
/// by the places (directory, identifier) where files were deleted before.
fn situations(
    card: &Card,
    step: &Step,
    word: Word,
    result: &Card,
    deleted: &mut BTreeSet<(usize, u16)>,
) -> Vec<&'static str> {
    let ins = step.command.get(1).copied().unwrap_or(0);
    let done = word == words::SUCCESS;
    let deletes = ins == 0xE4 && done;
    let new = announced(&step.command).filter(|_| ins == 0xE0);
    let again = new.is_some_and(|new| deleted.contains(&(card.current_df, new.identifier)));
    let largest = new.is_some_and(|new| new.size == u32::MAX);
    let fewer = card.used_slots().count().saturating_sub(result.used_slots().count());
    let names = result.records.iter().filter(|record| !record.name.is_empty()).count();
    let lost_ef = card.current_ef.is_some() && result.current_ef.is_none();
    if let (true, Some(&[high, low])) = (deletes, step.command.last_chunk()) {
        deleted.insert((card.current_df, u16::from_be_bytes([high, low])));
    }
    let told = [
        (done && again, "one identifier created again"),
        (largest && word == words::NOT_ENOUGH_MEMORY, "FFFFFFFF refused"),
        (deletes && lost_ef, "current EF deleted"),
        (deletes && fewer > 3, "tree deleted"),
        (deletes && card.is_terminated(card.current_df), "deleted in a terminated tree"),
        (ins == 0xFE && done, "card terminated"),
        (result.record(result.current_df).level >= 12, "deep nesting"),
        (names >= 5, "many names"),
    ];
    told.into_iter().filter(|(shown, _)| *shown).map(|(_, name)| name).collect()
}

#[test]
fn the_wanted_situations_occur() {
    let mut seen = BTreeSet::new();
    for history in histories() {
        let mut deleted = BTreeSet::new();
        history.play(|before, step, outcome, after| {
            let card = sound_card(&before.image).expect("sound before");
            let result = sound_card(&after.image).expect("sound after");
            seen.extend(situations(&card, step, outcome.word, &result, &mut deleted));
        });
    }
    let wanted = [
        "one identifier created again",
        "FFFFFFFF refused",
        "current EF deleted",
        "tree deleted",
        "deep nesting",
        "deleted in a terminated tree",
        "card terminated",
        "many names",
    ];
    assert_eq!(seen, wanted.into_iter().collect());
}

#[test]
fn every_life_cycle_is_left_by_every_way() {
    let mut changes = BTreeSet::new();
    for history in histories() {
        history.play(|before, step, outcome, after| {
            let ins = step.command.get(1).copied().unwrap_or(0);
            if ![0x44, 0x04, 0xE8, 0xE6].contains(&ins) || outcome.word != words::SUCCESS {
                return;
            }
            let mut both = before.image.iter().zip(&after.image);
            let changed = both.find(|(old, new)| old != new);
            changes.extend(changed.map(|(&old, &new)| (ins, old, new)));
        });
    }
    let mut wanted = BTreeSet::new();
    for from in [0x01, 0x03, 0x04, 0x06] {
        wanted.extend([(0x44, from, 0x05), (0xE8, from, 0x0C), (0xE6, from, 0x0C)]);
    }
    for from in [0x05, 0x07] {
        wanted.extend([(0x04, from, 0x04), (0xE8, from, 0x0C), (0xE6, from, 0x0C)]);
    }
    assert_eq!(changes, wanted);
}

#[test]
fn every_theme_makes_histories_of_the_asked_length() {
    for (number, theme) in Theme::ALL.into_iter().chain([Theme::Locked]).enumerate() {
        let mut random = Random::new(number as u64);
        let history = history_of(&mut random, theme, 30, 200);
        assert!((200..=204).contains(&history.steps.len()), "{theme:?}");
        audit(&history);
    }
}
