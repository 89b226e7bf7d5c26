//! `uicc export`, then the script played on the card that it asks for: the same
//! files, and what is lost is told.

use cases::case::History;
use cases::history::history_of;
use cases::images::sound_card;
use cases::pools;
use cases::random::Random;
use cases::themes::Theme;
use cases::{rule_files, ruled, worst};
use model::edition::Version;
use model::life_cycle::{is_deactivated, is_terminated};
use model::rule::Form;
use model::{bodies, Card};

use crate::cards::{current, foretold, found, refers, tree, Kept};
use crate::folder::{Folder, Ran};

const CARDS: u64 = 250;
const HISTORIES: u64 = 250;
const NOT_ALL: i32 = 4;
const EXAMPLE: &str = include_str!("../../examples/first.apdu");

/// Exports the card `old` and plays the script on the fresh card that its own
/// lines ask for.
pub fn again(folder: &Folder) -> (Ran, Kept) {
    let before = folder.read("old");
    let export = folder.uicc(&["export", "old"]);
    assert_eq!(folder.read("old"), before, "export only reads");
    folder.write("THIS.apdu", &export.out);
    let lines = export.out.lines().filter_map(|line| line.strip_prefix("#     uicc "));
    let lines: Vec<Vec<&str>> = lines.map(|line| line.split(' ').collect()).collect();
    assert_eq!(lines.len(), 2, "{}", export.out);
    folder.done(&[&lines[0][..], &["--force"]].concat());
    let out = folder.done(&lines[1]);
    let all = out.lines().count();
    for line in out.lines().skip(1).take(all - 3) {
        let word = line.split("  ").map(str::trim).filter(|part| !part.is_empty()).nth(2);
        let word = word.unwrap_or_default();
        assert!(["9000", "6283", "6285"].contains(&word), "{line}\n{}", export.out);
    }
    (export, Kept::read(&folder.read("NEW.card")))
}

/// Compares a card that is made again with what is foretold, or, where rules stand
/// in records, what is told with what differs; gives what is lost.
fn compare(folder: &Folder, old: &Kept, what: &str) -> usize {
    folder.write("old", old.bytes());
    let (export, new) = again(folder);
    let foretold = if refers(&old.card) { found(old, &new) } else { foretold(old) };
    let lost = foretold.lost;
    assert_eq!(new.card.edition, old.card.edition, "{what}: a card keeps its version");
    assert_eq!(tree(&new), foretold.tree, "{what}:\n{}", export.out);
    assert_eq!(current(&new.card), foretold.current, "{what}:\n{}", export.out);
    assert_eq!(export.status, if lost > 0 { NOT_ALL } else { 0 }, "{what}");
    assert_eq!(export.err.lines().count(), lost, "{what}: {}", export.err);
    let told: Vec<_> =
        export.out.lines().filter_map(|line| line.strip_prefix("# LOST: ")).collect();
    let also: Vec<_> =
        export.err.lines().filter_map(|line| line.strip_prefix("uicc: old: lost: ")).collect();
    assert_eq!(told, also, "{what}");
    if lost == 0 {
        assert_eq!(tree(&new), tree(old), "{what}");
        assert_eq!(current(&new.card), current(&old.card), "{what}");
        let once_more = folder.done(&["export", "NEW.card"]);
        assert_eq!(once_more, export.out, "{what}: the new card has the same script");
    }
    lost
}

#[test]
fn the_examples_card_is_made_again_byte_by_byte() {
    let folder = Folder::new("again-example");
    folder.write("first.apdu", EXAMPLE);
    folder.done(&["new", "old", "--slots", "8", "--total", "448"]);
    folder.done(&["run", "first.apdu", "--image", "old"]);
    let (export, _) = again(&folder);
    assert_eq!((export.status, export.err.as_str()), (0, ""));
    assert_eq!(folder.read("NEW.card"), folder.read("old"));
}

/// The card that a history leaves.
fn played(history: &History) -> Kept {
    let History { edition, slots, total, rule, .. } = history;
    let kind = card::Kind::of_version(edition.version_number());
    let root_rule = match rule.form {
        Form::Compact => card::Rule::compact(&rule.bytes),
        Form::Expanded => card::Rule::expanded(&rule.bytes),
        Form::Referred => card::Rule::referred(&rule.bytes),
    };
    let fresh = card::Card::make(*slots, kind, *total, root_rule).expect("a card");
    let mut card =
        card::Card::from_parts(fresh.into_image(), history.pool.clone()).expect("a card");
    for step in &history.steps {
        let model::State { messaging, external, user, channels } = step.state;
        let state = card::State { messaging, external, user, channels };
        card.command(&step.command, &state).expect("a sound card");
    }
    let (image, pool) = card.into_parts();
    Kept::new(Card::decode(&image).expect("a card"), pool)
}

/// The files that hold something.
fn filled(kept: &Kept) -> Vec<usize> {
    let holds = |slot: &usize| kept.body(*slot).iter().any(|byte| *byte != 0xFF);
    kept.card.used_slots().filter(holds).collect()
}

/// Nothing is lost of what a history made; where rules stood in records, which
/// may be gone since, it may be, and is told.
fn compare_history(folder: &Folder, old: &Kept, number: u64) {
    let lost = compare(folder, old, &format!("history {number}"));
    assert!(lost == 0 || refers(&old.card), "history {number}: {lost} lost");
}

/// What commands made of a fresh card, commands make again as a whole: rules in
/// files' own records never change, so what was allowed once is allowed again.
#[test]
fn nothing_is_lost_of_what_commands_made() {
    let folder = Folder::new("again-histories");
    let (mut files, mut closed, mut expanded) = (0, 0, 0);
    for number in 0..HISTORIES {
        let mut random = Random::for_case(3, number);
        let theme = random.pick(Theme::ALL);
        let old = played(&history_of(&mut random, theme, 24, 60));
        compare_history(&folder, &old, number);
        let old = old.card;
        files += old.used_slots().count() - 1;
        let is_expanded = |slot: &usize| old.record(*slot).form == Form::Expanded;
        expanded += old.used_slots().filter(is_expanded).count();
        let is_closed = |slot: &usize| {
            let life_cycle = old.record(*slot).life_cycle;
            is_deactivated(life_cycle) || is_terminated(life_cycle)
        };
        let has_files = |slot: &usize| old.children(*slot).next().is_some();
        closed += old.used_slots().filter(is_closed).filter(has_files).count();
    }
    assert!(files > 600, "{files} files");
    assert!(expanded > 100, "{expanded} files with expanded rules");
    assert!(closed > 30, "{closed} directories with files were deactivated or terminated");
}

/// The same of histories that update bodies.
#[test]
fn what_files_held_they_hold_again() {
    let folder = Folder::new("again-bodies");
    let mut full = 0;
    for number in 0..HISTORIES {
        let mut random = Random::for_case(4, number);
        let theme = random.pick([Theme::Bodies, Theme::Bodies, Theme::LifeCycles]);
        let old = played(&history_of(&mut random, theme, 24, 60));
        compare_history(&folder, &old, number);
        full += filled(&old).len();
    }
    assert!(full > 50, "{full} files that hold something");
}

/// Cards at random: any tree, life cycles, names and rules, also such as no
/// commands could have made.
#[test]
fn cards_at_random_are_made_again_as_foretold() {
    let folder = Folder::new("again-random");
    let (mut whole, mut second, mut third) = (0, 0, 0);
    for number in 0..CARDS {
        let mut random = Random::for_case(2, number);
        let card = sound_card(&mut random);
        let mut pool = pools::right(&mut random, &card.encode());
        // Some bodies are as new, some in part.
        let (from, to) = (random.below(pool.len() + 1), random.below(pool.len() + 1));
        pool[from.min(to)..from.max(to)].fill(0xFF);
        let old = Kept::new(card, pool);
        second += u64::from(old.card.edition.version == Version::Two);
        third += u64::from(old.card.edition.version == Version::Three && !filled(&old).is_empty());
        let lost = compare(&folder, &old, &format!("card {number}"));
        whole += u64::from(lost == 0 && old.card.used_slots().count() > 1);
    }
    assert!(whole > CARDS / 20, "{whole} cards with files were made again as a whole");
    assert!(whole < CARDS, "nothing was lost");
    assert!(second > CARDS / 5 && second < CARDS, "{second} cards of version 2");
    assert!(third > CARDS / 10, "{third} cards of version 3 that hold something");
}

/// Cards whose rules stand in records, at random and as histories leave them: what
/// differs is told, and of what histories made hardly anything is lost.
#[test]
fn what_is_lost_of_cards_with_rule_files_is_told() {
    let folder = Folder::new("again-ruled");
    let (mut whole, mut lost) = (0, 0);
    for number in 0..HISTORIES {
        let mut random = Random::for_case(5, number);
        let kept = rule_files::kept(&mut random);
        lost += u64::from(compare(&folder, &Kept::new(kept.card, kept.pool), "a card") > 0);
        let old = played(&ruled::history(&mut random));
        whole += u64::from(compare(&folder, &old, &format!("history {number}")) == 0);
    }
    assert!(lost > HISTORIES / 4, "of {lost} cards something was lost");
    assert!(whole > HISTORIES * 9 / 10, "{whole} histories were made again as a whole");
}

/// Cards that are as full and as named as they can be, and the deepest card.
#[test]
fn the_fullest_and_the_deepest_cards_are_made_again() {
    let folder = Folder::new("again-fullest");
    let mut cards = worst::cards_of(200);
    cards.extend(worst::cards().into_iter().find(|worst| worst.title.contains("deepest")));
    assert_eq!(cards.len(), 5);
    for worst in cards {
        let card = Card::decode(&worst.image).expect("a card");
        let pool = vec![0xFF; bodies::pool_length(&card).unwrap_or(0)];
        let old = Kept::new(card, pool);
        assert_eq!(compare(&folder, &old, worst.title), 0, "{}", worst.title);
    }
}
