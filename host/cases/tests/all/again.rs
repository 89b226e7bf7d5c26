//! Files made again by their templates: the model makes each one again, and
//! all sorts of files are among them.

use std::convert::Infallible;

use crate::common::say;
use cases::again::{by_model, Played};
use cases::damage::{damaged, Field};
use cases::images::sound_card_of;
use cases::sorts::{self, Sorts};
use cases::{Again, Case, Generator, Kind, Random};
use model::lines::Case as Line;
use model::words::SUCCESS;

const SEED: u64 = 1204;

/// Plays the cases of a kind by the model.
fn played(kind: Kind, cases: usize) -> impl Iterator<Item = (Again, Played)> {
    Generator::only(SEED, kind).take(cases).map(|made| {
        let Case::Again(again) = made.case else { panic!("not made again: {:?}", made.kind) };
        let played = play(&again);
        (again, played)
    })
}

fn play(again: &Again) -> Played {
    let played = again.play::<Infallible>(&mut |line| Ok(by_model(line)));
    played.unwrap_or_else(|never| match never {})
}

/// Every file is made again; gives how many of each sort. All sorts are among
/// them, but for terminated files.
#[track_caller]
fn all_sorts(kind: Kind, cases: usize) -> Sorts {
    let mut sorts = Sorts::default();
    for (again, played) in played(kind, cases) {
        for file in &played.remade {
            assert_eq!(file.complaint(), None, "{file:02X?} of {again:02X?}");
        }
        sorts.add(&played);
    }
    say(&format!("made again, {}: {sorts:?}", kind.name()));
    assert_eq!(sorts.rarer(&sorts::TOLD, 20), [""; 0], "{sorts:?}");
    assert!(sorts.of(sorts::MOVED) >= 20, "{sorts:?}");
    assert!(sorts.of(sorts::STARTED) >= 100, "{sorts:?}");
    assert_eq!(sorts.of("life cycle 0C"), 0, "{sorts:?}");
    sorts
}

#[test]
fn files_of_all_sorts_are_made_again() {
    let sorts = all_sorts(Kind::FilesAgain, 750);
    assert!(sorts.of(sorts::ALL) > 2000, "{sorts:?}");
    assert!(sorts.of(sorts::LARGE) >= 10 && sorts.of(sorts::LARGEST) >= 2, "{sorts:?}");
}

#[test]
fn whole_trees_are_made_again() {
    let sorts = all_sorts(Kind::TreeAgain, 450);
    assert!(sorts.of(sorts::ALL) > 1500, "{sorts:?}");
    assert_eq!((sorts.of(sorts::TERMINATED), sorts.of(sorts::PASSED)), (0, 0));
}

/// A tree keeps its levels; only parents' slots may differ.
#[test]
fn a_tree_keeps_its_levels() {
    let mut moved = 0;
    for (_, played) in played(Kind::TreeAgain, 100) {
        for file in played.remade {
            assert_eq!(file.old[8..10], file.new[8..10]);
            moved += usize::from(file.old[6..8] != file.new[6..8]);
        }
    }
    assert!(moved > 100, "{moved}");
}

/// The directories on the way are all made; else the file would be made
/// elsewhere.
#[test]
fn all_calls_of_the_model_succeed_or_warn() {
    for (again, _) in played(Kind::FilesAgain, 150) {
        for line in again.lines() {
            let left = by_model(&line);
            match line {
                Line::Make { .. } => assert!(model::sound(&left.image)),
                _ => assert!(model::words::is_success(left.word), "{}", line.line()),
            }
        }
    }
}

/// Any image can be given, mended for it or not: each file but the root is made
/// again or counted as left out.
#[test]
fn every_file_is_counted() {
    let mut random = Random::new(SEED);
    let (mut whole_trees, mut none) = (0, 0);
    for number in 0..600 {
        let (slots, whole) = (random.range(2, 12) as usize, number % 2 == 0);
        let card = sound_card_of(&mut random, slots);
        let again = Again { image: card.encode(), seed: number, whole };
        let played = play(&again);
        let left_out = played.terminated + played.passed;
        assert_eq!(played.remade.len() + left_out, card.used_slots().count() - 1, "{again:02X?}");
        assert!(!whole || left_out == 0 || played.remade.is_empty(), "all of a tree or none");
        whole_trees += usize::from(whole && played.remade.len() > 1);
        none += usize::from(whole && left_out > 0);
        let image = damaged(&mut random, &card, Field::Mark);
        assert_eq!(play(&Again { image, ..again }), Played::default(), "not sound");
    }
    assert!(whole_trees > 20 && none > 50, "{whole_trees} whole trees, {none} left out");
}

/// What is made wrongly is complained of: a byte of the record, but for the start
/// of a body; another word.
#[test]
fn wrong_files_are_complained_of() {
    let mut random = Random::new(SEED);
    let right = played(Kind::FilesAgain, 20).flat_map(|(_, played)| played.remade);
    for file in right {
        for _ in 0..10 {
            let mut wrong = file.clone();
            let at = random.below(if file.with_body { 62 } else { 64 });
            wrong.new[at] ^= 1 << random.below(8);
            let told = wrong.complaint().expect("a byte is wrong");
            assert!(told.starts_with(&format!("byte {at} ")), "{told}");
        }
        let missing = cases::again::Remade { new: Vec::new(), ..file.clone() };
        assert!(missing.complaint().is_some(), "no record at all");
        let wrong = cases::again::Remade { word: 0x6A80, ..file.clone() };
        assert!(wrong.complaint().is_some_and(|told| told.contains("6A80")));
        assert_eq!(file.word, SUCCESS);
    }
}
