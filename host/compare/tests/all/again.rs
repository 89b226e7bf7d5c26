//! Files made again by their templates, by the proved card and by the model.

use crate::say;
use cases::again::Played;
use cases::sorts::{self, Sorts};
use cases::{worst, Again, Case, Generator, Kind};
use compare::again::check_again;
use compare::shrink::smallest;
use compare::{Model, Pair, Proved, Subject, Tally};

const SEED: u64 = 20_261_117;
const CARDS: usize = 800;
const TREES: usize = 450;

/// The cases of a kind.
fn cases_of(kind: Kind, count: usize) -> impl Iterator<Item = Again> {
    Generator::only(SEED, kind).take(count).map(|made| match made.case {
        Case::Again(again) => again,
        other => panic!("not made again: {other:?}"),
    })
}

/// Plays a case; a file that is not made again fails the test.
fn played(pair: Pair, again: &Again, tally: &mut Tally) -> Played {
    check_again(pair, again, tally).unwrap_or_else(|found| panic!("{}", smallest(pair, found)))
}

/// The cases of a kind, each call made by one subject alone.
fn made_by(subject: &dyn Subject, kind: Kind, count: usize) -> (u64, Sorts) {
    let pair = Pair { card: subject, model: subject };
    let (mut tally, mut sorts) = (Tally::default(), Sorts::default());
    for again in cases_of(kind, count) {
        sorts.add(&played(pair, &again, &mut tally));
    }
    assert_eq!(sorts.rarer(&sorts::TOLD, 15), [""; 0], "{sorts:?}");
    (tally.made_again, sorts)
}

/// The same by the proved card and by the model; they make the same again.
fn made_by_both(kind: Kind, count: usize) -> (u64, Sorts) {
    let (by_card, sorts) = made_by(&Proved, kind, count);
    let (by_model, same) = made_by(&Model, kind, count);
    assert_eq!((by_card, &sorts), (by_model, &same));
    say(&format!("{by_card} files made again, {} of {count} cards: {:?}", kind.name(), sorts));
    (by_card, sorts)
}

#[test]
fn files_are_made_again_one_by_one() {
    let (all, sorts) = made_by_both(Kind::FilesAgain, CARDS);
    assert!(all > 1500, "{all}");
    assert!(sorts.of(sorts::LARGE) >= 5, "{sorts:?}");
}

#[test]
fn whole_trees_are_made_again() {
    let (all, _) = made_by_both(Kind::TreeAgain, TREES);
    assert!(all > 1200, "{all}");
}

/// The deepest nesting, all names, one identifier in every directory, many files,
/// and as many with the longest rules, as whole trees.
#[test]
fn the_worst_cards_are_made_again() {
    for card in [worst::cards_of(96), worst::ruled_of(96)].concat() {
        let again = Again { image: card.image, seed: SEED, whole: true };
        let made = played(Pair::PROVED, &again, &mut Tally::default()).remade.len();
        assert!(made > 70, "{}: {made} files", card.title);
    }
}
