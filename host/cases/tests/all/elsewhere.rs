//! The cards on which files are made again: what Ticket 2 of 02 asks of them
//! holds, and what it does not ask for varies.

use std::collections::BTreeMap;

use crate::common::say;
use cases::{Case, Generator, Kind};
use model::life_cycle::{class, is_deactivated, Class};
use model::lines::Case as Line;
use model::record::charge;
use model::rule::Right;
use model::soundness::sound_card;
use model::template::{self, NewFile};
use model::{Card, State};

const SEED: u64 = 1205;

/// A card just before a file is made on it again.
struct Before {
    card: Card,
    file: NewFile,
    state: State,
}

impl Before {
    /// The last CREATE on a fresh card is the one that makes the file again.
    fn of(lines: &[Line]) -> Option<Before> {
        lines.iter().rev().find_map(|line| match line {
            Line::Command { image, command, state, .. } if command.get(1) == Some(&0xE0) => {
                let card = sound_card(image).expect("it is sound");
                let file = template::read(&command[5..], card.edition).expect("good data");
                Some(Before { card, file, state: *state })
            }
            _ => None,
        })
    }

    fn right(&self) -> Right {
        if self.file.class == model::descriptor::Class::Df {
            Right::CreateDf
        } else {
            Right::CreateEf
        }
    }

    /// Whether the rule of the current directory grants a right.
    fn grants(&self, right: Right, state: &State) -> bool {
        let directory = self.card.record(self.card.current_df);
        model::rule::decide(directory.form, &directory.rule, right, state).is_granted()
    }

    /// What the ticket asks for, each with whether it is so.
    fn asked(&self) -> [(bool, &'static str); 8] {
        let (card, here) = (&self.card, self.card.current_df);
        let mut way = card.above(here);
        way.push(here);
        let identifier = |&slot: &usize| card.record(slot).identifier == self.file.identifier;
        let name = |slot: usize| card.record(slot).name == self.file.name;
        let life_cycle = class(card.record(here).life_cycle);
        [
            (card.children(here).next().is_none(), "the current directory is empty"),
            (life_cycle == Some(Class::Activated), "it is activated"),
            (!way.iter().any(|&slot| card.is_terminated(slot)), "none above is terminated"),
            (!self.state.another_channel_open(), "no other channel is open"),
            (self.grants(self.right(), &self.state), "rights suffice"),
            (card.room(here) >= charge(self.file.size), "room suffices"),
            (!way.iter().any(identifier), "no directory above has the identifier"),
            (self.file.name.is_empty() || !card.used_slots().any(name), "no file has the name"),
        ]
    }

    /// What the card has that does not matter, or that is only just enough.
    fn varies(&self) -> [(bool, &'static str); 14] {
        let (card, here) = (&self.card, self.card.current_df);
        let above = card.above(here);
        let way = |slot: &usize| *slot == here || above.contains(slot);
        let elsewhere: Vec<_> = card.used_slots().filter(|slot| !way(slot)).collect();
        let deactivated = |&slot: &usize| is_deactivated(card.record(slot).life_cycle);
        let has_its_identifier =
            |slot: &&usize| card.record(**slot).identifier == self.file.identifier;
        let same: Vec<_> = elsewhere.iter().filter(has_its_identifier).collect();
        let beside = |slot: usize| above.contains(&card.parent(slot));
        let granted = |state| Right::ALL.into_iter().filter(move |&r| self.grants(r, state));
        let own = &self.file.name;
        let names: Vec<_> = card.used_slots().map(|slot| &card.record(slot).name).collect();
        let near = |name: &&Vec<u8>| !own.is_empty() && is_near(name, own);
        [
            (deactivated(&0) && here != 0, "the root is deactivated"),
            (above.iter().any(|slot| *slot != 0 && deactivated(slot)), "one above is deactivated"),
            (same.iter().any(|&&slot| card.record(slot).is_ef()), "an EF has its identifier"),
            (same.iter().any(|&&slot| card.record(slot).is_df()), "a DF has its identifier"),
            (same.iter().any(|&&slot| beside(slot)), ".. in a directory above"),
            (same.iter().any(|&&slot| !beside(slot)), ".. in another directory"),
            (elsewhere.iter().any(|&slot| card.is_terminated(slot)), "another is terminated"),
            (elsewhere.iter().any(deactivated), "another is deactivated"),
            (
                own.is_empty() && names.iter().any(|name| !name.is_empty()),
                "it has no name, others do",
            ),
            (names.iter().any(near), "another has nearly its name"),
            (granted(&State::FULL).eq([self.right()]), "its right alone is granted"),
            (granted(&State::EMPTY).next().is_none(), ".. and not without authentication"),
            (card.room(here) == charge(self.file.size), "the room is just enough"),
            (elsewhere.is_empty(), "nothing is elsewhere"),
        ]
    }
}

/// One is the other's beginning, or only the last bytes differ.
fn is_near(one: &[u8], other: &[u8]) -> bool {
    let common = one.iter().zip(other).take_while(|(a, b)| a == b).count();
    !one.is_empty() && common + 1 >= one.len().max(other.len())
}

fn cards() -> impl Iterator<Item = Before> {
    Generator::only(SEED, Kind::FilesAgain).take(400).flat_map(|made| {
        let Case::Again(again) = made.case else { panic!("not made again: {:?}", made.kind) };
        let lines = again.lines();
        let cards = lines.split(|line| matches!(line, Line::Make { .. })).skip(1);
        cards.filter_map(Before::of).collect::<Vec<_>>()
    })
}

#[test]
fn what_the_ticket_asks_of_the_other_card_holds() {
    for before in cards() {
        for (is_so, what) in before.asked() {
            assert!(is_so, "not so: {what}: {:?}", before.card);
        }
    }
}

/// Each of it comes often, so that whatever goes wrong there shows.
#[test]
fn what_the_ticket_leaves_open_varies() {
    let mut counts = BTreeMap::new();
    for before in cards() {
        for (is_so, what) in before.varies() {
            *counts.entry(what).or_insert(0) += usize::from(is_so);
        }
        *counts.entry("cards").or_insert(0) += 1;
    }
    say(&format!("cards for files made again: {counts:?}"));
    assert!(counts.values().all(|&count| count >= 50), "{counts:?}");
}
