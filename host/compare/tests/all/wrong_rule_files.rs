//! Cards that get Ticket 7 of 02 wrong are found, and told in a small form: where
//! a rule file is looked for, which record counts, what of it is the rule, and what
//! is told of it.

use std::cell::RefCell;

use crate::impostor::{
    found_among, found_line_among, Came, Impostor, Left, Retell, Spoil, Stands, HONEST,
};
use crate::judge::{asked, numbered};
use crate::kept::{Mistake, Mistaken};
use crate::quirks::decided_by;
use cases::Kind;
use compare::{Disagreement, Model, Pair, Subject, Told};
use model::deciding::{decide, rule_of};
use model::lines::Case as Line;
use model::rule::{Form, Right};
use model::vectors::case_lines;
use model::{Card, State};

/// The most slots of a card on which a mistake is told.
const SLOTS: usize = 10;

/// The cases within which a mistake is found that both sides make.
const JUDGED: usize = 3000;

/// Each with the number of cases within which it is found: of commands that ask
/// such rules, and of questions where they stand.
const MISTAKES: [(usize, usize, Mistake); 18] = [
    (600, 400, Mistake::BeginsInItself),
    (300, 300, Mistake::HolderAlone),
    (900, 500, Mistake::GoesOn),
    (300, 200, Mistake::Farthest),
    (300, 500, Mistake::CyclicTaken),
    (600, 1500, Mistake::TransparentTaken),
    (300, 200, Mistake::ItselfTaken),
    (400, 800, Mistake::DeactivatedDenies),
    (300, 300, Mistake::TerminatedDenies),
    (300, 300, Mistake::ReferredDenies),
    (1500, 600, Mistake::ZeroIsTheLast),
    (1500, 600, Mistake::ZeroIsTheFirst),
    (1200, 600, Mistake::PastTheLastWraps),
    (1200, 600, Mistake::PastTheLastIsTheLast),
    (100, 300, Mistake::CutFirst),
    (1200, 300, Mistake::AnythingBehind),
    (1200, 600, Mistake::ZerosArePadding),
    (300, 300, Mistake::AtMost28Bytes),
];

/// It is found within so many cases of a kind, and told on a small card.
fn found_within(count: usize, title: &str, card: &dyn Subject, kind: Kind) {
    let line = found_line_among(count, title, card, Some(kind));
    let image = match (kind, &line) {
        (Kind::Deciding, Line::Deciding { image, .. }) => image,
        (Kind::Referred, Line::Command { image, .. }) => image,
        _ => panic!("{title}: {}", line.line()),
    };
    assert!(image.len() <= 16 + 64 * SLOTS, "{title}: {}", line.line());
}

#[test]
fn commands_that_go_by_a_mistake_are_found() {
    for (count, _, mistake) in MISTAKES {
        let card = Mistaken { mistake, commands: true, rule: false };
        found_within(count, &format!("{mistake:?}"), &card, Kind::Referred);
    }
}

#[test]
fn mistaken_places_are_found() {
    for (_, count, mistake) in MISTAKES {
        let card = Mistaken { mistake, commands: false, rule: true };
        found_within(count, &format!("{mistake:?}"), &card, Kind::Deciding);
    }
}

/// Neither the maker nor a file's own record takes a rule of more than 28 bytes, so
/// that without the model nothing is known of it.
fn can_be_judged(mistake: &Mistake) -> bool {
    *mistake != Mistake::AtMost28Bytes
}

/// Held against themselves, commands and places alike: what stands in the record
/// that the reference names finds them. What is told of it can be read again.
#[test]
fn what_stands_there_finds_what_both_sides_do_wrong() {
    for mistake in MISTAKES.map(|(.., mistake)| mistake).into_iter().filter(can_be_judged) {
        let card = Mistaken { mistake, commands: true, rule: true };
        let pair = Pair { card: &card, model: &card };
        let found = found_among(JUDGED, pair, Some(Kind::Deciding));
        let found = found.unwrap_or_else(|| panic!("not found: {mistake:?}"));
        let told = found.to_string();
        let again: Vec<_> = case_lines(&told).map(Line::parse).collect();
        let Disagreement::Standing { line, .. } = found else { panic!("{mistake:?}: {told}") };
        assert_eq!(again, [Some(*line)], "{mistake:?}: {told}");
    }
}

/// And commands that go by a mistake do not agree with places that are right, be
/// it on both sides.
#[test]
fn commands_and_places_that_differ_are_found() {
    for mistake in MISTAKES.map(|(.., mistake)| mistake).into_iter().filter(can_be_judged) {
        let card = Mistaken { mistake, commands: true, rule: false };
        let found = found_among(JUDGED, Pair { card: &card, model: &card }, Some(Kind::Deciding));
        assert!(matches!(found, Some(Disagreement::Standing { .. })), "{mistake:?}: {found:?}");
    }
}

/// Whether a command is refused for a reference that leads nowhere.
fn leads_nowhere(came: &Came) -> bool {
    asked(came).is_some_and(|(card, asks)| {
        asks.iter().all(|(slot, _)| rule_of(&card, came.pool, *slot).is_err())
    })
}

/// Denials told wrongly, and the word without one.
const DENIALS: [(&str, Spoil); 3] = [
    ("a denial lacks", |came, _, told| match told.word == 0x6982 && leads_nowhere(came) {
        true => numbered(told, 1),
        false => told,
    }),
    ("a denial has no number", |came, _, told| match told.word == 0x6982 && leads_nowhere(came) {
        true => numbered(told, 0),
        false => told,
    }),
    ("a denial is 6985", |came, _, told| match told.word == 0x6982 && leads_nowhere(came) {
        true => Told { word: 0x6985, ..numbered(told, 0) },
        false => told,
    }),
];

#[test]
fn denials_told_wrongly_are_found() {
    for (title, command) in DENIALS {
        found_within(100, title, &Impostor { command, ..HONEST }, Kind::Referred);
    }
}

/// Cards that tell wrongly where a rule stands.
const TOLD: [(usize, &str, Retell); 13] = [
    (200, "padding is told too", |sought, (answer, [sort, from, length])| {
        let behind = sought.pool.get((from + length) as usize..).unwrap_or_default();
        let padding = behind.iter().take_while(|byte| **byte == 0xFF).count() as u32;
        (answer, [sort, from, length + if sort == 2 { padding } else { 0 }])
    }),
    (200, "one byte of padding is told too", |sought, (answer, [sort, from, length])| {
        let padded = sort == 2 && sought.pool.get((from + length) as usize) == Some(&0xFF);
        (answer, [sort, from, length + u32::from(padded)])
    }),
    (200, "an offset one too high in the pool", |_, stands| shifted(stands, 2, 1)),
    (200, "an offset one too low in the pool", |_, stands| shifted(stands, 2, u32::MAX)),
    (100, "an offset one too high in the image", |_, stands| shifted(stands, 1, 1)),
    (100, "an offset in the record", |_, (answer, [sort, from, length])| {
        (answer, [sort, if sort == 1 { 34 } else { from }, length])
    }),
    (200, "a last byte lost", |_, (answer, [sort, from, length])| {
        (answer, [sort, from, length.saturating_sub(u32::from(sort == 2))])
    }),
    (100, "the reference itself is told", |sought, (answer, numbers)| {
        match Card::decode(sought.image) {
            Some(card) if answer == 0 && numbers[0] != 1 => {
                let referred = card.record(sought.slot as usize).form == Form::Referred;
                (answer, if referred { [1, 50 + 64 * sought.slot, 3] } else { numbers })
            }
            _ => (answer, numbers),
        }
    }),
    (50, "an empty part of the pool", |_, (answer, [sort, from, length])| {
        (answer, [if sort == 0 { 2 } else { sort }, from, length])
    }),
    (1500, "a slot past the last is refused", |sought, (answer, numbers)| {
        let past = 16 + 64 * u64::from(sought.slot) >= sought.image.len() as u64;
        (if past { 1 } else { answer }, numbers)
    }),
    (1500, "16 bits of the slot", |sought, _| {
        Model.rule(sought.image, sought.pool, sought.slot & 0xFFFF)
    }),
    (300, "answer 6 is 1", |_, (answer, numbers)| (answer.min(1), numbers)),
    (300, "a wrong pool does", |sought, stands| match stands.0 {
        6 => {
            let mut pool = sought.pool.to_vec();
            pool.resize(card::pool_length(sought.image).unwrap_or(0), 0xFF);
            Model.rule(sought.image, &pool, sought.slot)
        }
        _ => stands,
    }),
];

/// A part of this sort told so many bytes higher.
fn shifted((answer, [sort, from, length]): Stands, of: u32, by: u32) -> Stands {
    (answer, [sort, if sort == of { from.wrapping_add(by) } else { from }, length])
}

#[test]
fn places_told_wrongly_are_found() {
    for (count, title, rule) in TOLD {
        found_within(count, title, &Impostor { rule, ..HONEST }, Kind::Deciding);
    }
}

/// Held against themselves, the judge finds these: the commands are right.
#[test]
fn what_stands_there_finds_places_that_both_sides_tell_wrongly() {
    for (count, title, rule) in TOLD {
        // What a slot past the last has is nothing that a command could ask.
        if title == "16 bits of the slot" {
            continue;
        }
        let card = Impostor { rule, ..HONEST };
        let found = found_among(count, Pair { card: &card, model: &card }, Some(Kind::Deciding));
        assert!(matches!(found, Some(Disagreement::Standing { .. })), "{title}: {found:?}");
    }
}

/// A card that goes by the rules from before the last UPDATE, as long as the pool
/// is as that left it.
#[derive(Default)]
struct Stale {
    /// The pool before and after.
    update: RefCell<(Vec<u8>, Vec<u8>)>,
}

impl Subject for Stale {
    fn make(&self, buffer: &mut [u8], version: u32, total: u32, form: u32, rule: &[u8]) -> u32 {
        Model.make(buffer, version, total, form, rule)
    }

    fn command(
        &self,
        image: &mut [u8],
        pool: &mut [u8],
        command: &[u8],
        response: &mut [u8],
        state: &State,
    ) -> Told {
        let [before, held, lent] = [&*image, &*pool, &*response].map(<[u8]>::to_vec);
        let told = Model.command(image, pool, command, response, state);
        let came = Came { image: &before, pool: &held, command, response: &lent, state };
        let (old, new) = self.update.borrow().clone();
        let told = decided_by(&came, &mut Left { image, pool, response }, told, |card, slot| {
            let kept = held == new && card.record(slot).form == Form::Referred;
            kept.then(|| Right::ALL.map(|right| decide(card, &old, slot, right, state)))
        });
        if let ([_, 0xDC, ..], 0x9000) = (command, told.word) {
            self.update.replace((held.clone(), pool.to_vec()));
        }
        told
    }

    fn report(&self, image: &[u8]) -> (u32, [u32; 4]) {
        Model.report(image)
    }

    fn rule(&self, image: &[u8], pool: &[u8], slot: u32) -> Stands {
        Model.rule(image, pool, slot)
    }

    fn sound(&self, image: &[u8]) -> bool {
        Model.sound(image)
    }
}

/// Histories find it: a command is asked again after its rule was written. By
/// itself the command has nothing wrong, so that what is left need not show again.
#[test]
fn a_rule_kept_from_before_an_update_is_found() {
    let card = Stale::default();
    let found = found_among(40, Pair { card: &card, model: &Model }, Some(Kind::RuleFiles));
    assert!(found.is_some());
}

/// The search without a mistake is the model's.
#[test]
fn without_a_mistake_nothing_is_wrong() {
    let card = Mistaken { mistake: Mistake::Nothing, commands: true, rule: true };
    let pair = Pair { card: &card, model: &Model };
    for (kind, count) in [(Kind::Referred, 1500), (Kind::Deciding, 1500), (Kind::RuleFiles, 60)] {
        assert_eq!(found_among(count, pair, Some(kind)), None, "{kind:?}");
    }
}
