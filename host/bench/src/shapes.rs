//! The cards that are measured: those of `cases`, which are of version 1, cards
//! of version 2 with other rules on the same files, cards of version 3 with
//! bodies, and such whose rules stand in a file.

use cases::{worst, Lent};
use model::edition::{Edition, Version};
use model::rule::Form;
use model::Card;

use crate::work::Task;
use crate::{bodied, referred};

/// The files that cards of version 2 have.
pub const FILES: &str = "900 files in 40 directories";

/// A card that is measured.
pub struct Shape {
    pub title: &'static str,
    /// Its image, and its pool where it has bodies.
    pub start: Lent,
    /// How many copies of the image a command is to take at most, at the largest
    /// size (docs/SPEED.md).
    pub wanted: Option<f64>,
    /// What is measured on it.
    pub tasks: &'static [Task],
    /// Where its files' rules stand in another file, the same card whose files have
    /// them in their own records.
    pub own: Option<Lent>,
}

/// Where all rights are granted in every state, rules of these bytes in turn.
struct Rules {
    title: &'static str,
    wanted: f64,
    form: Form,
    rules: Vec<Vec<u8>>,
}

/// The cards of a size.
pub fn shapes(slots: usize) -> Vec<Shape> {
    let mut worst = worst::cards_of(slots);
    worst.extend(worst::slow_of(slots));
    let files = worst.iter().find(|worst| worst.title == FILES);
    let files = files.and_then(|worst| Card::decode(&worst.image));
    let ruled = |rules: Rules| Some(ruled(files.clone()?, rules));
    let version_2: Vec<_> = all_rules().into_iter().filter_map(ruled).collect();
    let version_1 = worst.into_iter().map(|worst| Shape {
        title: worst.title,
        start: without_bodies(worst.image),
        wanted: wanted(worst.title),
        tasks: &Task::ALL,
        own: None,
    });
    let version_3 = bodied::shapes(slots).into_iter().chain(referred::shapes(slots));
    version_1.chain(version_2).chain(version_3).collect()
}

fn without_bodies(image: Vec<u8>) -> Lent {
    Lent { image, pool: Vec::new() }
}

fn wanted(title: &str) -> Option<f64> {
    match title {
        FILES => Some(10.0),
        "all names" => Some(15.0),
        _ => None,
    }
}

/// The same card as one of version 2, with rules in turn.
fn ruled(mut card: Card, rules: Rules) -> Shape {
    let Rules { title, wanted, form, rules } = rules;
    card.edition = Edition::of(Version::Two);
    let used: Vec<_> = card.used_slots().collect();
    for (slot, rule) in used.into_iter().zip(rules.into_iter().cycle()) {
        let mut record = card.record(slot).clone();
        (record.form, record.rule) = (form, rule);
        card.put(slot, record);
    }
    Shape {
        title,
        start: without_bodies(card.encode()),
        wanted: Some(wanted),
        tasks: &Task::ALL,
        own: None,
    }
}

/// What the cards of version 2 hold. Which rule of 30 bytes is the slowest goes
/// by how they are judged, so that each that could be is measured: the most
/// groups, the most objects in a row, the most objects four deep.
fn all_rules() -> Vec<Rules> {
    let compact = |title, rules| Rules { title, wanted: 10.0, form: Form::Compact, rules };
    let expanded = |title, rules| Rules { title, wanted: 20.0, form: Form::Expanded, rules };
    vec![
        compact("version 2: compact rules of one group", vec![OPEN.to_vec()]),
        compact("version 2: compact rules", compact_rules()),
        expanded("version 2: expanded rules", expanded_rules()),
        compact("version 2: worst compact rules", vec![many_groups()]),
        compact("version 2: worst compact rules, with conditions", vec![many_conditions()]),
        expanded("version 2: worst rules, in a row", vec![in_a_row()]),
        expanded("version 2: worst rules, many groups", vec![many_expanded_groups()]),
        expanded("version 2: worst rules, four deep", vec![four_deep()]),
    ]
}

/// All rights, always.
const OPEN: [u8; 8] = [0x7F, 0, 0, 0, 0, 0, 0, 0];

/// Lengths from 8 to 30: groups of few rights, with conditions, then all rights.
fn compact_rules() -> Vec<Vec<u8>> {
    let before: [&[u8]; 6] = [
        &[],
        &[0x02, 0x11],
        &[0x18, 0xB2, 0x32, 0x04, 0xFF],
        &[0x7F, 0x11, 0x12, 0x13, 0x11, 0x12, 0x13, 0xFF],
        &[0x78, 0x11, 0x11, 0x11, 0x11, 0x07, 0x12, 0x12, 0x12, 0x01, 0xFF, 0x40, 0xB3],
        &[
            0x7F, 0x11, 0x12, 0x13, 0x11, 0x12, 0x13, 0xFF, 0x7F, 0x21, 0x22, 0x23, 0x21, 0x22,
            0x23, 0xFF, 0x02, 0x44, 0x04, 0x44, 0x40, 0xB3,
        ],
    ];
    before.map(|groups| [groups, &OPEN].concat()).to_vec()
}

/// Two to four objects each.
fn expanded_rules() -> Vec<Vec<u8>> {
    vec![
        vec![0x80, 0x01, 0x7F, 0x90, 0x00],
        vec![0x80, 0x01, 0x7F, 0x9E, 0x01, 0xFF, 0x90, 0x00],
        vec![0x80, 0x01, 0x06, 0x9E, 0x01, 0x11, 0x80, 0x01, 0x7F, 0x90, 0x00],
        vec![0x80, 0x01, 0x7F, 0xA0, 0x05, 0x9E, 0x01, 0x11, 0x90, 0x00],
        vec![0x80, 0x01, 0x7F, 0xAF, 0x05, 0x9E, 0x01, 0x00, 0x90, 0x00],
        vec![0x80, 0x01, 0x7F, 0x97, 0x00, 0x9E, 0x01, 0x11, 0x90, 0x00],
    ]
}

/// 22 groups of one byte that name no right, and one that names all.
fn many_groups() -> Vec<u8> {
    [&[0; 22][..], &OPEN].concat()
}

/// 11 groups of two bytes that deny what they name, and one that names all.
fn many_conditions() -> Vec<u8> {
    [&[0x01, 0xFF].repeat(11)[..], &OPEN].concat()
}

/// A group with 13 conditions, of which the last one holds.
fn in_a_row() -> Vec<u8> {
    let never = [0x97, 0x00].repeat(11);
    [&[0x80, 0x01, 0x7F][..], &never, &[0x9E, 0x01, 0xFF, 0x90, 0x00]].concat()
}

/// Six groups of one condition, of which the last one holds.
fn many_expanded_groups() -> Vec<u8> {
    [[0x80, 0x01, 0x7F, 0x97, 0x00].repeat(5), vec![0x80, 0x01, 0x7F, 0x90, 0x00]].concat()
}

/// Templates four deep, most objects in the innermost, each to be judged to its
/// end: of A0 only the last condition holds, of AF all do.
fn four_deep() -> Vec<u8> {
    let template = |tag: u8, inside: Vec<u8>| [vec![tag, inside.len() as u8], inside].concat();
    let (always, never) = ([0x90, 0x00], [0x97, 0x00]);
    let fourth = template(0xAF, [always.repeat(5), vec![0x9E, 0x01, 0x00]].concat());
    let third = template(0xA0, [never.to_vec(), fourth].concat());
    let second = template(0xAF, [always.to_vec(), third].concat());
    let first = template(0xA0, [never.to_vec(), second].concat());
    [vec![0x80, 0x01, 0x7F], first].concat()
}

#[cfg(test)]
mod tests {
    use super::*;
    use model::rule::{decide, groups, Right};
    use model::State;

    #[test]
    fn rules_are_what_their_titles_say() {
        for Rules { title, form, rules, .. } in all_rules() {
            for rule in &rules {
                assert!(groups(form, rule).is_some(), "{title}: {rule:02X?}");
                assert!(!title.contains("worst") || rule.len() == 30, "{title}: {rule:02X?}");
                let open = |right| decide(form, rule, right, &State::FULL).is_granted();
                assert!(Right::ALL.into_iter().all(open), "{title}: {rule:02X?}");
            }
        }
        let lengths: Vec<_> = compact_rules().iter().map(Vec::len).collect();
        assert_eq!(lengths, [8, 10, 13, 16, 21, 30]);
    }

    /// Every condition of the deep rule is judged: were one of them another, it
    /// would deny.
    #[test]
    fn nothing_of_the_deep_rule_is_passed_over() {
        let rule = four_deep();
        let decided = |rule: &[u8]| decide(Form::Expanded, rule, Right::CreateEf, &State::FULL);
        let places = (3..rule.len()).filter(|&place| rule[place] == 0x90).collect::<Vec<_>>();
        assert_eq!(places.len(), 6);
        for place in places {
            let mut bent = rule.clone();
            bent[place] = 0x97;
            assert!(!decided(&bent).is_granted(), "{bent:02X?}");
        }
    }

    #[test]
    fn cards_are_sound_and_of_the_version_that_their_titles_say() {
        for Shape { title, start, .. } in shapes(1023) {
            let card = Card::decode(&start.image).expect("a card");
            assert!(model::sound(&start.image), "{title}");
            let version = match title.get(..9) {
                Some("version 2") => Version::Two,
                Some("version 3") => Version::Three,
                _ => Version::One,
            };
            assert_eq!(card.edition.version, version, "{title}");
            if version == Version::Two {
                assert_eq!(card.used_slots().count(), 1 + 40 + 900, "{title}");
            }
        }
    }
}
