//! Expanded rules and images of version 2 and 3 (02, Tickets 3 and 4): good rules
//! are good, flawed ones are not, and both come in every kind of case.

use std::collections::{BTreeMap, BTreeSet};

use crate::common::say;
use cases::damage::{damaged, Field};
use cases::flaws::{flawed, Flaw};
use cases::history::history_on;
use cases::images::sound_card as some_card;
use cases::themes::Theme;
use cases::{compact, expanded, states, Case, Generator, Kind, Random};
use model::edition::{Edition, Version};
use model::lines::Case as Line;
use model::objects;
use model::rule::{decide, fit, groups, Condition, Form, Right};
use model::soundness::sound_card;
use model::{command, make, sound, words, State};

const SEED: u64 = 1206;

/// The versions that take expanded rules.
const NEWER: [Edition; 2] = [Edition::of(Version::Two), Edition::of(Version::Three)];

/// How many templates stand inside one another; nothing if it is malformed.
fn depth(rule: &[u8]) -> Option<usize> {
    fn of(condition: &Condition) -> usize {
        match condition {
            Condition::OneOf(inside) | Condition::AllOf(inside) => {
                1 + inside.iter().map(of).max().unwrap_or(0)
            }
            _ => 0,
        }
    }
    let groups = groups(Form::Expanded, rule)?;
    groups.iter().flat_map(|group| &group.conditions).map(of).max()
}

/// The rule in CREATE's data, if they have one: tag and value.
fn rule_sent(command: &[u8]) -> Option<(u8, Vec<u8>)> {
    let [0x00, 0xE0, 0x00, 0x00, _, 0x62, _, left @ ..] = command else { return None };
    let mut left = left;
    while let Some((object, after)) = objects::first(left) {
        if [0x8C, 0xAB].contains(&object.tag) {
            return Some((object.tag, object.value.to_vec()));
        }
        left = after;
    }
    None
}

#[track_caller]
fn each_at_least(counts: &BTreeMap<String, usize>, fewest: usize, wanted: &[&str]) {
    let count = |name: &&str| counts.get(*name).copied().unwrap_or(0);
    let lacking: Vec<_> = wanted.iter().filter(|name| count(name) < fewest).collect();
    assert!(lacking.is_empty(), "fewer than {fewest}: {lacking:?}: {counts:?}");
}

#[test]
fn well_formed_rules_are_fit_and_of_every_depth() {
    let mut random = Random::new(SEED);
    let mut counts = BTreeMap::new();
    for number in 0..8000 {
        let edition = NEWER[number % 2];
        let rule = expanded::well_formed(&mut random, edition.longest_rule());
        assert!(fit(edition, Form::Expanded, &rule), "{rule:02X?}");
        let mut seen = vec![format!("depth {}", depth(&rule).expect("it is well formed"))];
        seen.push(format!("{} bytes", rule.len()));
        let decided = |right, state| decide(Form::Expanded, &rule, right, state);
        let granted = |state| Right::ALL.iter().any(|&right| decided(right, state).is_granted());
        seen.extend(granted(&State::EMPTY).then(|| "always open".to_string()));
        seen.extend((!granted(&State::FULL)).then(|| "closed".to_string()));
        let lacking = granted(&State::FULL) && !granted(&State::EMPTY);
        seen.extend(lacking.then(|| "open to some".to_string()));
        for one in seen {
            *counts.entry(one).or_insert(0) += 1;
        }
    }
    let wanted = ["depth 0", "depth 1", "depth 2", "depth 3", "depth 4"];
    each_at_least(&counts, 150, &wanted);
    each_at_least(
        &counts,
        40,
        &["30 bytes", "29 bytes", "28 bytes", "closed", "open to some", "always open"],
    );
}

#[test]
fn open_rules_grant_everything_to_everybody() {
    let mut random = Random::new(SEED + 1);
    let mut depths = BTreeSet::new();
    for number in 0..1200 {
        let edition = NEWER[number % 2];
        let rule = expanded::open(&mut random, edition.longest_rule());
        assert!(fit(edition, Form::Expanded, &rule), "{rule:02X?}");
        depths.extend(depth(&rule));
        for right in Right::ALL {
            let decided = decide(Form::Expanded, &rule, right, &State::EMPTY);
            assert!(decided.is_granted(), "{rule:02X?}");
        }
    }
    assert_eq!(depths, (0..=4).collect());
}

/// The flaw alone is the cause: every flawed rule has a length that fits, but
/// for those that are only too long or empty.
#[test]
fn flawed_rules_are_refused_for_their_flaw() {
    let mut random = Random::new(SEED + 2);
    for (flaw, edition) in Flaw::ALL.into_iter().flat_map(|flaw| NEWER.map(|one| (flaw, one))) {
        let longest = edition.longest_rule();
        let mut lengths = BTreeSet::new();
        for _ in 0..200 {
            let rule = flawed(&mut random, flaw, longest);
            lengths.insert(rule.len());
            assert!(!fit(edition, Form::Expanded, &rule), "{flaw:?} {rule:02X?}");
            let well_formed = groups(Form::Expanded, &rule).is_some();
            match flaw {
                Flaw::TooLong => assert!(well_formed && rule.len() > longest, "{rule:02X?}"),
                Flaw::Empty => assert!(rule.is_empty()),
                _ => assert!(!well_formed && rule.len() <= longest, "{flaw:?} {rule:02X?}"),
            }
        }
        assert!(flaw != Flaw::TooLong || lengths.contains(&(longest + 1)), "{lengths:?}");
    }
}

/// The ticket's last sentence, on rules of any length.
#[test]
fn a_compact_rule_and_its_writing_decide_alike() {
    let mut random = Random::new(SEED + 3);
    let mut granted = 0;
    for number in 0..4000 {
        let longest = if number % 2 == 0 { 16 } else { 200 };
        let rule = compact::groups(&mut random, longest);
        let writing = expanded::writing_of(&rule);
        let state = states::any(&mut random);
        for right in Right::ALL {
            let one = decide(Form::Compact, &rule, right, &state);
            assert_eq!(one, decide(Form::Expanded, &writing, right, &state), "{rule:02X?}");
            granted += usize::from(one.is_granted());
        }
    }
    assert!((2000..26_000).contains(&granted), "{granted}");
}

/// What CREATEs with a rule show: version, tag, whether the data were taken,
/// and of an expanded rule how deep it is.
fn creations(kind: Kind, cases: usize) -> BTreeMap<String, usize> {
    let mut counts = BTreeMap::new();
    for line in Generator::only(SEED, kind).take(cases).flat_map(|made| made.case.lines()) {
        let Line::Command { mut image, mut pool, command: bytes, state, mut response } = line
        else {
            continue;
        };
        let Some((tag, rule)) = rule_sent(&bytes).filter(|_| sound(&image)) else { continue };
        let version = image[4];
        let word = command(&mut image, &mut pool, &bytes, &mut response, &state).word;
        let taken = match word {
            words::SUCCESS => "made",
            words::WRONG_DATA => "refused",
            _ => continue,
        };
        let mut seen = vec![format!("v{version} {tag:02X} {taken}")];
        if tag == 0xAB && word == words::SUCCESS {
            seen.push(format!("depth {} made", depth(&rule).expect("it was taken")));
        }
        if rule.len() > 16 {
            seen.push(format!("v{version} {tag:02X} long {taken}"));
        }
        for one in seen {
            *counts.entry(one).or_insert(0) += 1;
        }
    }
    say(&format!("rules sent, {}: {counts:?}", kind.name()));
    counts
}

const MADE: [&str; 14] = [
    "v1 8C made",
    "v2 8C made",
    "v2 AB made",
    "v2 8C long made",
    "v2 AB long made",
    "v3 8C made",
    "v3 AB made",
    "v3 8C long made",
    "v3 AB long made",
    "depth 0 made",
    "depth 1 made",
    "depth 2 made",
    "depth 3 made",
    "depth 4 made",
];

#[test]
fn templates_have_rules_of_both_forms() {
    let counts = creations(Kind::Template, 3000);
    each_at_least(&counts, 10, &MADE);
    for version in 1..=3 {
        let refused = ["AB refused", "AB long refused", "8C long refused"];
        let refused = refused.map(|what| format!("v{version} {what}"));
        each_at_least(&counts, 10, &refused.each_ref().map(String::as_str));
    }
}

#[test]
fn histories_and_images_make_files_with_rules_of_both_forms() {
    each_at_least(&creations(Kind::History, 500), 10, &MADE);
    each_at_least(&creations(Kind::SoundCommand, 6000), 5, &MADE);
}

#[test]
fn makers_are_told_versions_and_forms_known_and_unknown() {
    let mut counts = BTreeMap::new();
    for made in Generator::only(SEED, Kind::Make).take(3000) {
        let Case::Make { mut buffer, version, total, form, rule } = made.case else {
            panic!("a make is a make");
        };
        let answer = make(&mut buffer, version, total, form, &rule);
        let known = |number: u32, most: u32| match number {
            n if n <= most => n.to_string(),
            _ => "other".to_string(),
        };
        let shown = format!("{} {} {answer}", known(version, 4), known(form, 3));
        *counts.entry(shown).or_insert(0) += 1;
    }
    let good = [
        "1 0 0", "2 0 0", "2 1 0", "3 0 0", "3 1 0", "3 0 4", "3 1 2", "3 1 3", "1 0 2", "1 0 3",
        "1 0 4", "2 0 4", "2 1 2", "2 1 3",
    ];
    each_at_least(&counts, 10, &good);
    let bad = ["1 1 4", "2 1 4", "3 1 4", "2 2 4", "3 3 4", "2 other 4", "1 2 4", "0 0 2", "4 1 2"];
    each_at_least(&counts, 3, &bad);
    each_at_least(&counts, 10, &["other 0 2", "other 1 2"]);
}

/// Byte 3 and the last bytes, on all versions and both forms.
#[test]
fn damage_at_the_bytes_of_the_ticket() {
    let mut random = Random::new(SEED + 5);
    let mut unsound = BTreeMap::new();
    for number in 0..1800 {
        let field = Field::OF_THE_RULE[number % 4];
        let card = some_card(&mut random);
        let image = damaged(&mut random, &card, field);
        let (old, new) = (card.encode(), &image);
        let Some(at) = (16..old.len()).find(|&at| old[at] != new[at]) else { continue };
        let form = card.record((at - 16) / 64).form.number();
        let name = format!("{field:?} v{} form {form}", card.edition.version_number());
        *unsound.entry(name).or_insert(0) += usize::from(!sound(&image));
    }
    for field in ["ByteThree", "Tail", "Rule", "RulePadding"] {
        let cards = ["v1 form 0", "v2 form 0", "v2 form 1", "v3 form 0", "v3 form 1"];
        let cards = cards.map(|card| format!("{field} {card}"));
        each_at_least(&unsound, 20, &cards.each_ref().map(String::as_str));
    }
}

#[test]
fn every_theme_is_played_on_all_versions() {
    let mut random = Random::new(SEED + 6);
    for theme in Theme::ALL.into_iter().chain([Theme::Locked]) {
        for version in Version::ALL {
            let edition = Edition::of(version);
            let mut forms = BTreeSet::new();
            let (mut all, mut done) = (0, 0);
            for _ in 0..25 {
                history_on(&mut random, edition, theme, 12, 25).play(|_, _, outcome, after| {
                    let card = sound_card(&after.image).expect("it stays sound");
                    assert_eq!(card.edition, edition);
                    forms.extend(card.used_slots().map(|slot| card.record(slot).form.number()));
                    all += 1;
                    done += usize::from(words::is_success(outcome.word));
                });
            }
            assert_eq!(forms.contains(&1), version != Version::One, "{theme:?} on {version:?}");
            assert!(done * 5 > all, "{theme:?} on {version:?}: {done} of {all}");
        }
    }
}

/// A file is made again on a card of its own version, and at times on one of
/// another, where its rule is fit as well.
#[test]
fn files_are_made_again_on_all_versions() {
    let mut counts = BTreeMap::new();
    for kind in [Kind::FilesAgain, Kind::TreeAgain] {
        for made in Generator::only(SEED, kind).take(400) {
            let Case::Again(again) = made.case else { panic!("not made again: {kind:?}") };
            for line in again.lines() {
                let Line::Make { version, .. } = line else { continue };
                let shown = format!("{} of {} on {version}", kind.name(), again.image[4]);
                *counts.entry(shown).or_insert(0) += 1;
            }
        }
    }
    for (one, other) in [1, 2, 3].into_iter().flat_map(|one| [1, 2, 3].map(|other| (one, other))) {
        let fewest = if one == other { 100 } else { 5 };
        each_at_least(&counts, fewest, &[&format!("filesagain of {one} on {other}")]);
    }
    let trees = ["treeagain of 1 on 1", "treeagain of 2 on 2", "treeagain of 3 on 3"];
    each_at_least(&counts, 80, &trees);
    assert_eq!(counts.len(), 12, "a tree keeps its version: {counts:?}");
}
