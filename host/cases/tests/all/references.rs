//! References where they are made (02, Ticket 7): in CREATE's data, by the maker,
//! in rules by themselves, on damaged images.

use std::collections::BTreeMap;

use crate::common::say;
use cases::{Case, Generator, Kind};
use model::lines::Case as Line;
use model::{command, objects};

const SEED: u64 = 1508;

fn count(counts: &mut BTreeMap<String, usize>, name: String) {
    *counts.entry(name).or_insert(0) += 1;
}

#[track_caller]
fn each_at_least(
    what: &str,
    counts: &BTreeMap<String, usize>,
    fewest: usize,
    wanted: &[impl AsRef<str>],
) {
    let of = |name: &str| counts.get(name).copied().unwrap_or(0);
    say(&format!("{what}: {counts:?}"));
    for name in wanted.iter().map(AsRef::as_ref) {
        assert!(of(name) >= fewest, "{what}: {name} {} times of {fewest}", of(name));
    }
}

/// What CREATE's data show of 8B: its length, whether it stands alone and behind
/// 8A, and whether all that was taken.
fn of_create(version: u16, data: &[u8], word: &str) -> Option<String> {
    let (template, _) = objects::first(data)?;
    let all = objects::all(template.value)?;
    let place = all.iter().position(|object| object.tag == 0x8B)?;
    let rules = all.iter().filter(|object| [0x8B, 0x8C, 0xAB].contains(&object.tag)).count();
    let behind = place.checked_sub(1).and_then(|before| all.get(before))?;
    let how = match (all[place].value.len(), rules, behind.tag) {
        (length, 1, 0x8A) => format!("of {length}"),
        (_, 1, _) => "misplaced".to_string(),
        _ => "beside another".to_string(),
    };
    Some(format!("v{version} {how} {word}"))
}

#[test]
fn creations_with_references() {
    let mut counts = BTreeMap::new();
    for made in Generator::only(SEED, Kind::Template).take(8000) {
        let Case::Template { edition, data } = &made.case else { panic!("a template") };
        let result = made.case.lines()[0].result();
        let word = result.split(' ').nth(2).unwrap_or("");
        let shown = of_create(edition.version_number(), data, word);
        shown.into_iter().for_each(|name| count(&mut counts, name));
    }
    let refused = ["v1 of 3", "v2 of 3", "v3 of 2", "v3 of 4", "v3 beside another", "v3 misplaced"];
    each_at_least("CREATE with 8B", &counts, 25, &refused.map(|how| format!("{how} 6A80")));
    each_at_least("CREATE with 8B", &counts, 100, &["v3 of 3 9000"]);
    let taken = |name: &&String| name.ends_with("9000") && *name != "v3 of 3 9000";
    assert_eq!(counts.keys().find(taken), None, "nothing else is taken");
}

#[test]
fn makers_calls_with_references() {
    let mut counts = BTreeMap::new();
    for made in Generator::only(SEED, Kind::Make).take(4000) {
        let [line] = made.case.lines().try_into().expect("one line");
        let Line::Make { version, form, rule, .. } = &line else { panic!("a maker's call") };
        let answer = line.result().chars().nth(2).unwrap_or(' ');
        let length = if rule.len() == 3 { "3" } else { "another" };
        count(&mut counts, format!("v{version} form {form} of {length}: {answer}"));
        count(&mut counts, format!("v{version} form {form}: {answer}"));
    }
    let refused = ["v1 form 2 of 3", "v2 form 2 of 3", "v3 form 2 of another", "v3 form 3"];
    each_at_least("makers", &counts, 10, &refused.map(|how| format!("{how}: 4")));
    each_at_least("makers", &counts, 50, &["v3 form 2 of 3: 0"]);
}

#[test]
fn rules_with_references() {
    let mut counts = BTreeMap::new();
    for made in Generator::only(SEED, Kind::Rule).take(4000) {
        for line in made.case.lines() {
            match &line {
                Line::Fit { version, form: 2, rule } => {
                    let length = if rule.len() == 3 { "3" } else { "another" };
                    count(&mut counts, format!("v{version} of {length}: {}", line.result()));
                }
                Line::Decide { form: 2, .. } => count(&mut counts, line.result()),
                _ => {}
            }
        }
    }
    let unfit = ["v1 of 3", "v2 of 3", "v1 of another", "v2 of another", "v3 of another"];
    each_at_least("rules", &counts, 25, &unfit.map(|how| format!("{how}: W 0")));
    each_at_least("rules", &counts, 25, &["v3 of 3: W 1", "E 2222222", "E malformed"]);
    assert_eq!(counts.len(), 8, "nothing else is given: {counts:?}");
}

/// The record of a damaged image in which form and rule do not fit, if that is
/// what was damaged: all else is as some record of it has it.
fn of_damage(image: &[u8]) -> Option<String> {
    let version = image.get(3..5).map(|two| u16::from_be_bytes([two[0], two[1]]))?;
    let used = image.get(16..)?.chunks_exact(64).filter(|record| [1, 2].contains(&record[0]));
    let mut wrong = used.filter_map(|record| match (version, record[3], record[33]) {
        (1 | 2, 2, 3) => Some(format!("v{version} form 2")),
        (3, 2, length) if length != 3 && length <= 28 => Some("v3 form 2 of another length".into()),
        (3, 3, _) => Some("v3 form 3".into()),
        (3, 0 | 1, 3) if record[34] >= 0x20 => Some("v3 reference of another form".into()),
        _ => None,
    });
    wrong.next()
}

#[test]
fn damaged_references() {
    let mut counts = BTreeMap::new();
    for made in Generator::only(SEED, Kind::DamagedReport).take(12_000) {
        let Case::Report { image } = &made.case else { panic!("a report") };
        if let (false, Some(name)) = (model::sound(image), of_damage(image)) {
            count(&mut counts, name);
        }
    }
    let wanted = ["v1 form 2", "v2 form 2", "v3 form 2 of another length", "v3 form 3"];
    each_at_least("damaged", &counts, 15, &wanted);
}

/// Whether a line is a SELECT that tells a reference, and of which kind of file.
fn told(line: Line) -> Option<String> {
    let Line::Command { mut image, mut pool, command: bytes, state, mut response } = line else {
        return None;
    };
    let outcome = command(&mut image, &mut pool, &bytes, &mut response, &state);
    let data = response.get(..outcome.data).filter(|_| bytes.get(1) == Some(&0xA4))?;
    let all = objects::all(objects::first(data)?.0.value)?;
    all.iter().find(|object| object.tag == 0x8B && object.value.len() == 3)?;
    let is_df = all.iter().any(|object| object.tag == 0x81);
    Some(if is_df { "DF" } else { "EF" }.to_string())
}

/// SELECT tells references, of directories and of EFs.
#[test]
fn templates_with_references() {
    for (kind, cases) in [(Kind::RuleFiles, 200), (Kind::FilesAgain, 400)] {
        let mut counts = BTreeMap::new();
        let lines = Generator::only(SEED, kind).take(cases).flat_map(|made| made.case.lines());
        lines.filter_map(told).for_each(|name| count(&mut counts, name));
        each_at_least("templates with 8B", &counts, 20, &["DF", "EF"]);
    }
}

/// Files with a reference are on cards of all kinds.
#[test]
fn references_elsewhere() {
    for kind in [Kind::SoundCommand, Kind::SoundReport, Kind::NearMiss] {
        let mut found = 0;
        for made in Generator::only(SEED, kind).take(1500) {
            let image = match &made.case {
                Case::OneCommand { image, .. } | Case::Report { image } => image,
                _ => panic!("an image"),
            };
            let card = model::soundness::sound_card(image).expect("sound");
            let referred = |slot: &usize| card.record(*slot).form == model::rule::Form::Referred;
            found += usize::from(card.used_slots().any(|slot| referred(&slot)));
        }
        say(&format!("cards with a reference, {}: {found}", kind.name()));
        assert!(found >= 100, "{kind:?}: {found}");
    }
}
