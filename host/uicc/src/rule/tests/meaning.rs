//! The words say what the model decides.

use model::edition::{Edition, Version};
use model::rule::{decide, fit, groups as model_groups, Form as ModelForm, Right};
use model::State;

use super::super::need::Need;
use super::super::words::ALL_RIGHTS;
use super::super::*;
use super::random::Noise;
use super::reading::Reading;

fn model_form(form: Form) -> ModelForm {
    match form {
        Form::Compact => ModelForm::Compact,
        Form::Expanded => ModelForm::Expanded,
        Form::Referred => ModelForm::Referred,
    }
}

/// The words for each right, b7 first.
fn needs(rule: Rule) -> Vec<String> {
    let parts = words(rule, Owner::Directory).expect("a good rule");
    let need = |name: &str| {
        let part = parts.iter().map(|part| part.split_once(": ").expect("rights and a need"));
        let mut found = part.filter(|(rights, _)| rights.split(", ").any(|right| right == name));
        let need = found.next().expect("every right is told").1.to_string();
        assert!(found.next().is_none(), "{name} is told twice");
        need
    };
    Owner::Directory.names(ALL_RIGHTS).into_iter().map(need).collect()
}

fn agree(rule: Rule, noise: &mut Noise) {
    let needs = needs(rule);
    let state = |noise: &mut Noise| {
        let mut set = || noise.below(1 << 16) as u16 & noise.below(1 << 16) as u16;
        State { messaging: set(), external: set(), user: set(), channels: 0 }
    };
    for state in [State::EMPTY, State::FULL, state(noise), state(noise), state(noise)] {
        for (right, need) in Right::ALL.into_iter().zip(&needs) {
            let granted = decide(model_form(rule.form), rule.bytes, right, &state).is_granted();
            assert_eq!(Reading::of(need, &state), granted, "{rule:02X?} {right:?}: {need}");
        }
    }
}

#[test]
fn the_words_hold_when_the_rule_grants() {
    let mut noise = Noise::new(1);
    for _ in 0..3000 {
        agree(Rule::compact(&noise.compact()), &mut noise);
        agree(Rule::expanded(&noise.expanded()), &mut noise);
    }
}

/// Every SC byte, in every state of its environment.
#[test]
fn the_words_of_every_condition_byte_hold() {
    for byte in 0..=0xFF {
        let words = Need::of_byte(byte).words();
        for sets in 0..8_u16 {
            let spread = |at: u16| (sets >> at & 1) << (byte & 15);
            let (messaging, external, user) = (spread(0), spread(1), spread(2));
            let state = State { messaging, external, user, channels: 0 };
            let held = model::security::condition_holds(byte, &state);
            assert_eq!(Reading::of(&words, &state), held, "{byte:02X}: {words}");
        }
    }
}

/// A compact rule and its expanded writing, an object 80 and a 9E for each SC
/// byte, are told in the same words.
#[test]
fn both_forms_are_told_alike() {
    let mut noise = Noise::new(2);
    for _ in 0..1000 {
        let compact = noise.compact();
        let groups = groups(Rule::compact(&compact)).expect("a good rule");
        let mut expanded = Vec::new();
        for grant in groups.iter().flat_map(|group| &group.grants) {
            let Sort::Byte(byte) = grant.condition.sort else { panic!("no SC byte") };
            expanded.extend([0x80, 0x01, grant.rights, 0x9E, 0x01, byte]);
        }
        let told = |rule| words(rule, Owner::File).expect("a good rule");
        assert_eq!(
            told(Rule::compact(&compact)),
            told(Rule::expanded(&expanded)),
            "{compact:02X?}"
        );
    }
}

/// Good rules, bent ones and bytes without a pattern: malformed here is what is
/// malformed there.
#[test]
fn the_model_calls_the_same_rules_malformed() {
    let mut noise = Noise::new(3);
    let mut counts = [0; 2];
    for number in 0..20_000 {
        let form = [Form::Compact, Form::Expanded][number % 2];
        let mut bytes = match form {
            Form::Compact => noise.compact(),
            _ => noise.expanded(),
        };
        for _ in 0..noise.below(4) {
            bytes = noise.bent(bytes);
        }
        if number % 16 < 2 {
            bytes = (0..noise.below(12)).map(|_| noise.byte()).collect();
        }
        let good = model_groups(model_form(form), &bytes).is_some();
        let given = groups(Rule { form, bytes: &bytes });
        // An empty expanded rule fits no card; whether it is malformed is open.
        assert!(bytes.is_empty() || given.is_ok() == good, "{form:?} {bytes:02X?}: {given:?}");
        // Written as an object it is explained if a card takes it, or a record that
        // keeps rules could hold it.
        let object = [&[form.tag(), bytes.len() as u8], &bytes[..]].concat();
        let longest = if form == Form::Compact { 30 } else { 0x7F };
        let fits = (1..=longest).contains(&bytes.len());
        let explained = explain(&object);
        assert_eq!(explained.is_ok(), good && fits, "{form:?} {bytes:02X?}: {explained:?}");
        counts[usize::from(good)] += 1;
    }
    assert!(counts.iter().all(|&count| count > 4_000), "{counts:?}");
}

/// A reference is good by its length alone, here, there, and on the card.
#[test]
fn a_reference_is_good_by_its_length() {
    let mut noise = Noise::new(4);
    for number in 0..500 {
        let bytes: Vec<u8> = (0..number % 6).map(|_| noise.byte()).collect();
        let rule = Rule::referred(&bytes);
        let good = fit(Edition::of(Version::Three), ModelForm::Referred, &bytes);
        assert_eq!((malformed(rule).is_none(), takers(rule).count() == 1), (good, good));
        let object = [&[0x8B, bytes.len() as u8], &bytes[..]].concat();
        assert_eq!(explain(&object).is_ok(), good, "{bytes:02X?}");
        assert!(groups(rule).is_err(), "its groups stand elsewhere");
    }
}
