//! The generator shows what SELECT with a template does (02, Ticket 2), with
//! buffers of all lengths, in histories and on images, and what just misses it.

use std::collections::{BTreeMap, BTreeSet};

use crate::common::say;
use cases::{Generator, Kind};
use model::lines::Case as Line;
use model::soundness::sound_card;
use model::words::{self, Word};
use model::{command, fcp, Outcome, Record, State};

const SEED: u64 = 1203;

/// One command on an image, run by the model.
struct Shown {
    image: Vec<u8>,
    command: Vec<u8>,
    lent: Vec<u8>,
    outcome: Outcome,
    /// The outcome with a buffer that is long enough, and what it then holds.
    roomy: Outcome,
    data: Vec<u8>,
    /// The file that is selected then.
    selected: Option<Record>,
}

impl Shown {
    fn of(image: &[u8], pool: &[u8], bytes: &[u8], lent: &[u8], state: &State) -> Shown {
        let mut long = vec![0; fcp::MOST_BYTES];
        let mut after = image.to_vec();
        let roomy = command(&mut after, &mut pool.to_vec(), bytes, &mut long, state);
        let selected = sound_card(&after)
            .map(|card| card.record(card.current_ef.unwrap_or(card.current_df)).clone());
        long.truncate(roomy.data);
        let (mut same, mut pool) = (image.to_vec(), pool.to_vec());
        let outcome = command(&mut same, &mut pool, bytes, &mut lent.to_vec(), state);
        Shown {
            image: image.to_vec(),
            command: bytes.to_vec(),
            lent: lent.to_vec(),
            outcome,
            roomy,
            data: long,
            selected,
        }
    }

    /// SELECT with this P2 after class 00, on a card that is sound.
    fn is_select(&self, p2: u8) -> bool {
        self.outcome.answer != 1 && self.command.starts_with(&[0x00, 0xA4, 0x00, p2])
    }

    fn refused(&self, word: Word) -> bool {
        (self.outcome.answer, self.outcome.word) == (0, word)
    }

    /// What a SELECT with a template shows: the file, its life cycle, the
    /// length of the buffer.
    fn of_templates(&self) -> Vec<String> {
        let Some(file) = self.selected.as_ref().filter(|_| self.roomy.data > 0) else {
            return Vec::new();
        };
        if self.outcome.answer == 5 {
            return vec![
                format!("answer 5 for {:04X}", self.roomy.word),
                format!("answer 5 with {}", self.how_short()),
            ];
        }
        vec![
            format!("template of {}", kind_of(file)),
            format!("template with {:02X}", file.life_cycle),
            format!("template with {:04X}", self.outcome.word),
            format!("template in {}", self.how_long()),
        ]
    }

    fn how_short(&self) -> &'static str {
        match self.data.len() - self.lent.len() {
            _ if self.lent.is_empty() => "no byte",
            1 => "one byte too few",
            _ => "more too few",
        }
    }

    fn how_long(&self) -> &'static str {
        match self.lent.len() - self.data.len() {
            0 => "exactly its length",
            1 => "one byte more",
            _ if self.lent.len() == 256 => "256 bytes",
            _ => "more bytes",
        }
    }

    /// What just misses a template, or does not look at the buffer.
    fn of_misses(&self) -> Vec<&'static str> {
        let length = self.command.len();
        let whole = self.command.get(4) == Some(&2);
        let le = self.command.get(7).copied();
        let with_04 = self.is_select(0x04) && whole;
        let with_0c = self.is_select(0x0C) && whole;
        let short = self.lent.len() < 20;
        let no_select = self.command.get(1) != Some(&0xA4);
        let bad_p2 = |p2| self.is_select(p2) && self.refused(words::WRONG_PARAMETERS);
        let done = words::is_success(self.outcome.word);
        let told = [
            (with_04 && length == 7 && self.refused(words::WRONG_LENGTH), "04 and 7 bytes"),
            (
                with_04 && length == 8 && le != Some(0) && self.refused(words::WRONG_LENGTH),
                "Le not 00",
            ),
            (with_04 && length == 9 && self.refused(words::WRONG_LENGTH), "04 and 9 bytes"),
            (with_0c && length == 8 && self.refused(words::WRONG_LENGTH), "0C and 8 bytes"),
            (bad_p2(0x00), "P2 00"),
            (bad_p2(0x05), "P2 05"),
            (bad_p2(0x08), "P2 08"),
            (with_04 && self.refused(words::FILE_NOT_FOUND) && short, "6A82 before answer 5"),
            (with_04 && self.refused(0x6985) && short, "terminated card before answer 5"),
            (with_0c && done && self.lent.is_empty(), "0C without a buffer"),
            (with_0c && done && !self.lent.is_empty(), "0C with a buffer"),
            (no_select && done && self.lent.is_empty(), "another command without a buffer"),
            (no_select && done && !self.lent.is_empty(), "another command with a buffer"),
            (self.is_04_on_damaged_image() && !short, "damaged, with a buffer"),
            (self.is_04_on_damaged_image() && short, "damaged, with a short one"),
        ];
        told.into_iter().filter(|(shown, _)| *shown).map(|(_, name)| name).collect()
    }

    /// SELECT with 04 on a damaged image, which is answered 1.
    fn is_04_on_damaged_image(&self) -> bool {
        self.outcome.answer == 1
            && !model::sound(&self.image)
            && self.command.starts_with(&[0x00, 0xA4, 0x00, 0x04])
    }
}

fn kind_of(file: &Record) -> &'static str {
    match (file.identifier, file.is_df(), file.name.is_empty(), file.record_length) {
        (0x3F00, _, true, _) => "the root",
        (0x3F00, _, false, _) => "the root with a name",
        (_, true, true, _) => "a DF",
        (_, true, false, _) => "a DF with a name",
        (_, false, _, 0) => "an EF",
        _ => "an EF with records",
    }
}

/// How often each thing is shown among the commands of a kind.
fn counts(kind: Kind, cases: usize) -> BTreeMap<String, usize> {
    let mut counts = BTreeMap::new();
    for line in Generator::only(SEED, kind).take(cases).flat_map(|made| made.case.lines()) {
        let Line::Command { image, pool, command: bytes, state, response } = line else { continue };
        let shown = Shown::of(&image, &pool, &bytes, &response, &state);
        let mut found = shown.of_templates();
        found.extend(shown.of_misses().into_iter().map(str::to_string));
        for name in found {
            *counts.entry(name).or_insert(0) += 1;
        }
    }
    counts
}

/// Each wanted thing is shown at least five times.
#[track_caller]
fn shows(what: &str, counts: &BTreeMap<String, usize>, wanted: &[&str]) {
    let count = |name: &&str| counts.get(*name).copied().unwrap_or(0);
    let rarest = wanted.iter().map(count).min().unwrap_or(0);
    say(&format!("templates {what}: {} things shown, the rarest {rarest} times", wanted.len()));
    let lacking: Vec<_> = wanted.iter().filter(|name| count(name) < 5).collect();
    assert!(lacking.is_empty(), "{what} lack {lacking:?}: {counts:?}");
}

/// What comes wherever files are selected.
const EVERYWHERE: [&str; 26] = [
    "template of the root",
    "template of a DF",
    "template of a DF with a name",
    "template of an EF",
    "template of an EF with records",
    "template with 01",
    "template with 03",
    "template with 04",
    "template with 05",
    "template with 06",
    "template with 07",
    "template with 0C",
    "template with 9000",
    "template with 6283",
    "template with 6285",
    "template in exactly its length",
    "template in one byte more",
    "template in more bytes",
    "template in 256 bytes",
    "answer 5 for 9000",
    "answer 5 for 6283",
    "answer 5 for 6285",
    "answer 5 with no byte",
    "answer 5 with one byte too few",
    "answer 5 with more too few",
    "6A82 before answer 5",
];

/// What comes only beside other commands.
const OTHERS: [&str; 4] = [
    "0C without a buffer",
    "0C with a buffer",
    "another command without a buffer",
    "another command with a buffer",
];

#[test]
fn histories_show_templates() {
    let counts = counts(Kind::History, 1500);
    shows("in histories", &counts, &EVERYWHERE);
    shows("in histories, beside others", &counts, &OTHERS);
    shows("on terminated cards", &counts, &["terminated card before answer 5"]);
}

#[test]
fn images_show_templates() {
    let counts = counts(Kind::SoundCommand, 15_000);
    shows("on images", &counts, &EVERYWHERE);
    shows("on images, beside others", &counts, &OTHERS);
    shows("of named roots", &counts, &["template of the root with a name"]);
}

#[test]
fn near_misses_of_templates() {
    let wanted = [
        "04 and 7 bytes",
        "04 and 9 bytes",
        "Le not 00",
        "0C and 8 bytes",
        "P2 00",
        "P2 05",
        "P2 08",
    ];
    shows("just missed", &counts(Kind::NearMiss, 4000), &wanted);
}

#[test]
fn damaged_images_are_asked_for_templates() {
    let wanted = ["damaged, with a buffer", "damaged, with a short one"];
    shows("on damaged images", &counts(Kind::DamagedCommand, 3000), &wanted);
}

/// Buffers hold anything before, so that a byte that is written shows.
#[test]
fn buffers_hold_random_bytes() {
    let mut seen = BTreeSet::new();
    for line in Generator::only(SEED, Kind::SoundCommand).take(400).flat_map(|m| m.case.lines()) {
        let Line::Command { response, .. } = line else { continue };
        seen.extend(response);
    }
    assert_eq!(seen.len(), 256);
}

/// Replay plays SELECTs with templates too, and no line of it is 0000.
#[test]
fn streams_select_with_templates() {
    let mut with_04 = 0;
    for made in Generator::only(SEED, Kind::Replay).take(400) {
        let cases::Case::Replay { input } = made.case else { panic!("a replay is a replay") };
        with_04 += input.windows(5).filter(|five| *five == [0x00, 0xA4, 0x00, 0x04, 0x02]).count();
        let output = String::from_utf8(model::replay(&input)).expect("replay prints text");
        assert!(output.lines().all(|word| word != "0000"), "{output}");
    }
    assert!(with_04 > 300, "{with_04}");
}
