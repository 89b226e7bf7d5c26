//! A rule asked by calls of the card, which has none for rules alone: whether
//! it is fit for a record by the maker, and its seven decisions by commands,
//! for each right on a card on which this rule, and no other, decides. Where
//! files have bodies, also what it decides for READ and UPDATE, and, expanded, in a
//! record of a file to which the ruled file refers (02, Ticket 7): there it may be
//! longer than in a record of its own.

use model::deciding::PADDING;
use model::edition::{Edition, Version};
use model::lines::Case as Line;
use model::rule::Right;
use model::words::{is_success, SECURITY_NOT_SATISFIED};
use model::{bodies, rule, Card, Kind, Record, State};

use cases::actions::{bare, delete};
use cases::template::FileData;
use cases::Rule;

use crate::outcome::{run, Outcome};
use crate::subject::{Subject, Told};

const CHILD: u16 = 0x6F07;
/// The file that keeps a rule, and the longest that it can keep.
const RULES: u16 = 0x2F06;
const LONGEST_KEPT: usize = 255;
/// What no vector has: the subject's word and number are no decision.
const UNDECIDED: char = '?';
const MALFORMED: &str = "E malformed";
/// READ and UPDATE of the one byte of the child.
const READ: &[u8] = &[0x00, 0xB0, 0x00, 0x00, 0x01];
const UPDATE: &[u8] = &[0x00, 0xD6, 0x00, 0x00, 0x01, 0x5A];

/// For each version the maker's call with the rule and, where the rule is fit
/// for a record of it, one command for each right, and READ and UPDATE.
pub fn lines_of_rule(rule: &Rule, state: State) -> Vec<Line> {
    let state = State { channels: 0, ..state };
    let of_version = |version: Version| {
        let edition = Edition::of(version);
        let mut lines = vec![make(u32::from(version.number()), rule.form_number(), &rule.bytes)];
        if rule::fit(edition, rule.form, &rule.bytes) {
            lines.extend(Right::ALL.map(|right| line_of_right(edition, right, rule, state)));
        }
        if edition.has_bodies() && lines.len() > 1 {
            lines.extend([READ, UPDATE].map(|command| line_of_body(edition, command, rule, state)));
        }
        lines
    };
    let mut lines: Vec<_> = Version::ALL.into_iter().flat_map(of_version).collect();
    if rule.form == rule::Form::Expanded && (1..LONGEST_KEPT).contains(&rule.bytes.len()) {
        let record = [&rule.bytes[..], &[PADDING]].concat();
        lines.push(line_of_place(&record));
        lines.extend(Right::ALL.map(|right| line_of_kept(right, &record, state)));
    }
    lines
}

/// What a subject gives for a line E or W, in the format of the vectors:
/// nothing for another line, and for a rule that no record takes, being too long or
/// empty.
pub fn asked(subject: &dyn Subject, line: &Line) -> Option<String> {
    match line {
        Line::Fit { version, form, rule } => {
            let fit = takes(subject, *version, *form, rule);
            Some(format!("W {}", u8::from(fit)))
        }
        Line::Decide { form, rule, state } => decided(subject, *form, rule, *state),
        _ => None,
    }
}

/// The decisions of a rule on cards of the first version that the subject's
/// maker takes it for. One that it takes for none is malformed, or of a length
/// that tells nothing.
fn decided(subject: &dyn Subject, form: u32, rule: &[u8], state: State) -> Option<String> {
    let taking = Version::ALL
        .into_iter()
        .find(|version| takes(subject, u32::from(version.number()), form, rule));
    let longest = Version::ALL.map(|version| Edition::of(version).longest_rule());
    let (Some(version), Some(form)) = (taking, rule::Form::from_number(form)) else {
        let length_fits = !rule.is_empty() && longest.iter().any(|&most| rule.len() <= most);
        let kept = || decided_kept(subject, form, rule, state);
        return if length_fits { Some(MALFORMED.to_string()) } else { kept() };
    };
    let rule = Rule { form, bytes: rule.to_vec() };
    let line = |right| line_of_right(Edition::of(version), right, &rule, state);
    Some(digits(subject, line))
}

/// The decisions of an expanded rule that is too long for a file's own record, in
/// one of a file that keeps it. It is well-formed if all of it is told to decide.
fn decided_kept(subject: &dyn Subject, form: u32, rule: &[u8], state: State) -> Option<String> {
    let expanded = u32::from(rule::Form::Expanded.number());
    if form != expanded || !(1..=LONGEST_KEPT).contains(&rule.len()) {
        return None;
    }
    match run(subject, &line_of_place(rule)) {
        Some(Outcome::Rule { numbers: [2, ..], rule: told, .. }) if told == rule => {
            Some(digits(subject, |right| line_of_kept(right, rule, state)))
        }
        _ => Some(MALFORMED.to_string()),
    }
}

/// What a subject decides by these lines.
fn digits(subject: &dyn Subject, line: impl Fn(Right) -> Line) -> String {
    let digits = Right::ALL.map(|right| match run(subject, &line(right)) {
        Some(Outcome::Command { told, .. }) => digit(told),
        _ => UNDECIDED,
    });
    format!("E {}", String::from_iter(digits))
}

/// The decision that a command's result tells: word and number together.
fn digit(told: Told) -> char {
    let Told { word, numbers: [_, security, _], .. } = told;
    match (is_success(word), word, security) {
        (true, _, 0) => '0',
        (_, SECURITY_NOT_SATISFIED, 1) => '1',
        (_, SECURITY_NOT_SATISFIED, 2) => '2',
        _ => UNDECIDED,
    }
}

/// Whether a subject's maker takes the rule for the root.
pub fn takes(subject: &dyn Subject, version: u32, form: u32, rule: &[u8]) -> bool {
    let made = run(subject, &make(version, form, rule));
    matches!(made, Some(Outcome::Make { answer: 0, .. }))
}

fn make(version: u32, form: u32, rule: &[u8]) -> Line {
    Line::Make { buffer: vec![0xA5; 16 + 64 * 2], version, total: 64, form, rule: rule.to_vec() }
}

fn line_of_right(edition: Edition, right: Right, rule: &Rule, state: State) -> Line {
    let (card, command) = asked_for(edition, right, rule);
    Line::command(&card.encode(), &pool_of(&card), &command, &[], state)
}

/// The same where the rule is kept in a file.
fn line_of_kept(right: Right, record: &[u8], state: State) -> Line {
    let (card, command) = asked_for(Edition::of(Version::Three), right, &Rule::referred(RULES, 1));
    let (card, pool) = keeping(card, record);
    Line::command(&card.encode(), &pool, &command, &[], state)
}

/// Where the rule of the root stands, which a file keeps.
fn line_of_place(record: &[u8]) -> Line {
    let referred = Rule::referred(RULES, 1);
    let (card, _) = asked_for(Edition::of(Version::Three), Right::Terminate, &referred);
    let (card, pool) = keeping(card, record);
    Line::Deciding { image: card.encode(), pool, slot: 0 }
}

/// The card with a file of one record more, and its pool.
fn keeping(mut card: Card, record: &[u8]) -> (Card, Vec<u8>) {
    let root = card.record(0).clone();
    let length = record.len() as u32;
    let size = root.size + 64 + length;
    let file = Record {
        kind: Kind::Ef,
        descriptor: 0x42,
        identifier: RULES,
        level: 1,
        record_length: length as u16,
        size: length,
        start: 1,
        form: rule::Form::Compact,
        rule: denying().bytes,
        ..root.clone()
    };
    card.records.resize(size.div_ceil(64) as usize + 1, Record::FREE);
    card.put(0, Record { size, ..root });
    card.put(2, file);
    let mut pool = pool_of(&card);
    let body = pool.get_mut(1..1 + record.len());
    body.into_iter().for_each(|body| body.copy_from_slice(record));
    (card, pool)
}

/// A card on which this rule alone decides on the right, and a command that asks it.
fn asked_for(edition: Edition, right: Right, rule: &Rule) -> (Card, Vec<u8>) {
    let denies = denying();
    let (root, child) = match right {
        Right::DeleteSelf => (&denies, rule),
        _ => (rule, &denies),
    };
    let mut card = card_with(edition, root, child);
    let command = match right {
        Right::DeleteSelf | Right::DeleteChild => delete(CHILD),
        Right::Terminate => bare(0xFE),
        Right::Activate => bare(0x44),
        Right::Deactivate => bare(0x04),
        Right::CreateDf => create(0x78),
        Right::CreateEf => create(0x41),
    };
    if right == Right::Activate {
        card.set_life_cycle(0, 0x04);
    }
    (card, command)
}

/// READ or UPDATE of a file with the rule.
fn line_of_body(edition: Edition, command: &[u8], rule: &Rule, state: State) -> Line {
    let mut card = card_with(edition, &denying(), rule);
    card.current_ef = Some(1);
    Line::command(&card.encode(), &pool_of(&card), command, &[0x00], state)
}

/// A rule without a right: it is closed to all, so that beside it the other rule
/// of DELETE decides, be it lacking or closed.
fn denying() -> Rule {
    Rule::compact(vec![0x00])
}

/// A pool of the right length.
fn pool_of(card: &Card) -> Vec<u8> {
    vec![0xC3; bodies::pool_length(card).unwrap_or(0)]
}

/// A root with one rule, in it an EF with another; the root is current.
fn card_with(edition: Edition, root_rule: &Rule, child_rule: &Rule) -> Card {
    let root = Record {
        kind: Kind::Df,
        descriptor: 0x38,
        life_cycle: 0x05,
        identifier: 0x3F00,
        size: 192,
        form: root_rule.form,
        rule: root_rule.bytes.clone(),
        ..Record::FREE
    };
    let child = Record {
        kind: Kind::Ef,
        descriptor: 0x41,
        identifier: CHILD,
        level: 1,
        size: 1,
        form: child_rule.form,
        rule: child_rule.bytes.clone(),
        ..root.clone()
    };
    let records = vec![root, child, Record::FREE, Record::FREE];
    Card { edition, current_df: 0, current_ef: None, records }
}

fn create(descriptor: u8) -> Vec<u8> {
    FileData::plain(descriptor, 0x6F08, 1).command()
}
