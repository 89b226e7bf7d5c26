//! One rule by itself: which cards take it, byte by byte, and what it allows.

use card::{Card, Form, Kind, Rule, FEWEST_SLOTS};

use super::need::Need;
use super::{folded, groups, read, words, Condition, Malformed, Owner, Reference, Sort};
use crate::{describe, hex};

/// No record of a file is longer.
const LONGEST_RECORD: usize = 255;

/// A line of the list: the place of its bytes, how many they are, how deep it
/// stands, and what they say.
struct Line {
    at: usize,
    length: usize,
    depth: usize,
    words: String,
}

/// A rule as it is written, explained; or why no card takes it. Which cards do
/// is asked of the proved card.
pub fn explain(bytes: &[u8]) -> Result<String, String> {
    let written = read(bytes)?;
    let rule = written.rule();
    let (form, length) = (describe::form(rule.form), describe::bytes(rule.bytes.len()));
    if let Some(wrong) = written.malformed() {
        return Err(format!("this {form} is malformed: {wrong}"));
    }
    let versions: Vec<_> = takers(rule).map(|kind| kind.version.to_string()).collect();
    let versions = describe::list(&versions, "and");
    let places = match rule.form {
        _ if !versions.is_empty() => format!("for cards of version {versions}"),
        Form::Expanded if (1..=LONGEST_RECORD).contains(&rule.bytes.len()) => {
            "for a record to which rules refer (8B), on cards of version 3".to_string()
        }
        _ => {
            let most = Kind::ALL.iter().filter_map(|kind| kind.longest_rule(rule.form)).max();
            let most = most.unwrap_or_default();
            return Err(format!("this {form} has {length}: a card takes 1 to {most}"));
        }
    };
    let told = match rule.form {
        Form::Compact | Form::Expanded => told(rule, written.before()),
        Form::Referred => {
            Reference::read(rule.bytes).map(|named| referred(named, written.before()))
        }
    };
    let told = told.map_err(|wrong| wrong.tell(0, rule.bytes.len()))?;
    Ok(format!("{form} of {length}, {places}\n{told}"))
}

/// A reference in its two parts, and how the rule is found.
fn referred(reference: Reference, before: usize) -> String {
    let Reference { identifier, number } = reference;
    let warning = match number {
        0 => "records count from 1, so that this rule allows nothing\n",
        _ => "",
    };
    format!(
        "{:>4}  {identifier:04X}    the file that keeps the rule\n\
         {:>4}  {number:02X}      the number of its record\n\
         {warning}\
         the rule is what record {number} of {identifier:04X} holds when a command comes: an \
         expanded rule, and FF behind it;\n  \
         {identifier:04X} is the nearest file of this identifier, from the directory that holds the \
         ruled file up;\n  \
         where there is none, or it is not linear fixed, is the ruled file itself or has no such \
         record or rule,\n  \
         nothing is allowed; uicc show tells what is found on a card\n",
        before + 1,
        before + 3,
    )
}

/// The kinds of cards that take a rule.
pub fn takers(rule: Rule<'_>) -> impl Iterator<Item = Kind> + '_ {
    let is_taken = move |kind: &Kind| Card::make(FEWEST_SLOTS, *kind, 1, rule).is_ok();
    Kind::ALL.into_iter().filter(is_taken)
}

/// The rule's objects or bytes, a line each, then what it allows in a directory
/// and in a file. `before` bytes stand before the rule; places count from 1.
fn told(rule: Rule, before: usize) -> Result<String, Malformed> {
    let mut told = String::new();
    for Line { at, length, depth, words } in lines(rule)? {
        let bytes = hex::row(rule.bytes.get(at..at + length).unwrap_or_default());
        let (place, indent) = (before + at + 1, 2 * depth);
        told += &format!("{place:>4}  {bytes:<6}  {:indent$}{words}\n", "");
    }
    for (owner, title) in [(Owner::Directory, "a directory"), (Owner::File, "a file with a body")] {
        told += &format!("in {title}:\n");
        for part in words(rule, owner)? {
            told += &format!("  {}\n", folded(&part, 2));
        }
    }
    Ok(told)
}

fn lines(rule: Rule) -> Result<Vec<Line>, Malformed> {
    // An AM or SC byte stands alone, or behind tag and length.
    let compact = rule.form == Form::Compact;
    let byte_length = if compact { 1 } else { 3 };
    let mut lines = Vec::new();
    for group in groups(rule)? {
        let words = rights(group.rights);
        lines.push(Line { at: group.at, length: byte_length, depth: 0, words });
        for (number, grant) in group.grants.iter().enumerate() {
            let before = match number {
                _ if compact => format!("{}: ", rights(grant.rights)),
                0 => String::new(),
                _ => "or ".to_string(),
            };
            push(&mut lines, &grant.condition, byte_length, 1, &before);
        }
    }
    Ok(lines)
}

/// A condition, and what stands inside it.
fn push(
    lines: &mut Vec<Line>,
    condition: &Condition,
    byte_length: usize,
    depth: usize,
    before: &str,
) {
    let (length, words, inside) = match &condition.sort {
        Sort::OneOf(inside) => (2, "one of".to_string(), inside.as_slice()),
        Sort::AllOf(inside) => (2, "all of".to_string(), inside.as_slice()),
        Sort::Byte(byte) => (byte_length, Need::of_byte(*byte).words(), &[][..]),
        Sort::Always | Sort::Never => (2, Need::of(condition).words(), &[][..]),
    };
    lines.push(Line { at: condition.at, length, depth, words: format!("{before}{words}") });
    for condition in inside {
        push(lines, condition, byte_length, depth + 1, "");
    }
}

/// Rights by their names, those of a file apart where they differ.
fn rights(rights: u8) -> String {
    let [directory, file] = [Owner::Directory, Owner::File].map(|owner| owner.names(rights));
    let differ: Vec<_> = file.into_iter().filter(|name| !directory.contains(name)).collect();
    match (directory.is_empty(), differ.is_empty()) {
        (true, _) => "no right".to_string(),
        (_, true) => directory.join(", "),
        _ => format!("{} (file: {})", directory.join(", "), differ.join(", ")),
    }
}
