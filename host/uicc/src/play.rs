//! Plays the commands of a script on a card.

use std::path::Path;

use card::{Card, State, Word};

use crate::arguments::Fresh;
use crate::pieces::{READ_BINARY, READ_RECORD};
use crate::script::Step;
use crate::{describe, dump, fcp, hint, meaning, refusal, standing, store, Done};

/// What only a CREATE is answered.
const WRONG_DATA: Word = Word(0x6A80);
/// The column of the commands' names is at least so wide.
const NARROWEST: usize = 20;

/// Plays on a fresh card, which is not kept.
pub fn on_fresh(card: &Card, fresh: &Fresh, steps: &[Step], state: &State) -> Result<Done, String> {
    let mut card = card.clone();
    let told = play(&mut card, steps, state)?;
    Ok(Done::told(format!("{}\n{told}", fresh.describe())))
}

/// Plays on the card of an image file and saves it; the file is locked from
/// the first look at it until it is saved. Nothing is told before the image
/// is safe.
pub fn on_image(image: &Path, steps: &[Step], state: &State) -> Result<Done, String> {
    let (held, mut card) = store::open(image)?;
    let before = card.clone();
    let told = play(&mut card, steps, state)?;
    let name = image.display();
    if card == before {
        return Ok(Done::told(format!("{name}\n{told}{name} is as it was\n")));
    }
    store::save(image, held, &card)?;
    Ok(Done::saved(format!("{name}\n{told}{name} saved\n"), image))
}

/// A line for each command, below it what it answered, what is wrong with a rule
/// or what would open it, and at the end the current directory.
fn play(card: &mut Card, steps: &[Step], state: &State) -> Result<String, String> {
    let names: Vec<_> = steps.iter().map(|step| describe::command(&step.command)).collect();
    let width = names.iter().map(String::len).max().unwrap_or(0).max(NARROWEST);
    let mut told = String::new();
    for (Step { line, command }, name) in steps.iter().zip(names) {
        let reply = card.command(command, state);
        let reply = reply.map_err(|error| format!("line {line}, {name}: {error}"))?;
        let (word, meaning) = (reply.word, meaning::of(command, &reply, card.kind()));
        told += &format!("{line:>4}  {name:<width$}  {word}  {meaning}\n");
        told += &answered(command, &reply.data, card);
        if word == WRONG_DATA {
            let hint = hint::of_rule(command, card.kind());
            told += &hint.map_or_else(String::new, |(title, why)| fcp::line(title, &why));
        } else if word == Word::SECURITY {
            told += &refusal::below(command, card, state);
        }
    }
    let report = card.report().map_err(|error| error.to_string())?;
    let files = if report.children == 1 { "file" } else { "files" };
    told += &format!(
        "current directory: total {}, room {}, {} {files} in it, {} beneath it\n",
        report.total, report.room, report.children, report.beneath
    );
    Ok(told)
}

/// The data of a command, in lines below its own: what READ read, from its start
/// in the file or in the record on, else the template of the file that is current
/// now, with the rule that a reference in it leads to.
fn answered(command: &[u8], data: &[u8], card: &Card) -> String {
    match command {
        _ if data.is_empty() => String::new(),
        [_, READ_BINARY, high, low, ..] => {
            dump::below(data, usize::from(u16::from_be_bytes([*high, *low])))
        }
        [_, READ_RECORD, ..] => dump::below(data, 0),
        _ => fcp::told(data) + &standing::below(card),
    }
}
