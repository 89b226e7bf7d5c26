//! A command that security refused (6982): the rules that it asked, and what
//! would open them. That it was refused, and whether anything opens it, the
//! card has told; here only the words for it are found, in the files' rules.

use card::{Card, Form, State};
use model::card::ROOT;
use model::ledger::announced;
use model::rule::Right;
use model::Card as Decoded;

use crate::fcp;
use crate::pieces::{READ_BINARY, READ_RECORD, UPDATE_BINARY, UPDATE_RECORD};
use crate::rule::{self, Need};
use crate::standing::{Origin, Standing};

/// More words of rules make no sentence.
const LONGEST: usize = 120;

/// A rule that a command asked.
struct Asked {
    /// The file whose rule it is.
    identifier: u16,
    form: Form,
    right: &'static str,
    need: Need,
    /// Where a reference leads.
    origin: Option<Origin>,
}

impl Asked {
    fn words(&self) -> String {
        format!("of {:04X}, {}: {}", self.identifier, self.right, self.need.words())
    }
}

/// Lines below the command's: each rule that it asked, one of which suffices, with
/// the record that keeps it or why there is none, and what is missing, if a part
/// of it is done.
pub fn below(command: &[u8], card: &Card, state: &State) -> String {
    let asked = asked(command, card);
    let mut lines = String::new();
    for (number, rule) in asked.iter().enumerate() {
        let or = if number == 0 { "" } else { "or " };
        lines += &fcp::folded_line(fcp::title(rule.form), &format!("{or}{}", rule.words()));
        lines.extend(rule.origin.as_ref().map(Origin::line));
    }
    let missing = missing(&asked, state);
    lines + &missing.map_or_else(String::new, |need| fcp::folded_line("missing", &need.words()))
}

/// The same as the end of a sentence. What is too long for one is left to
/// `uicc show`.
pub fn in_short(command: &[u8], card: &Card, state: &State) -> String {
    let asked = asked(command, card);
    let missing = missing(&asked, state);
    let missing = missing.map_or_else(String::new, |need| format!("; missing: {}", need.words()));
    let told = |tell: fn(&Asked) -> String, or: &str| {
        let clause = |rule: &Asked| rule.origin.as_ref().map_or_else(String::new, Origin::clause);
        let rules = asked.iter().map(|rule| tell(rule) + &clause(rule));
        rules.collect::<Vec<_>>().join(or)
    };
    let whose = |rule: &Asked| format!("of {:04X}, {}", rule.identifier, rule.right);
    // What a reference leads to is told in any case.
    match asked.iter().map(|rule| rule.words().len()).sum::<usize>() + missing.len() {
        0 => String::new(),
        1..=LONGEST => format!("; rule {}{missing}", told(Asked::words, "; or ")),
        _ => format!("; uicc show tells the long rule {}", told(whose, " or ")),
    }
}

/// What is still to be done, where that is less than the rules ask for.
fn missing(asked: &[Asked], state: &State) -> Option<Need> {
    let whole = Need::any(asked.iter().map(|rule| rule.need.clone()));
    let missing = whole.missing(state);
    (missing != whole).then_some(missing)
}

/// The rules that a command asks on a card. A sound card tells of each file which
/// rule decides, and it can be read, so that none is left out.
fn asked(command: &[u8], card: &Card) -> Vec<Asked> {
    let Some(decoded) = Decoded::decode(card.image()) else { return Vec::new() };
    let asked = |(slot, right): (usize, Right)| {
        let record = decoded.record(slot);
        let standing = Standing::of(card, &decoded, slot).ok()?;
        let right = right.bit();
        let need = standing.rule().map_or(Ok(Need::Never), |rule| rule::needed(rule, right));
        Some(Asked {
            identifier: record.identifier,
            form: rule::of_record(record).form,
            right: rule::owner(record).names(right).first().copied()?,
            need: need.ok()?,
            origin: standing.origin(),
        })
    };
    rights(command, &decoded).into_iter().filter_map(asked).collect()
}

/// Whose rule a command asks for which right: step J of each. A command that was
/// refused there has passed the steps before it.
fn rights(command: &[u8], card: &Decoded) -> Vec<(usize, Right)> {
    let directory = Some(card.current_df);
    let (slot, right) = match command {
        [_, 0xE0, ..] => {
            let makes_df = announced(command).is_some_and(|file| file.is_df);
            (directory, if makes_df { Right::CreateDf } else { Right::CreateEf })
        }
        [_, 0xE4, _, _, _, high, low, ..] => {
            let identifier = u16::from_be_bytes([*high, *low]);
            let is_meant = |slot: &usize| card.record(*slot).identifier == identifier;
            let child = card.children(card.current_df).find(is_meant);
            let own = child.map(|slot| (slot, Right::DeleteSelf));
            return own.into_iter().chain([(card.current_df, Right::DeleteChild)]).collect();
        }
        [_, 0x44, ..] => (card.current_ef.or(directory), Right::Activate),
        [_, 0x04, ..] => (card.current_ef.or(directory), Right::Deactivate),
        [_, 0xE8, ..] => (card.current_ef, Right::Terminate),
        [_, 0xE6, ..] => (directory, Right::Terminate),
        [_, 0xFE, ..] => (Some(ROOT), Right::Terminate),
        [_, READ_BINARY | READ_RECORD, ..] => (card.current_ef, Right::READ),
        [_, UPDATE_BINARY | UPDATE_RECORD, ..] => (card.current_ef, Right::UPDATE),
        _ => return Vec::new(),
    };
    slot.into_iter().map(|slot| (slot, right)).collect()
}

#[cfg(test)]
mod tests;
