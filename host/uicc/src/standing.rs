//! Which rule decides on a file of a card, and where it stands: in the file's
//! own record, or in the record of a rule file that its reference (8B) names.
//!
//! Where it stands the proved card tells. Only why a search found no rule is
//! looked for here, by the model's search; the tests compare both.

mod denial;

pub use denial::{Denial, Reason};

use card::{Card, Place, Rule};
use model::card::ROOT;
use model::{bodies, Card as Decoded};

use crate::fcp;
use crate::rule::{self, Reference};

/// Of a longer way only the ends are told.
const LONGEST_WAY: usize = 8;

/// The rule that decides on a file, or why none does.
#[derive(Clone, PartialEq, Eq, Hash, Debug)]
pub enum Standing<'a> {
    /// In its own record.
    Own(Rule<'a>),
    /// In a record of a rule file.
    Kept(Found, u8, Rule<'a>),
    /// The search denies.
    Denied(Denial),
}

/// The file that a reference names to another one.
#[derive(Clone, PartialEq, Eq, Hash, Debug)]
pub struct Found {
    /// Its slot.
    pub slot: usize,
    /// Its identifier and its directory, and how far up that is.
    pub words: String,
}

impl Found {
    /// The file in a slot as it is found from another one.
    fn new(card: &Decoded, slot: usize, ruled: usize) -> Found {
        let (identifier, directory) = (card.record(slot).identifier, card.parent(slot));
        let levels = |slot| usize::from(card.record(slot).level);
        let up = levels(card.parent(ruled)).saturating_sub(levels(directory));
        let far = match up {
            0 if ruled == ROOT => "in it".to_string(),
            0 => "beside it".to_string(),
            1 => "1 directory up".to_string(),
            _ => format!("{up} directories up"),
        };
        let words = format!("{identifier:04X} in {}, found {far}", way(card, directory));
        Found { slot, words }
    }
}

/// The directories from the root down to one.
fn way(card: &Decoded, directory: usize) -> String {
    let mut slots = card.above(directory);
    slots.reverse();
    slots.push(directory);
    let name = |slot: &usize| format!("{:04X}", card.record(*slot).identifier);
    let mut names: Vec<_> = slots.iter().map(name).collect();
    if names.len() > LONGEST_WAY {
        names.splice(2..names.len() - 2, ["..".to_string()]);
    }
    names.join("/")
}

impl<'a> Standing<'a> {
    /// Of the file in a slot of a card, whose image is decoded already.
    pub fn of(card: &'a Card, decoded: &'a Decoded, slot: usize) -> Result<Standing<'a>, String> {
        let place = card.rule_place(slot).map_err(|error| error.to_string())?;
        let bytes = place.bytes(card.image(), card.pool());
        let own = rule::of_record(decoded.record(slot));
        match place {
            Place::InImage { .. } => Ok(Standing::Own(Rule { form: own.form, bytes })),
            Place::InPool { from, .. } => {
                let holds = |file: &usize| {
                    let record = decoded.record(*file);
                    bodies::has_body(decoded, record) && bodies::body(record).contains(&from)
                };
                let file = decoded.used_slots().find(holds);
                let file = file.ok_or("a rule stands in the body of no file")?;
                let named = Reference::read(own.bytes).map_err(|wrong| wrong.why().to_string())?;
                let found = Found::new(decoded, file, slot);
                Ok(Standing::Kept(found, named.number, Rule::expanded(bytes)))
            }
            Place::Nowhere => Denial::of(decoded, card.pool(), slot)
                .map(Standing::Denied)
                .ok_or_else(|| "no reason is found why a rule denies".to_string()),
        }
    }

    /// The rule that decides; nothing where all is denied.
    pub fn rule(&self) -> Option<Rule<'a>> {
        match self {
            Standing::Own(rule) | Standing::Kept(_, _, rule) => Some(*rule),
            Standing::Denied(_) => None,
        }
    }

    /// Where a reference leads; nothing for a file's own rule.
    pub fn origin(&self) -> Option<Origin> {
        match self {
            Standing::Own(_) => None,
            Standing::Kept(found, number, _) => {
                Some(Origin::Record(format!("record {number} of {}", found.words)))
            }
            Standing::Denied(denial) => Some(Origin::Nowhere(denial.words.clone())),
        }
    }
}

/// Where a reference leads, in words.
pub enum Origin {
    /// To this record.
    Record(String),
    /// To no rule, for this reason.
    Nowhere(String),
}

impl Origin {
    /// As a line below a command's.
    pub fn line(&self) -> String {
        match self {
            Origin::Record(words) => fcp::folded_line("kept in", words),
            Origin::Nowhere(why) => fcp::folded_line("denies", why),
        }
    }

    /// As the end of a sentence about the rule.
    pub fn clause(&self) -> String {
        match self {
            Origin::Record(words) => format!(", kept in {words}"),
            Origin::Nowhere(why) => format!(", since {why}"),
        }
    }
}

/// Lines below a SELECT's that answered a template with a reference: where it
/// leads, and what the rule there allows. The file is the current one.
pub fn below(card: &Card) -> String {
    let Some(decoded) = Decoded::decode(card.image()) else { return String::new() };
    let slot = decoded.current_ef.unwrap_or(decoded.current_df);
    let Ok(standing) = Standing::of(card, &decoded, slot) else { return String::new() };
    let Some(origin) = standing.origin() else { return String::new() };
    let allows = |rule| {
        let parts = rule::words(rule, rule::owner(decoded.record(slot))).unwrap_or_default();
        fcp::folded_line("allows", &parts.join("; "))
    };
    origin.line() + &standing.rule().map_or_else(String::new, allows)
}

#[cfg(test)]
pub mod tests;
