//! Access rules for people: read from hex, told in words, and what is wrong
//! with one that is malformed.
//!
//! Two forms are groups, which are alternatives: an AM byte names rights, and
//! conditions follow. In a compact rule each right has an SC byte of its own;
//! in an expanded one each condition serves for all rights of its group. The
//! third form is a reference to a record that holds an expanded rule; which one
//! that is on a card, `standing` tells.

mod compact;
mod expanded;
mod explain;
mod folded;
mod need;
mod reference;
mod words;
mod written;

pub use explain::{explain, takers};
pub use folded::folded;
pub use need::Need;
pub use reference::Reference;
pub use words::{needed, words, Owner};
pub use written::{object, read, Written};

use card::{Form, Rule};
use model::Record;

/// An AM byte with what it asks for.
#[derive(Clone, PartialEq, Eq, Debug)]
pub struct Group {
    /// Its place in the rule, from 0.
    pub at: usize,
    pub rights: u8,
    pub grants: Vec<Grant>,
}

/// A condition and the rights that it suffices for, as bits of an AM byte.
#[derive(Clone, PartialEq, Eq, Debug)]
pub struct Grant {
    pub rights: u8,
    pub condition: Condition,
}

/// A condition at its place.
#[derive(Clone, PartialEq, Eq, Debug)]
pub struct Condition {
    pub at: usize,
    pub sort: Sort,
}

#[derive(Clone, PartialEq, Eq, Debug)]
pub enum Sort {
    Always,
    Never,
    /// An SC byte.
    Byte(u8),
    OneOf(Vec<Condition>),
    AllOf(Vec<Condition>),
}

/// Why a rule is malformed, and where: the place in the rule, from 0, of the
/// byte or object that is wrong, and of the object around it with its tag.
#[derive(Clone, PartialEq, Eq, Debug)]
pub struct Malformed {
    at: usize,
    around: Option<(usize, u8)>,
    why: String,
}

impl Malformed {
    fn new(at: usize, why: impl Into<String>) -> Malformed {
        Malformed { at, around: None, why: why.into() }
    }

    /// The same inside an object, unless it is told of one further in.
    fn inside(self, at: usize, tag: u8) -> Malformed {
        Malformed { around: self.around.or(Some((at, tag))), ..self }
    }

    /// Why, without the place.
    pub fn why(&self) -> &str {
        &self.why
    }

    /// The same for people, where a rule of so many bytes stands behind
    /// `before` others. Places count from 1.
    pub fn tell(&self, before: usize, length: usize) -> String {
        let place = |at: usize| before + at + 1;
        let around = match self.around {
            Some((at, tag)) => format!(" (in object {tag:02X} of byte {})", place(at)),
            None => String::new(),
        };
        format!("byte {} of {}{around}: {}", place(self.at), before + length, self.why)
    }
}

/// The rule of a record.
pub fn of_record(record: &Record) -> Rule<'_> {
    let form = match record.form {
        model::rule::Form::Compact => Form::Compact,
        model::rule::Form::Expanded => Form::Expanded,
        model::rule::Form::Referred => Form::Referred,
    };
    Rule { form, bytes: &record.rule }
}

/// What the rule of a record belongs to.
pub fn owner(record: &Record) -> Owner {
    if record.is_df() {
        Owner::Directory
    } else {
        Owner::File
    }
}

/// The groups of a rule of any length, if it is well formed. A reference has
/// none of its own.
pub fn groups(rule: Rule) -> Result<Vec<Group>, Malformed> {
    match rule.form {
        Form::Compact => compact::groups(rule.bytes),
        Form::Expanded => expanded::groups(rule.bytes),
        Form::Referred => {
            Reference::read(rule.bytes)?;
            Err(Malformed::new(0, "a reference has no groups: the record that it names has"))
        }
    }
}

/// What is wrong with a rule of any length, if anything is.
pub fn malformed(rule: Rule) -> Option<Malformed> {
    match rule.form {
        Form::Compact | Form::Expanded => groups(rule).err(),
        Form::Referred => Reference::read(rule.bytes).err(),
    }
}

/// The bits of an AM byte, b7 first.
pub fn bits(rights: u8) -> impl Iterator<Item = u8> {
    (0..7).rev().map(|place| 1 << place).filter(move |bit| rights & bit != 0)
}

#[cfg(test)]
pub mod tests;
