//! Access rules, whatever their form: what they can allow, and how one
//! decides. How the first two forms are written stands in [`compact`] and
//! [`expanded`]; both are read into the same groups. A referred rule has no
//! groups of its own: [`crate::deciding`] tells which rule decides for it.

use crate::decision::Decision;
use crate::edition::Edition;
use crate::security::{self, State};
use crate::{compact, expanded};

/// What a rule can allow, with the number of its AM bit (b7 to b1). The last
/// three are a directory's; an EF has [`Right::UPDATE`] and [`Right::READ`] in
/// the last two bits.
#[derive(Clone, Copy, PartialEq, Eq, Debug)]
pub enum Right {
    /// Delete the file itself.
    DeleteSelf = 7,
    /// Terminate the file.
    Terminate = 6,
    /// Activate the file.
    Activate = 5,
    /// Deactivate the file.
    Deactivate = 4,
    /// Create a DF in the directory.
    CreateDf = 3,
    /// Create an EF in the directory.
    CreateEf = 2,
    /// Delete a child of the directory.
    DeleteChild = 1,
}

impl Right {
    /// Update the body of an EF: b2.
    pub const UPDATE: Right = Right::CreateEf;
    /// Read the body of an EF: b1.
    pub const READ: Right = Right::DeleteChild;

    /// All seven, highest bit first.
    pub const ALL: [Right; 7] = [
        Right::DeleteSelf,
        Right::Terminate,
        Right::Activate,
        Right::Deactivate,
        Right::CreateDf,
        Right::CreateEf,
        Right::DeleteChild,
    ];

    /// Its bit alone, as an AM byte has it.
    pub fn bit(self) -> u8 {
        1 << (self as u8 - 1)
    }
}

/// How a rule is written, record byte 3.
#[derive(Clone, Copy, PartialEq, Eq, Debug)]
pub enum Form {
    /// AM bytes and SC bytes, tag 8C.
    Compact,
    /// Data objects, tag AB.
    Expanded,
    /// Identifier and record number of a rule kept in a file, tag 8B.
    Referred,
}

impl Form {
    /// All forms.
    pub const ALL: [Form; 3] = [Form::Compact, Form::Expanded, Form::Referred];

    /// Those of rules that decide by themselves.
    pub const DECIDING: [Form; 2] = [Form::Compact, Form::Expanded];

    /// The number in record byte 3, in the maker's call and in the vectors.
    pub fn number(self) -> u8 {
        match self {
            Form::Compact => 0,
            Form::Expanded => 1,
            Form::Referred => 2,
        }
    }

    /// The form of a number.
    pub fn from_number(number: u32) -> Option<Form> {
        Form::ALL.into_iter().find(|form| u32::from(form.number()) == number)
    }
}

/// What must hold before a right is granted.
#[derive(Clone, PartialEq, Eq, Debug)]
pub enum Condition {
    /// Holds always.
    Always,
    /// Holds never.
    Never,
    /// An SC byte.
    Byte(u8),
    /// One of these must hold.
    OneOf(Vec<Condition>),
    /// All of these must hold.
    AllOf(Vec<Condition>),
}

impl Condition {
    /// What it decides under a state. Reading lets conditions nest only a few
    /// deep, and so deep this goes.
    pub fn decide(&self, state: &State) -> Decision {
        let each = |inside: &[Condition]| -> Vec<Decision> {
            inside.iter().map(|one| one.decide(state)).collect()
        };
        match self {
            Condition::Always => Decision::Granted,
            Condition::Never => Decision::Closed,
            Condition::Byte(sc) => security::condition(*sc, state),
            Condition::OneOf(inside) => Decision::of_alternatives(each(inside)),
            Condition::AllOf(inside) => Decision::of_all_together(each(inside)),
        }
    }
}

/// Rights, and conditions of which one suffices for each of them.
#[derive(Clone, PartialEq, Eq, Debug)]
pub struct Group {
    /// An AM byte, b8 clear: the rights by their bits.
    pub rights: u8,
    /// The conditions.
    pub conditions: Vec<Condition>,
}

impl Group {
    /// What it decides on a right; one that it does not name it never opens.
    fn decide(&self, right: Right, state: &State) -> Decision {
        if self.rights & right.bit() == 0 {
            return Decision::Closed;
        }
        Decision::of_alternatives(self.conditions.iter().map(|one| one.decide(state)))
    }
}

/// Bytes of a referred rule.
pub const REFERENCE_BYTES: usize = 3;

/// The groups of a rule of any length, or nothing if it is malformed or a
/// referred one, whose bytes are not judged.
pub fn groups(form: Form, rule: &[u8]) -> Option<Vec<Group>> {
    match form {
        Form::Compact => compact::groups(rule),
        Form::Expanded => expanded::groups(rule),
        Form::Referred => None,
    }
}

/// Whether a rule of this form may stand in a record of this edition: a form
/// that the edition takes, not empty, not too long, well formed.
pub fn fit(edition: Edition, form: Form, rule: &[u8]) -> bool {
    edition.takes(form)
        && (1..=edition.longest_rule()).contains(&rule.len())
        && well_formed(form, rule)
}

/// Whether a rule, of any length, is written as its form asks. Of a reference only the length
/// is asked: whether it leads to a rule is seen when a command comes.
pub fn well_formed(form: Form, rule: &[u8]) -> bool {
    match form {
        Form::Compact | Form::Expanded => groups(form, rule).is_some(),
        Form::Referred => rule.len() == REFERENCE_BYTES,
    }
}

/// What the rule, of any length, decides on the right: one group suffices; a
/// right that no group names, a malformed rule, and a reference by itself are
/// closed.
pub fn decide(form: Form, rule: &[u8], right: Right, state: &State) -> Decision {
    let groups = groups(form, rule).unwrap_or_default();
    Decision::of_alternatives(groups.iter().map(|group| group.decide(right, state)))
}
