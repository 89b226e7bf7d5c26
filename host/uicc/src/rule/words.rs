//! A rule turned round: for each right what suffices for it, rights that need
//! the same together. A right that no group names has nothing that suffices.

use card::{Form, Rule};

use super::need::Need;
use super::{bits, groups, Group, Malformed, Reference};

/// What a rule belongs to: b3 to b1 of the AM byte mean something else in a
/// directory and in a file with a body.
#[derive(Clone, Copy, PartialEq, Eq, Hash, Debug)]
pub enum Owner {
    Directory,
    File,
}

/// Every right.
pub const ALL_RIGHTS: u8 = 0x7F;

/// The rights by their bits, b7 to b1.
const IN_DIRECTORY: [&str; 7] =
    ["DELETE", "TERMINATE", "ACTIVATE", "DEACTIVATE", "CREATE DF", "CREATE EF", "DELETE CHILD"];
const IN_FILE: [&str; 7] =
    ["DELETE", "TERMINATE", "ACTIVATE", "DEACTIVATE", "WRITE", "UPDATE", "READ"];

impl Owner {
    pub fn plural(self) -> &'static str {
        match self {
            Owner::Directory => "directories",
            Owner::File => "files",
        }
    }

    /// The names of some rights.
    pub fn names(self, rights: u8) -> Vec<&'static str> {
        let names = match self {
            Owner::Directory => IN_DIRECTORY,
            Owner::File => IN_FILE,
        };
        let named = bits(ALL_RIGHTS).zip(names).filter(|(bit, _)| rights & bit != 0);
        named.map(|(_, name)| name).collect()
    }
}

/// The whole rule: all seven rights, with what they need, a sentence for rights
/// that need the same; of a reference what it names.
pub fn words(rule: Rule, owner: Owner) -> Result<Vec<String>, Malformed> {
    if rule.form == Form::Referred {
        return Ok(vec![Reference::read(rule.bytes)?.words()]);
    }
    let groups = groups(rule)?;
    let mut parts: Vec<(Need, u8)> = Vec::new();
    for right in bits(ALL_RIGHTS) {
        let need = need(&groups, right);
        match parts.iter_mut().find(|(other, _)| *other == need) {
            Some((_, rights)) => *rights |= right,
            None => parts.push((need, right)),
        }
    }
    let part = |(need, rights): &(Need, u8)| {
        format!("{}: {}", owner.names(*rights).join(", "), need.words())
    };
    Ok(parts.iter().map(part).collect())
}

/// What suffices for a right, a bit of an AM byte, by a rule that is no reference.
pub fn needed(rule: Rule, right: u8) -> Result<Need, Malformed> {
    Ok(need(&groups(rule)?, right))
}

/// What suffices for a right.
fn need(groups: &[Group], right: u8) -> Need {
    let grants = groups.iter().flat_map(|group| &group.grants);
    Need::any(
        grants.filter(|grant| grant.rights & right != 0).map(|grant| Need::of(&grant.condition)),
    )
}
