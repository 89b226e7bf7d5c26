//! Expanded access rules: 02, Ticket 3, with 003 clause 5.2.2. Groups, each an
//! AM_DO and one or more SC_DOs behind it; an SC_DO may be a template of further
//! ones. That a rule is not empty is asked of a record, as with compact rules.

use crate::objects::{self, Object};
use crate::rule::{Condition, Group};

/// The tags of an expanded rule's objects.
pub mod tags {
    /// AM_DO with an AM byte.
    pub const ACCESS_MODE: u8 = 0x80;
    /// SC_DO that always holds, without a value.
    pub const ALWAYS: u8 = 0x90;
    /// SC_DO that never holds, without a value.
    pub const NEVER: u8 = 0x97;
    /// SC_DO with an SC byte.
    pub const BYTE: u8 = 0x9E;
    /// Template of which one must hold.
    pub const ONE_OF: u8 = 0xA0;
    /// Template of which all must hold.
    pub const ALL_OF: u8 = 0xAF;
}

/// Most templates inside one another, the outermost counted.
pub const DEEPEST: usize = 4;
/// Fewest conditions directly in a template.
pub const FEWEST_CONDITIONS: usize = 2;

/// The groups of an expanded rule, or nothing if it is malformed.
pub fn groups(rule: &[u8]) -> Option<Vec<Group>> {
    let mut groups: Vec<Group> = Vec::new();
    for object in objects::all(rule)? {
        if object.tag == tags::ACCESS_MODE {
            groups.push(Group { rights: access_mode(object.value)?, conditions: Vec::new() });
        } else {
            groups.last_mut()?.conditions.push(condition(object, DEEPEST)?);
        }
    }
    groups.iter().all(|group| !group.conditions.is_empty()).then_some(groups)
}

/// One AM byte, b8 clear.
fn access_mode(value: &[u8]) -> Option<u8> {
    match value {
        &[am] if am & 0x80 == 0 => Some(am),
        _ => None,
    }
}

/// An SC_DO in which so many templates may stand inside one another.
fn condition(object: Object, deep: usize) -> Option<Condition> {
    match (object.tag, object.value) {
        (tags::ALWAYS, []) => Some(Condition::Always),
        (tags::NEVER, []) => Some(Condition::Never),
        (tags::BYTE, &[sc]) => Some(Condition::Byte(sc)),
        (tags::ONE_OF, value) => conditions(value, deep).map(Condition::OneOf),
        (tags::ALL_OF, value) => conditions(value, deep).map(Condition::AllOf),
        _ => None,
    }
}

/// The conditions in a template, itself one of the so many.
fn conditions(value: &[u8], deep: usize) -> Option<Vec<Condition>> {
    let deep = deep.checked_sub(1)?;
    let inside = objects::all(value)?.into_iter().map(|object| condition(object, deep));
    let inside: Vec<Condition> = inside.collect::<Option<_>>()?;
    (inside.len() >= FEWEST_CONDITIONS).then_some(inside)
}
