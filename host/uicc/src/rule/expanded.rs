//! Expanded rules, the value of an object AB.

use super::{Condition, Grant, Group, Malformed, Sort};
use crate::describe::bytes;

pub const AM: u8 = 0x80;
pub const ALWAYS: u8 = 0x90;
pub const NEVER: u8 = 0x97;
pub const BYTE: u8 = 0x9E;
pub const ONE_OF: u8 = 0xA0;
pub const ALL_OF: u8 = 0xAF;

/// So many templates may stand inside one another, the outermost counted.
const DEEPEST: usize = 4;
/// The conditions by their tags, for people.
const CONDITIONS: &str = "90, 97, 9E, A0 or AF";

/// A data object at its place.
struct Object<'a> {
    at: usize,
    tag: u8,
    value: &'a [u8],
}

/// Bytes that are read object by object; places count from the rule's start.
struct Reader<'a> {
    at: usize,
    left: &'a [u8],
}

impl<'a> Reader<'a> {
    /// The next object, if any byte is left.
    fn next(&mut self) -> Result<Option<Object<'a>>, Malformed> {
        let at = self.at;
        let (tag, length, rest) = match self.left {
            [] => return Ok(None),
            [tag] => {
                return Err(Malformed::new(
                    at,
                    format!("behind the tag {tag:02X} a length is missing"),
                ))
            }
            [tag, length, rest @ ..] => (*tag, *length, rest),
        };
        if length > 0x7F {
            let why = format!("the length {length:02X} of object {tag:02X} is over 7F");
            return Err(Malformed::new(at, why));
        }
        let Some((value, after)) = rest.split_at_checked(usize::from(length)) else {
            let (said, left) = (bytes(usize::from(length)), rest.len());
            let why = format!("object {tag:02X} says that it has {said}: {left} follow");
            return Err(Malformed::new(at, why));
        };
        self.at += 2 + value.len();
        self.left = after;
        Ok(Some(Object { at, tag, value }))
    }
}

/// The groups that fill a rule: an AM object, and one condition or more.
pub fn groups(rule: &[u8]) -> Result<Vec<Group>, Malformed> {
    let mut reader = Reader { at: 0, left: rule };
    let mut groups: Vec<Group> = Vec::new();
    while let Some(object) = reader.next()? {
        let group = match groups.last_mut() {
            _ if object.tag == AM => {
                groups.last().map_or(Ok(()), has_a_condition)?;
                groups.push(Group { at: object.at, rights: rights(&object)?, grants: Vec::new() });
                continue;
            }
            Some(group) => group,
            None => {
                let why = format!("a rule begins with object 80, not {:02X}", object.tag);
                return Err(Malformed::new(object.at, why));
            }
        };
        let condition = condition(&object, DEEPEST)?;
        group.grants.push(Grant { rights: group.rights, condition });
    }
    groups.last().map_or(Ok(()), has_a_condition)?;
    Ok(groups)
}

fn has_a_condition(group: &Group) -> Result<(), Malformed> {
    match group.grants.is_empty() {
        true => {
            let why = format!("behind object 80 stands no condition: {CONDITIONS} is wanted");
            Err(Malformed::new(group.at, why))
        }
        false => Ok(()),
    }
}

fn rights(object: &Object) -> Result<u8, Malformed> {
    let &[rights] = object.value else {
        return Err(wrong_length(object, 1));
    };
    if rights & 0x80 != 0 {
        let why = format!("the AM byte {rights:02X} of object 80 has b8 set");
        return Err(Malformed::new(object.at, why));
    }
    Ok(rights)
}

/// A condition that may have so many templates from itself inwards.
fn condition(object: &Object, depth: usize) -> Result<Condition, Malformed> {
    let sort = match (object.tag, object.value) {
        (ALWAYS, []) => Sort::Always,
        (NEVER, []) => Sort::Never,
        (BYTE, &[byte]) => Sort::Byte(byte),
        (ALWAYS | NEVER, _) => return Err(wrong_length(object, 0)),
        (BYTE, _) => return Err(wrong_length(object, 1)),
        (ONE_OF, _) => Sort::OneOf(inside(object, depth)?),
        (ALL_OF, _) => Sort::AllOf(inside(object, depth)?),
        (tag, _) => {
            let why = format!("object {tag:02X} is no condition: {CONDITIONS} is wanted");
            return Err(Malformed::new(object.at, why));
        }
    };
    Ok(Condition { at: object.at, sort })
}

/// The conditions in a template.
fn inside(template: &Object, depth: usize) -> Result<Vec<Condition>, Malformed> {
    let Object { at, tag, value } = *template;
    let Some(depth) = depth.checked_sub(1) else {
        let why = format!("object {tag:02X} stands inside {DEEPEST} others: no more may");
        return Err(Malformed::new(at, why));
    };
    let mut reader = Reader { at: at + 2, left: value };
    let mut conditions = Vec::new();
    let here = |wrong: Malformed| wrong.inside(at, tag);
    while let Some(object) = reader.next().map_err(here)? {
        conditions.push(condition(&object, depth).map_err(here)?);
    }
    let few = match conditions.len() {
        0 => "no",
        1 => "one",
        _ => return Ok(conditions),
    };
    let why = format!("object {tag:02X} holds {few} condition: at least two are wanted");
    Err(Malformed::new(at, why))
}

fn wrong_length(object: &Object, wanted: usize) -> Malformed {
    let Object { at, tag, value } = object;
    let (wanted, found) = (bytes(wanted), value.len());
    Malformed::new(*at, format!("object {tag:02X} must have {wanted}, not {found}"))
}
