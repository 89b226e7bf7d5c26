//! Data objects, tag and length of one byte each and a value: 01, "CREATE"
//! (the objects of a template); 02, Ticket 3 (those of an expanded rule).

use crate::bytes::{part, rest};

/// Largest length that one byte tells.
pub const LONGEST_VALUE: u8 = 0x7F;

/// One object.
#[derive(Clone, Copy, PartialEq, Eq, Debug)]
pub struct Object<'a> {
    /// The tag.
    pub tag: u8,
    /// The value.
    pub value: &'a [u8],
}

/// The objects that fill the bytes; nothing if one is not whole.
pub fn all(bytes: &[u8]) -> Option<Vec<Object<'_>>> {
    let mut objects = Vec::new();
    let mut left = bytes;
    while !left.is_empty() {
        let (object, after) = first(left)?;
        objects.push(object);
        left = after;
    }
    Some(objects)
}

/// Tag, length of one byte 00-7F, value; and what follows.
pub fn first(bytes: &[u8]) -> Option<(Object<'_>, &[u8])> {
    let tag = *bytes.first()?;
    let length = *bytes.get(1)?;
    if length > LONGEST_VALUE {
        return None;
    }
    let length = usize::from(length);
    let value = part(bytes, 2, length)?;
    Some((Object { tag, value }, rest(bytes, 2 + length)))
}
