//! A rule as people write it: a data object with tag and length, or the bare
//! value.
//!
//! The first byte tells which, so that nothing is read in two ways: an AM byte
//! is below 80, so a bare compact rule begins below 80; a bare expanded one
//! begins with the tag 80; an object begins with 8C, AB or 8B. A reference is
//! always written as an object, since its bytes are a file's identifier.

use card::{Form, Rule};

use crate::hex;

/// A rule whose form is known. It may be malformed.
#[derive(Clone, PartialEq, Eq, Debug)]
pub struct Written {
    form: Form,
    bytes: Vec<u8>,
    /// How many bytes were written before it: tag and length, or none.
    before: usize,
}

impl Written {
    pub fn bare(form: Form, bytes: Vec<u8>) -> Written {
        Written { form, bytes, before: 0 }
    }

    pub fn rule(&self) -> Rule<'_> {
        Rule { form: self.form, bytes: &self.bytes }
    }

    pub fn before(&self) -> usize {
        self.before
    }

    /// Why it is malformed, if it is, with the place in what was written.
    pub fn malformed(&self) -> Option<String> {
        let wrong = super::malformed(self.rule())?;
        let (before, length) = (self.before, self.bytes.len());
        Some(match self.form {
            Form::Compact | Form::Expanded => wrong.tell(before, length),
            // Its length is wrong, the byte before it.
            Form::Referred => format!("byte {before} of {}: {}", before + length, wrong.why()),
        })
    }

    /// As it is written again: a compact rule bare, any other one as an object.
    pub fn row(&self) -> String {
        match self.form {
            Form::Compact => hex::row(&self.bytes),
            Form::Expanded | Form::Referred => object(self.rule()),
        }
    }
}

/// A rule as an object.
pub fn object(rule: Rule) -> String {
    format!("{:02X}{:02X}{}", rule.form.tag(), rule.bytes.len(), hex::row(rule.bytes))
}

/// Reads a rule; what is wrong before its first byte is told.
pub fn read(bytes: &[u8]) -> Result<Written, String> {
    let bare = |form| Ok(Written::bare(form, bytes.to_vec()));
    let first = match bytes.first() {
        None => return Err("a rule has at least one byte".to_string()),
        Some(0..=0x7F) => return bare(Form::Compact),
        Some(0x80) => return bare(Form::Expanded),
        Some(first) => *first,
    };
    let written = bytes.len();
    let Some(form) = Form::ALL.into_iter().find(|form| form.tag() == first) else {
        return Err(format!(
            "byte 1 of {written}: {first:02X} begins no rule: 8C, AB or 8B begins an object, 80 a \
             bare expanded rule, a byte below 80 a bare compact one"
        ));
    };
    match bytes {
        [_, length @ 0x80..=0xFF, ..] => Err(format!(
            "byte 2 of {written}: the length {length:02X} of object {first:02X} is over 7F"
        )),
        [_, length, value @ ..] if usize::from(*length) == value.len() => {
            Ok(Written { form, bytes: value.to_vec(), before: 2 })
        }
        [_, length, value @ ..] => Err(format!(
            "byte 2 of {written}: the length {length:02X} of object {first:02X} is {length}, and \
             {} follow",
            value.len()
        )),
        _ => Err(format!("byte 1 of {written}: behind the tag {first:02X} a length is missing")),
    }
}
