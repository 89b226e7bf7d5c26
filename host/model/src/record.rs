//! One record of the image: the table of 01, "Image", with byte 3 as 02, Tickets
//! 3 and 7, have it, and the last two bytes as Ticket 4 has them. Decoding checks what
//! the layout alone says (lengths, padding, zero bytes); [`crate::soundness`]
//! checks what the fields mean, and whether the version has the rule's form.

use crate::bytes::{all_zero, byte, number16, number32, part, push_padded, rest};
use crate::edition::Edition;
use crate::rule::Form;

/// Bytes in a record.
pub const RECORD_BYTES: usize = 64;
/// Longest name.
pub const LONGEST_NAME: usize = 16;

const FORM_AT: usize = 3;
const NAME_LENGTH_AT: usize = 16;
const NAME_AT: usize = 17;
const RULE_LENGTH_AT: usize = 33;
/// Where the rule stands.
pub const RULE_AT: usize = 34;
/// Where the start of a body stands, in a version with bodies.
const START_AT: usize = 62;

/// What a slot holds.
#[derive(Clone, Copy, PartialEq, Eq, Debug)]
pub enum Kind {
    /// Nothing.
    Free,
    /// A directory.
    Df,
    /// An elementary file.
    Ef,
}

/// A record, its fields read.
#[derive(Clone, PartialEq, Eq, Debug)]
pub struct Record {
    /// Free, DF or EF.
    pub kind: Kind,
    /// File descriptor byte.
    pub descriptor: u8,
    /// Life-cycle byte.
    pub life_cycle: u8,
    /// File identifier.
    pub identifier: u16,
    /// Slot of the directory that holds the file.
    pub parent: u16,
    /// How many directories stand above.
    pub level: u16,
    /// Record length of a linear fixed or cyclic EF, else 0.
    pub record_length: u16,
    /// A DF's total, an EF's body.
    pub size: u32,
    /// Name; empty for none.
    pub name: Vec<u8>,
    /// How the rule is written.
    pub form: Form,
    /// Access rule; of a referred one the three bytes.
    pub rule: Vec<u8>,
    /// Where an EF's body starts in the pool; 0 in a DF, and where there are no
    /// bodies.
    pub start: u16,
}

impl Record {
    /// The free record: all zero.
    pub const FREE: Record = Record {
        kind: Kind::Free,
        descriptor: 0,
        life_cycle: 0,
        identifier: 0,
        parent: 0,
        level: 0,
        record_length: 0,
        size: 0,
        name: Vec::new(),
        form: Form::Compact,
        rule: Vec::new(),
        start: 0,
    };

    /// Whether the record holds a file.
    pub fn is_used(&self) -> bool {
        self.kind != Kind::Free
    }

    /// Whether the record holds a directory.
    pub fn is_df(&self) -> bool {
        self.kind == Kind::Df
    }

    /// Whether the record holds an elementary file.
    pub fn is_ef(&self) -> bool {
        self.kind == Kind::Ef
    }

    /// What the file takes of the directory that pays for it. 64 bits, so
    /// that the largest size does not wrap.
    pub fn charge(&self) -> u64 {
        charge(self.size)
    }

    /// Reads 64 bytes; nothing if the layout is broken.
    pub fn decode(bytes: &[u8], edition: Edition) -> Option<Record> {
        let kind = match byte(bytes, 0) {
            0 if all_zero(bytes) => return Some(Record::FREE),
            1 => Kind::Df,
            2 => Kind::Ef,
            _ => return None,
        };
        let form = Form::from_number(u32::from(byte(bytes, FORM_AT)))?;
        let name_length = usize::from(byte(bytes, NAME_LENGTH_AT));
        let rule_length = usize::from(byte(bytes, RULE_LENGTH_AT));
        let (name, name_padding) = padded(bytes, NAME_AT, LONGEST_NAME, name_length)?;
        let (rule, rule_padding) = padded(bytes, RULE_AT, edition.longest_rule(), rule_length)?;
        let last = rest(bytes, RULE_AT + edition.longest_rule());
        let start = if edition.has_bodies() { number16(bytes, START_AT) } else { 0 };
        let last_is_good = edition.has_bodies() || all_zero(last);
        let zeros_are_zero = all_zero(name_padding) && all_zero(rule_padding) && last_is_good;
        if !zeros_are_zero {
            return None;
        }
        Some(Record {
            kind,
            descriptor: byte(bytes, 1),
            life_cycle: byte(bytes, 2),
            identifier: number16(bytes, 4),
            parent: number16(bytes, 6),
            level: number16(bytes, 8),
            record_length: number16(bytes, 10),
            size: number32(bytes, 12),
            name: name.to_vec(),
            form,
            rule: rule.to_vec(),
            start,
        })
    }

    /// Appends the record's 64 bytes.
    pub fn encode(&self, edition: Edition, out: &mut Vec<u8>) {
        let kind = match self.kind {
            Kind::Free => 0,
            Kind::Df => 1,
            Kind::Ef => 2,
        };
        let mut bytes = vec![kind, self.descriptor, self.life_cycle, self.form.number()];
        for number in [self.identifier, self.parent, self.level, self.record_length] {
            bytes.extend(number.to_be_bytes());
        }
        bytes.extend(self.size.to_be_bytes());
        bytes.push(length_byte(&self.name));
        push_padded(&mut bytes, &self.name, LONGEST_NAME);
        bytes.push(length_byte(&self.rule));
        push_padded(&mut bytes, &self.rule, edition.longest_rule());
        if edition.has_bodies() {
            bytes.extend(self.start.to_be_bytes());
        }
        push_padded(out, &bytes, RECORD_BYTES);
    }
}

/// What a file of this size takes of the directory that pays for it.
pub fn charge(size: u32) -> u64 {
    u64::from(size) + RECORD_BYTES as u64
}

/// A field of `width` bytes, cut into its `length` bytes and the padding.
fn padded(bytes: &[u8], at: usize, width: usize, length: usize) -> Option<(&[u8], &[u8])> {
    let field = part(bytes, at, width)?;
    Some((field.get(..length)?, field.get(length..)?))
}

fn length_byte(bytes: &[u8]) -> u8 {
    u8::try_from(bytes.len()).unwrap_or(u8::MAX)
}
