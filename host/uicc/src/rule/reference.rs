//! References, the value of an object 8B: the rule is what a record of a file
//! holds.

use card::REFERENCE_BYTES;

use super::Malformed;
use crate::describe::bytes;

/// The file and the record that a rule names.
#[derive(Clone, Copy, PartialEq, Eq, Hash, Debug)]
pub struct Reference {
    pub identifier: u16,
    pub number: u8,
}

impl Reference {
    /// Only the length can be wrong.
    pub fn read(rule: &[u8]) -> Result<Reference, Malformed> {
        match *rule {
            [high, low, number] => {
                Ok(Reference { identifier: u16::from_be_bytes([high, low]), number })
            }
            _ => {
                let (wanted, found) = (bytes(REFERENCE_BYTES), rule.len());
                let why = format!(
                    "a reference has {wanted}, a file's identifier and a record number, not {found}"
                );
                Err(Malformed::new(0, why))
            }
        }
    }

    /// What it says by itself, without the card that it stands on.
    pub fn words(self) -> String {
        let Reference { identifier, number } = self;
        format!(
            "what record {number} of {identifier:04X} says, the nearest from the directory that \
             holds this file up"
        )
    }
}
