//! The template that SELECT answers with, the file control parameters: 02,
//! Ticket 2. The objects stand in CREATE's order (01, "CREATE"), without those
//! whose contents no record keeps.

use crate::descriptor::{class, Class};
use crate::record::Record;
use crate::template::tags;

/// No template is longer: its length is one byte, 00-7F.
pub const MOST_BYTES: usize = 2 + 0x7F;

/// The second byte of 82, which CREATE does not interpret.
const SECOND_BYTE: u8 = 0x21;

/// 62, the length, and the objects of a file.
pub fn template(file: &Record) -> Vec<u8> {
    let mut objects = Vec::new();
    push_object(&mut objects, tags::DESCRIPTOR, &description(file));
    push_object(&mut objects, tags::IDENTIFIER, &file.identifier.to_be_bytes());
    if !file.name.is_empty() {
        push_object(&mut objects, tags::NAME, &file.name);
    }
    push_object(&mut objects, tags::LIFE_CYCLE, &[file.life_cycle]);
    push_object(&mut objects, tags::of_rule(file.form), &file.rule);
    let size_tag = if file.is_df() { tags::DF_TOTAL } else { tags::EF_SIZE };
    push_object(&mut objects, size_tag, &size(file).to_be_bytes());
    let mut out = Vec::new();
    push_object(&mut out, tags::TEMPLATE, &objects);
    out
}

/// The value of 82: descriptor, 21, and the record length where the structure
/// has records.
fn description(file: &Record) -> Vec<u8> {
    let mut value = vec![file.descriptor, SECOND_BYTE];
    if matches!(class(file.descriptor), Class::Ef(structure) if structure.has_records()) {
        value.extend(file.record_length.to_be_bytes());
    }
    value
}

/// Two bytes hold every size of a sound card: the root's total is at most
/// 65,408, and what lies below is smaller.
fn size(file: &Record) -> u16 {
    u16::try_from(file.size).unwrap_or(u16::MAX)
}

/// Tag, length of one byte, value. Values here are far shorter than 255 bytes.
fn push_object(out: &mut Vec<u8>, tag: u8, value: &[u8]) {
    out.push(tag);
    out.push(u8::try_from(value.len()).unwrap_or(u8::MAX));
    out.extend(value);
}
