//! The data of CREATE, step H: 01, "CREATE", first paragraph; 02, Tickets 3 and 7
//! (a rule of each form). Every breach is 6A80, so reading gives the new file or nothing.

use crate::bytes::{number16, value};
use crate::card::RESERVED_IDENTIFIERS;
use crate::descriptor::{class, measures_fit, Class};
use crate::edition::Edition;
use crate::life_cycle;
use crate::objects::{self, Object, LONGEST_VALUE};
use crate::record::LONGEST_NAME;
use crate::rule::{self, Form};

/// The tags of the objects that CREATE takes.
pub mod tags {
    use crate::rule::Form;

    /// The template around all objects.
    pub const TEMPLATE: u8 = 0x62;
    /// File descriptor.
    pub const DESCRIPTOR: u8 = 0x82;
    /// File identifier.
    pub const IDENTIFIER: u8 = 0x83;
    /// Name of a DF.
    pub const NAME: u8 = 0x84;
    /// Life-cycle byte.
    pub const LIFE_CYCLE: u8 = 0x8A;
    /// Compact rule.
    pub const COMPACT_RULE: u8 = 0x8C;
    /// Expanded rule, in the place of a compact one.
    pub const EXPANDED_RULE: u8 = 0xAB;
    /// Referred rule, in the place of a compact one.
    pub const REFERRED_RULE: u8 = 0x8B;
    /// Size of an EF's body.
    pub const EF_SIZE: u8 = 0x80;
    /// Total of a DF.
    pub const DF_TOTAL: u8 = 0x81;
    /// PIN status template of a DF, not kept.
    pub const PIN_STATUS: u8 = 0xC6;
    /// Proprietary bytes, not kept.
    pub const PROPRIETARY: u8 = 0x85;
    /// Proprietary template, not kept.
    pub const PROPRIETARY_TEMPLATE: u8 = 0xA5;

    /// The tag of a rule of this form.
    pub fn of_rule(form: Form) -> u8 {
        match form {
            Form::Compact => COMPACT_RULE,
            Form::Expanded => EXPANDED_RULE,
            Form::Referred => REFERRED_RULE,
        }
    }
}

/// What CREATE's data ask for.
#[derive(Clone, PartialEq, Eq, Debug)]
pub struct NewFile {
    /// The descriptor's class: a DF, or an EF with its structure.
    pub class: Class,
    /// File descriptor byte.
    pub descriptor: u8,
    /// Life-cycle byte.
    pub life_cycle: u8,
    /// File identifier.
    pub identifier: u16,
    /// Record length, 0 without records.
    pub record_length: u16,
    /// Total or body size.
    pub size: u32,
    /// Name; empty for none.
    pub name: Vec<u8>,
    /// How the rule is written.
    pub form: Form,
    /// Access rule.
    pub rule: Vec<u8>,
}

/// The objects not yet read, in order.
struct Objects<'a> {
    left: std::vec::IntoIter<Object<'a>>,
}

impl<'a> Objects<'a> {
    /// The value of the next object, which must have this tag and a length
    /// in this range.
    fn required(&mut self, tag: u8, lengths: std::ops::RangeInclusive<usize>) -> Option<&'a [u8]> {
        let object = self.left.next()?;
        (object.tag == tag && lengths.contains(&object.value.len())).then_some(object.value)
    }

    /// The next object, which must be a rule of some form.
    fn rule(&mut self) -> Option<(Form, &'a [u8])> {
        let object = self.left.next()?;
        let form = Form::ALL.into_iter().find(|form| tags::of_rule(*form) == object.tag)?;
        Some((form, object.value))
    }

    /// Whether the next object has one of these tags.
    fn next_is(&self, tags: &[u8]) -> bool {
        self.left.as_slice().first().is_some_and(|object| tags.contains(&object.tag))
    }
}

/// Reads CREATE's data; nothing on any breach.
pub fn read(data: &[u8], edition: Edition) -> Option<NewFile> {
    let mut objects = objects_of_template(data)?;
    let description = objects.required(tags::DESCRIPTOR, 2..=4)?;
    let descriptor = *description.first()?;
    let class = class(descriptor);
    let record_length = record_length(class, description)?;
    let identifier = number16(objects.required(tags::IDENTIFIER, 2..=2)?, 0);
    let name: &[u8] = if class == Class::Df && objects.next_is(&[tags::NAME]) {
        objects.required(tags::NAME, 1..=LONGEST_NAME)?
    } else {
        &[]
    };
    let life_cycle = *objects.required(tags::LIFE_CYCLE, 1..=1)?.first()?;
    let (form, file_rule) = objects.rule()?;
    let size_tag = if class == Class::Df { tags::DF_TOTAL } else { tags::EF_SIZE };
    let size = value(objects.required(size_tag, 2..=4)?)?;
    read_unkept(&mut objects, class)?;
    let good = !RESERVED_IDENTIFIERS.contains(&identifier)
        && life_cycle::creatable(life_cycle)
        && rule::fit(edition, form, file_rule)
        && measures_fit(class, size, record_length);
    good.then(|| NewFile {
        class,
        descriptor,
        life_cycle,
        identifier,
        record_length,
        size,
        name: name.to_vec(),
        form,
        rule: file_rule.to_vec(),
    })
}

/// The last objects, whose contents are not kept: C6 in a DF, then perhaps 85
/// or A5, then nothing.
fn read_unkept(objects: &mut Objects, class: Class) -> Option<()> {
    if class == Class::Df {
        objects.required(tags::PIN_STATUS, 1..=usize::from(LONGEST_VALUE))?;
    }
    if objects.next_is(&[tags::PROPRIETARY, tags::PROPRIETARY_TEMPLATE]) {
        objects.left.next();
    }
    objects.left.next().is_none().then_some(())
}

/// The record length in 82: four bytes exactly for the structures with
/// records, else two. The second byte is not interpreted.
fn record_length(class: Class, description: &[u8]) -> Option<u16> {
    let records = match class {
        Class::Df => false,
        Class::Ef(structure) => structure.has_records(),
        Class::Neither => return None,
    };
    match (records, description.len()) {
        (false, 2) => Some(0),
        (true, 4) => Some(number16(description, 2)),
        _ => None,
    }
}

/// 62 LL, then objects that fill LL and end the data.
fn objects_of_template(data: &[u8]) -> Option<Objects<'_>> {
    let (template, after) = objects::first(data)?;
    if template.tag != tags::TEMPLATE || !after.is_empty() {
        return None;
    }
    Some(Objects { left: objects::all(template.value)?.into_iter() })
}
