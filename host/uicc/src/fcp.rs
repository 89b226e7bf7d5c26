//! A file's template (FCP) as SELECT answers it: for people, and as the data of
//! a CREATE that makes the file again.

use card::{Form, Rule};
use model::descriptor::{class, Class};
use model::template::tags;

use crate::rule::{self, Owner};
use crate::{describe, hex};

/// A TLV object: tag and value.
pub type Object<'a> = (u8, &'a [u8]);

/// What CREATE wants behind a directory's total and no card keeps; its value
/// means nothing here.
const PIN_STATUS: Object = (tags::PIN_STATUS, &[0x00]);

/// The columns before a value in a line.
const BEFORE_VALUE: usize = 20;

/// A template, its values read.
pub struct Template<'a> {
    objects: Vec<Object<'a>>,
    pub descriptor: u8,
    /// 0 where the file has no records.
    pub record_length: u32,
    pub identifier: u16,
    /// Empty where the file has none.
    pub name: &'a [u8],
    pub life_cycle: u8,
    pub rule: Rule<'a>,
    /// A file's size, a directory's total.
    pub size: u32,
}

impl<'a> Template<'a> {
    /// Reads what SELECT answered; nothing if it is no template.
    pub fn read(data: &'a [u8]) -> Option<Template<'a>> {
        let objects = match objects(data)?.as_slice() {
            [(tags::TEMPLATE, inside)] => objects(inside)?,
            _ => return None,
        };
        let value = |tag| objects.iter().find(|(other, _)| *other == tag).map(|(_, value)| *value);
        let (descriptor, after) = value(tags::DESCRIPTOR)?.split_first()?;
        let [life_cycle] = value(tags::LIFE_CYCLE)? else { return None };
        let rule = |form: Form| value(form.tag()).map(|bytes| Rule { form, bytes });
        Some(Template {
            descriptor: *descriptor,
            record_length: number(after.get(1..)?),
            identifier: u16::from_be_bytes(value(tags::IDENTIFIER)?.try_into().ok()?),
            name: value(tags::NAME).unwrap_or_default(),
            life_cycle: *life_cycle,
            rule: Form::ALL.into_iter().find_map(rule)?,
            size: number(value(tags::EF_SIZE).or(value(tags::DF_TOTAL))?),
            objects,
        })
    }

    pub fn is_directory(&self) -> bool {
        class(self.descriptor) == Class::Df
    }

    /// The CREATE of such a file in a life cycle.
    pub fn create(&self, life_cycle: u8) -> Vec<u8> {
        let own = [life_cycle];
        let mut objects = self.objects.clone();
        for object in objects.iter_mut().filter(|(tag, _)| *tag == tags::LIFE_CYCLE) {
            object.1 = &own;
        }
        if self.is_directory() {
            objects.push(PIN_STATUS);
        }
        let inside: Vec<u8> = objects.into_iter().flat_map(encoded).collect();
        let data = encoded((tags::TEMPLATE, &inside));
        [&[0x00, 0xE0, 0x00, 0x00, length(&data)], &data[..]].concat()
    }

    /// What the file is, in a few words.
    pub fn in_short(&self) -> String {
        let (kind, size) = (describe::kind(self.descriptor), self.size);
        let measure = if self.is_directory() { "total" } else { "size" };
        let life_cycle = describe::life_cycle_and_byte(self.life_cycle);
        format!("{kind}, {life_cycle}, {measure} {size}")
    }

    /// Each value with its title.
    fn values(&self) -> Vec<(&'static str, String)> {
        let mut values = vec![("identifier", format!("{:04X}", self.identifier))];
        let kind = describe::kind_of_file(self.descriptor);
        values.push(("kind", format!("{kind}, descriptor {:02X}", self.descriptor)));
        let owner = if self.is_directory() {
            let total = format!("{} bytes, announced for the files in it", self.size);
            values.push(("total", total));
            Owner::Directory
        } else {
            values.push(("structure", self.structure()));
            values.push(("size", format!("{} bytes", self.size)));
            Owner::File
        };
        values.push(("life cycle", describe::life_cycle_and_byte(self.life_cycle)));
        if !self.name.is_empty() {
            values.push(("name", hex::row(self.name)));
        }
        let rule = rule::words(self.rule, owner);
        let rule = rule.map(|parts| rule::folded(&parts.join("; "), BEFORE_VALUE));
        let rule = rule.unwrap_or_else(|_| "malformed".to_string());
        values.push((title(self.rule.form), rule));
        values
    }

    fn structure(&self) -> String {
        let structure = describe::kind(self.descriptor);
        match self.size.checked_div(self.record_length) {
            None => structure.to_string(),
            Some(1) => format!("{structure}, 1 record of {} bytes", self.record_length),
            Some(many) => format!("{structure}, {many} records of {} bytes", self.record_length),
        }
    }
}

/// Data that a command answered, a line for each value, below the command's.
pub fn told(data: &[u8]) -> String {
    let mut values = vec![("data", hex::row(data))];
    values.extend(Template::read(data).iter().flat_map(Template::values));
    values.into_iter().map(|(title, value)| line(title, &value)).collect()
}

/// A line below a command's. `BEFORE_VALUE` columns stand before the value.
pub fn line(title: &str, value: &str) -> String {
    format!("        {title:<10}  {value}\n")
}

/// The same with the words of a rule, in several lines if they are long.
pub fn folded_line(title: &str, words: &str) -> String {
    line(title, &rule::folded(words, BEFORE_VALUE))
}

/// The title of a rule's line.
pub fn title(form: Form) -> &'static str {
    match form {
        Form::Compact => "rule (8C)",
        Form::Expanded => "rule (AB)",
        Form::Referred => "rule (8B)",
    }
}

/// The objects that fill these bytes; nothing if they do not.
pub fn objects(mut bytes: &[u8]) -> Option<Vec<Object<'_>>> {
    let mut objects = Vec::new();
    while let [tag, length, rest @ ..] = bytes {
        let (value, after) = rest.split_at_checked(usize::from(*length))?;
        objects.push((*tag, value));
        bytes = after;
    }
    bytes.is_empty().then_some(objects)
}

fn encoded((tag, value): Object) -> Vec<u8> {
    [&[tag, length(value)], value].concat()
}

/// A template's values are far shorter than 255 bytes.
fn length(value: &[u8]) -> u8 {
    u8::try_from(value.len()).unwrap_or(u8::MAX)
}

fn number(bytes: &[u8]) -> u32 {
    bytes.iter().fold(0, |number, byte| number << 8 | u32::from(*byte))
}

#[cfg(test)]
mod tests {
    use super::*;

    const RECORDS: &[u8] = &[
        0x62, 0x16, 0x82, 0x04, 0x42, 0x21, 0x00, 0x0A, 0x83, 0x02, 0x6F, 0x3A, 0x8A, 0x01, 0x07,
        0x8C, 0x03, 0x03, 0x13, 0x00, 0x80, 0x02, 0x00, 0x14,
    ];
    const DIRECTORY: &[u8] = &[
        0x62, 0x1B, 0x82, 0x02, 0x78, 0x21, 0x83, 0x02, 0x7F, 0x20, 0x84, 0x05, 0xA0, 0x00, 0x00,
        0x00, 0x87, 0x8A, 0x01, 0x0C, 0x8C, 0x03, 0x06, 0x00, 0x00, 0x81, 0x02, 0x00, 0x80,
    ];

    #[test]
    fn a_template_is_told_in_words() {
        assert_eq!(
            told(RECORDS),
            "        data        621682044221000A83026F3A8A01078C0303130080020014\n\
             \x20       identifier  6F3A\n\
             \x20       kind        working EF, descriptor 42\n\
             \x20       structure   linear fixed, 2 records of 10 bytes\n\
             \x20       size        20 bytes\n\
             \x20       life cycle  activated (07)\n\
             \x20       rule (8C)   DELETE, TERMINATE, ACTIVATE, DEACTIVATE, WRITE: never; \
             UPDATE: user authentication 3; READ: always\n"
        );
        let directory = told(DIRECTORY);
        for line in [
            "kind        directory, descriptor 78\n",
            "total       128 bytes, announced for the files in it\n",
            "life cycle  terminated (0C)\n",
            "name        A000000087\n",
            "CREATE DF, CREATE EF: always\n",
        ] {
            assert!(directory.contains(line), "{line}{directory}");
        }
        assert!(!directory.contains("structure"), "{directory}");
    }

    #[test]
    fn the_command_that_makes_the_file_again() {
        let file = Template::read(RECORDS).expect("a template");
        assert_eq!(file.create(0x07), [&[0x00, 0xE0, 0x00, 0x00, 0x18], RECORDS].concat());
        let directory = Template::read(DIRECTORY).expect("a template");
        let mut data = [DIRECTORY, &[0xC6, 0x01, 0x00]].concat();
        (data[1], data[19]) = (0x1E, 0x05);
        assert_eq!(directory.create(0x05), [&[0x00, 0xE0, 0x00, 0x00, 0x20], &data[..]].concat());
    }

    /// Data that is cut or bent anywhere is told as it came, and no more.
    #[test]
    fn what_is_no_template_is_told_as_it_is() {
        for template in [RECORDS, DIRECTORY] {
            for length in 0..template.len() {
                assert_eq!(told(&template[..length]).lines().count(), 1, "{length} bytes");
            }
            for place in 0..template.len() {
                for byte in 0..=0xFF {
                    let mut bent = template.to_vec();
                    bent[place] = byte;
                    assert!(told(&bent).starts_with("        data        "));
                }
            }
        }
    }
}
