//! CREATE's data as a list of objects that can be written well or, by
//! [`crate::breach`], badly (01, "CREATE").

use model::edition::Edition;

use crate::life_cycles;
use crate::random::Random;
use crate::rules::{self, Rule};

/// A TLV object.
pub type Object = (u8, Vec<u8>);

/// What a CREATE asks for, well formed as long as the fields are.
#[derive(Clone, PartialEq, Eq, Debug)]
pub struct FileData {
    /// Descriptor byte.
    pub descriptor: u8,
    /// Second byte of 82, not interpreted by the card.
    pub second: u8,
    /// Record length for structures with records.
    pub record_length: Option<u16>,
    /// Identifier.
    pub identifier: u16,
    /// Name, for a DF.
    pub name: Option<Vec<u8>>,
    /// Life-cycle byte.
    pub life_cycle: u8,
    /// Rule.
    pub rule: Rule,
    /// Size or total.
    pub size: u32,
    /// How many bytes the size is written in, 2 to 4.
    pub size_bytes: usize,
    /// C6 of a DF, never empty.
    pub pin_status: Vec<u8>,
    /// 85 or A5, last.
    pub last: Option<Object>,
}

impl FileData {
    /// A file open to everything, without anything that may be left out.
    pub fn plain(descriptor: u8, identifier: u16, size: u32) -> FileData {
        FileData {
            descriptor,
            second: 0x21,
            record_length: None,
            identifier,
            name: None,
            life_cycle: 0x05,
            rule: rules::open(),
            size,
            size_bytes: fewest_bytes(size),
            pin_status: vec![0],
            last: None,
        }
    }

    /// The same with another size, written in as few bytes as can be.
    pub fn resize(&mut self, size: u32) {
        (self.size, self.size_bytes) = (size, fewest_bytes(size));
    }

    /// Whether it describes a directory.
    pub fn is_df(&self) -> bool {
        self.descriptor & 0x3F == 0x38
    }

    /// The objects in CREATE's order.
    pub fn objects(&self) -> Vec<Object> {
        let mut description = vec![self.descriptor, self.second];
        description.extend(self.record_length.into_iter().flat_map(u16::to_be_bytes));
        let mut objects = vec![(0x82, description)];
        objects.push((0x83, self.identifier.to_be_bytes().to_vec()));
        objects.extend(self.name.iter().map(|name| (0x84, name.clone())));
        objects.push((0x8A, vec![self.life_cycle]));
        objects.push(self.rule.object());
        let size = self.size.to_be_bytes()[4 - self.size_bytes..].to_vec();
        if self.is_df() {
            objects.push((0x81, size));
            objects.push((0xC6, self.pin_status.clone()));
        } else {
            objects.push((0x80, size));
        }
        objects.extend(self.last.clone());
        objects
    }

    /// The whole CREATE command.
    pub fn command(&self) -> Vec<u8> {
        create_command(&template(&self.objects()))
    }
}

/// 62, the length and the objects. Lengths are taken to fit one byte.
pub fn template(objects: &[Object]) -> Vec<u8> {
    let mut inside = Vec::new();
    for (tag, value) in objects {
        inside.extend([*tag, value.len() as u8]);
        inside.extend(value);
    }
    let mut data = vec![0x62, inside.len() as u8];
    data.extend(inside);
    data
}

/// The CREATE command around its data.
pub fn create_command(data: &[u8]) -> Vec<u8> {
    let mut command = vec![0x00, 0xE0, 0x00, 0x00, data.len() as u8];
    command.extend(data);
    command
}

/// The fewest bytes, at least two, that hold a size.
fn fewest_bytes(size: u32) -> usize {
    match size {
        0..=0xFFFF => 2,
        0x1_0000..=0xFF_FFFF => 3,
        _ => 4,
    }
}

/// Data of a directory with this total.
pub fn directory(random: &mut Random, identifier: u16, total: u32) -> FileData {
    let pin_bytes = random.range(1, 6) as usize;
    let mut data = FileData {
        descriptor: random.pick([0x78, 0x78, 0x38]),
        second: 0x21,
        record_length: None,
        identifier,
        name: None,
        life_cycle: 0x05,
        rule: rules::open(),
        size: total,
        size_bytes: 0,
        pin_status: random.bytes(pin_bytes),
        last: None,
    };
    vary(random, &mut data);
    data
}

/// Data of an elementary file with this body.
pub fn elementary(random: &mut Random, identifier: u16, size: u32) -> FileData {
    let lengths = record_lengths(size);
    let record_length = match random.below(3) {
        0 => random.choose(&lengths).copied(),
        _ => None,
    };
    let descriptor = match record_length {
        None => random.pick([0x41, 0x41, 0x01, 0x49, 0x09]),
        Some(_) => random.pick([0x42, 0x46, 0x02, 0x06, 0x4A, 0x4E, 0x0A, 0x0E]),
    };
    let mut data = FileData {
        descriptor,
        second: 0x21,
        record_length,
        identifier,
        name: None,
        life_cycle: 0x05,
        rule: rules::open(),
        size,
        size_bytes: 0,
        pin_status: Vec::new(),
        last: None,
    };
    vary(random, &mut data);
    data
}

/// What may vary without changing whether the data are good.
fn vary(random: &mut Random, data: &mut FileData) {
    let fewest = fewest_bytes(data.size);
    data.size_bytes = random.range(fewest as u32, 4) as usize;
    data.life_cycle = life_cycles::of_an_activated_file(random);
    if random.chance(20) {
        data.second = random.byte();
    }
    if random.chance(15) {
        let length = random.below(12);
        data.last = Some((random.pick([0x85, 0xA5]), random.bytes(length)));
    }
}

/// Record lengths that fit a size: divisors up to 255 with at most 254
/// records.
pub fn record_lengths(size: u32) -> Vec<u16> {
    (1..=255u16)
        .filter(|&length| {
            let length = u32::from(length);
            size % length == 0 && (1..=254).contains(&(size / length))
        })
        .collect()
}

/// Good data at random, for an empty card of this edition with much room.
pub fn good(random: &mut Random, edition: Edition) -> FileData {
    let identifier = random.pick([0x6F07, 0x7F10, 0x0000, 0xBFFF, 0x2F06, 0x7F00, 0x3F01]);
    let size = random.pick([1, 2, 9, 20, 254, 255, 256, 300]);
    let mut data = if random.chance(50) {
        directory(random, identifier, size)
    } else {
        elementary(random, identifier, size)
    };
    if data.is_df() && random.chance(50) {
        let length = random.range(1, 16) as usize;
        data.name = Some(random.bytes(length));
    }
    data.life_cycle = life_cycles::of_a_new_file(random);
    data.rule = rules::of_any_form(random, edition);
    debug_assert!(model::rule::fit(edition, data.rule.form, &data.rule.bytes));
    if random.chance(10) {
        fill_to(&mut data, random.pick([0x7E, 0x7F]));
    }
    data
}

/// Lengthens the last object until the template's inside has this length.
fn fill_to(data: &mut FileData, length: usize) {
    data.last = Some((0x85, Vec::new()));
    let now = template(&data.objects()).len() - 2;
    data.last = Some((0x85, vec![0xA5; length.saturating_sub(now)]));
}
