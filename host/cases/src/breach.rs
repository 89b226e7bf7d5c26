//! CREATE's data with one breach each (01, "CREATE": "Any breach of this
//! paragraph's data rules ... are 6A80"; 02, Tickets 3 and 7).

use model::edition::Edition;

use crate::random::Random;
use crate::template::{good, record_lengths, template, FileData, Object};
use crate::{life_cycles, rules};

/// Good data for a card of this edition, or data with one breach; sometimes
/// only bytes.
pub fn any(random: &mut Random, edition: Edition) -> Vec<u8> {
    let mut data = good(random, edition);
    match random.below(15) {
        0..=3 => template(&data.objects()),
        4 | 5 => of_a_value(random, data),
        6 | 7 => of_the_list(random, &data, edition),
        8 => of_a_length(random, &data),
        9..=12 => {
            data.rule = rules::broken(random, edition);
            template(&data.objects())
        }
        13 => of_the_reference(random, data, edition),
        _ => {
            let length = random.range(1, 40) as usize;
            let mut bytes = random.bytes(length);
            bytes[0] = random.pick([0x62, 0x62, bytes[0]]);
            bytes
        }
    }
}

/// Every object in its place, one value wrong.
fn of_a_value(random: &mut Random, mut data: FileData) -> Vec<u8> {
    match random.below(7) {
        0 => data.size = 0,
        1 => data.identifier = random.pick([0x3FFF, 0x7FFF, 0xFFFF]),
        2 => data.life_cycle = life_cycles::of_no_new_file(random),
        3 => data.name = Some(vec![0xA0; random.pick([0, 17, 18])]),
        4 => data.descriptor = random.pick([0x79, 0x21, 0xB8, 0xC1, 0x40, 0x43, 0x51, 0x00, 0xFF]),
        5 => of_the_records(random, &mut data),
        _ => {
            let mut objects = data.objects();
            let place = random.below(objects.len());
            wrong_value_length(random, &mut objects[place]);
            return template(&objects);
        }
    }
    template(&data.objects())
}

/// Record length and size that do not fit one another.
fn of_the_records(random: &mut Random, data: &mut FileData) {
    data.descriptor = random.pick([0x42, 0x46]);
    data.name = None;
    let (length, size) = random.pick([
        (0, 20),
        (10, 25),
        (1, 255),
        (256, 256),
        (255, 255 * 255),
        (7, 0),
        (20, 10),
        (0x0101, 0x0101),
    ]);
    debug_assert!(!record_lengths(size).contains(&length) || length == 0);
    data.record_length = Some(length);
    data.size = size;
    data.size_bytes = 4;
    if random.chance(20) {
        data.record_length = None;
    }
}

fn wrong_value_length(random: &mut Random, object: &mut Object) {
    if random.chance(50) {
        object.1.push(random.byte());
    } else {
        object.1.pop();
    }
}

/// Objects left out, doubled, exchanged, added or with another tag.
fn of_the_list(random: &mut Random, data: &FileData, edition: Edition) -> Vec<u8> {
    let mut objects = data.objects();
    let place = random.below(objects.len());
    let other = random.below(objects.len());
    match random.below(7) {
        0 => {
            objects.remove(place);
        }
        1 => {
            let twice = objects[place].clone();
            objects.insert(other, twice);
        }
        2 => objects.swap(place, other),
        3 => objects[place].0 = random.pick([0x80, 0x81, 0x84, 0x8B, 0xAB, 0x88, 0xC6, 0x00]),
        4 => {
            let added = random.pick([0x88, 0x8B, 0xAB, 0x84, 0x85, 0xA5, 0x86, 0xC6, 0x90]);
            let length = random.below(4);
            objects.insert(other, (added, random.bytes(length)));
        }
        5 => two_rules(random, &mut objects, edition),
        _ => objects.extend([(0x85, Vec::new()), (0xA5, Vec::new())]),
    }
    template(&objects)
}

/// A second rule beside the first, each good by itself, of any form.
fn two_rules(random: &mut Random, objects: &mut Vec<Object>, edition: Edition) {
    let is_rule = |object: &Object| [0x8C, 0xAB, 0x8B].contains(&object.0);
    let place = objects.iter().position(is_rule).unwrap_or(0);
    let other = rules::of_any_form(random, edition).object();
    objects.insert(place + random.below(2), other);
}

/// A reference where the edition takes none, of another length, beside another
/// rule, or not in the rule's place; now and then a good one.
fn of_the_reference(random: &mut Random, mut data: FileData, edition: Edition) -> Vec<u8> {
    data.rule = rules::some_reference(random);
    let mut objects = data.objects();
    let place = objects.iter().position(|object| *object == data.rule.object()).unwrap_or(0);
    match random.below(4) {
        0 => {
            let length = random.pick([0, 2, 2, 4, 4, 6]);
            objects[place].1 = random.bytes(length);
        }
        1 => {
            let other = rules::well_formed(random, edition).object();
            objects.insert(place + random.below(2), other);
        }
        2 => {
            let moved = objects.remove(place);
            objects.insert(random.below(objects.len() + 1), moved);
        }
        _ => {}
    }
    template(&objects)
}

/// Lengths that do not meet, in 62 or in an object, and trailing bytes.
fn of_a_length(random: &mut Random, data: &FileData) -> Vec<u8> {
    let mut bytes = template(&data.objects());
    match random.below(7) {
        0 => bytes[1] = bytes[1].wrapping_add(1),
        1 => bytes[1] = bytes[1].wrapping_sub(1),
        2 => bytes.push(random.byte()),
        3 => {
            let length = random.below(bytes.len()).max(1);
            bytes.truncate(length);
        }
        4 => bytes.insert(1, 0x81),
        5 => {
            let place = random.below(bytes.len() - 3) + 3;
            bytes[place] = random.pick([0x80, 0x81, 0x00, 0x7F, 0xFF]);
        }
        _ => {
            // Beyond 7F inside, and still not more than Lc can tell.
            let mut objects = data.objects();
            objects.push((0x85, vec![0; 0x70]));
            bytes = template(&objects);
        }
    }
    bytes
}
