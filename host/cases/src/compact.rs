//! Compact access rules: open, with many groups, well formed at random, broken
//! (01, "Descriptor and rules"). How long they may be goes by the version.

use crate::random::Random;

/// Everything always.
pub fn open() -> Vec<u8> {
    vec![0x7F, 0, 0, 0, 0, 0, 0, 0]
}

/// DEACTIVATE and CREATE always, and nothing else ever.
pub fn for_the_way() -> Vec<u8> {
    vec![0x0E, 0, 0, 0]
}

/// A well-formed rule of at least 1 byte and at most so many, 16 or more.
pub fn well_formed(random: &mut Random, longest: usize) -> Vec<u8> {
    match random.below(6) {
        0 => open(),
        1 => many_groups(random, longest),
        2 => vec![0x7F; 1].into_iter().chain((0..7).map(|_| condition(random))).collect(),
        3 => vec![0; random.range(1, longest as u32) as usize],
        _ => {
            let longest = random.range(1, longest as u32) as usize;
            groups(random, longest)
        }
    }
}

/// Many groups of one or two bits, most of them refusing, so that a later one
/// decides.
pub fn many_groups(random: &mut Random, longest: usize) -> Vec<u8> {
    let bit = 1u8 << random.below(7);
    let mut rule = Vec::new();
    while rule.len() + 3 <= longest {
        if random.chance(70) {
            rule.extend([bit, random.pick([0xFF, 0xFF, 0x80, 0x1F, 0x11])]);
        } else {
            let other = 1u8 << random.below(7);
            rule.push(bit | other);
            rule.extend((0..(bit | other).count_ones()).map(|_| condition(random)));
        }
    }
    if random.chance(60) && rule.len() + 2 <= longest {
        rule.extend([bit, 0]);
    }
    rule
}

/// Groups at random, filling at most `longest` bytes, at least one.
pub fn groups(random: &mut Random, longest: usize) -> Vec<u8> {
    let mut rule = Vec::new();
    loop {
        let am = random.byte() & random.byte() & 0x7F;
        let bytes = 1 + am.count_ones() as usize;
        if rule.len() + bytes > longest {
            break;
        }
        rule.push(am);
        rule.extend((1..bytes).map(|_| condition(random)));
    }
    if rule.is_empty() {
        rule.push(0);
    }
    rule
}

/// An SC byte; the ones named in W1 to W4 come often.
pub fn condition(random: &mut Random) -> u8 {
    match random.below(10) {
        0..=3 => 0x00,
        4 => 0xFF,
        5 => random.pick([0x11, 0xB2, 0x32, 0x80, 0x1F, 0x90, 0x10, 0x70, 0xF0, 0xFE]),
        6 => 0x10 | (random.byte() & 0x0F),
        _ => random.byte(),
    }
}

/// A rule that no record takes that has room for so many bytes: malformed or of
/// a wrong length.
pub fn broken(random: &mut Random, longest: usize) -> Vec<u8> {
    let mut rule = well_formed(random, longest);
    match random.below(6) {
        0 => Vec::new(),
        1 => {
            rule[0] |= 0x80;
            rule
        }
        2 => vec![0; longest + random.range(1, 4) as usize],
        3 => {
            let mut rule = open();
            rule.truncate(random.range(1, 7) as usize);
            rule
        }
        4 => {
            let mut rule = open();
            rule.push(0x80 | random.byte());
            rule
        }
        _ => {
            rule.push(0xFF);
            rule
        }
    }
}
