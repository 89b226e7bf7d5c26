//! Expanded access rules, well formed: deep, wide, of many groups, the expanded
//! writing of compact ones (02, Ticket 3).

use model::expanded::{tags, DEEPEST, FEWEST_CONDITIONS};

use crate::compact;
use crate::random::Random;

/// Bytes of an AM_DO, and of the tag and length before every value.
const MODE_BYTES: usize = 3;
const HEAD_BYTES: usize = 2;
/// The least that a template takes.
const LEAST_TEMPLATE: usize = HEAD_BYTES * (1 + FEWEST_CONDITIONS);

/// Tag, length, value.
pub fn object(tag: u8, value: &[u8]) -> Vec<u8> {
    let mut out = vec![tag, value.len() as u8];
    out.extend(value);
    out
}

/// An AM_DO.
pub fn mode(am: u8) -> Vec<u8> {
    object(tags::ACCESS_MODE, &[am])
}

/// An AM byte: all rights, one, some, now and then none.
pub fn any_mode(random: &mut Random) -> u8 {
    match random.below(10) {
        0..=4 => 0x7F,
        5..=7 => 1 << random.below(7),
        8 => random.byte() & 0x7F,
        _ => random.pick([0x00, 0x06, 0x78]),
    }
}

/// The tag of a template.
pub fn template_tag(random: &mut Random) -> u8 {
    random.pick([tags::ONE_OF, tags::ALL_OF])
}

/// An SC_DO of two bytes.
pub fn short_leaf(random: &mut Random) -> Vec<u8> {
    object(random.pick([tags::ALWAYS, tags::ALWAYS, tags::NEVER]), &[])
}

/// An SC_DO of two or three bytes.
pub fn leaf(random: &mut Random) -> Vec<u8> {
    if random.chance(45) {
        short_leaf(random)
    } else {
        object(tags::BYTE, &[compact::condition(random)])
    }
}

/// Everything always, in at most so many bytes: an AM byte of all rights and a
/// condition that holds under every state.
pub fn open(random: &mut Random, longest: usize) -> Vec<u8> {
    let depth = random.below(DEEPEST + 1);
    let mut rule = mode(0x7F);
    if random.chance(25) {
        rule.extend(object(tags::NEVER, &[]));
    }
    let left = longest.saturating_sub(rule.len());
    rule.extend(holding(random, left, depth));
    if random.chance(25) && rule.len() + 3 <= longest {
        rule.extend(leaf(random));
    }
    rule
}

/// A condition that holds always, of at most so many bytes, with templates at
/// most so deep inside one another.
fn holding(random: &mut Random, longest: usize, depth: usize) -> Vec<u8> {
    if depth == 0 || longest < LEAST_TEMPLATE + 1 {
        return match longest >= 3 && random.chance(30) {
            true => object(tags::BYTE, &[0x00]),
            false => object(tags::ALWAYS, &[]),
        };
    }
    let tag = template_tag(random);
    let beside = match tag {
        tags::ALL_OF => object(tags::ALWAYS, &[]),
        _ => leaf(random),
    };
    let inside = holding(random, longest - HEAD_BYTES - beside.len(), depth - 1);
    object(tag, &in_any_order(random, beside, inside))
}

fn in_any_order(random: &mut Random, one: Vec<u8>, other: Vec<u8>) -> Vec<u8> {
    if random.chance(50) {
        [one, other].concat()
    } else {
        [other, one].concat()
    }
}

/// So many templates inside one another, each with one condition beside the
/// next, made of these leaves.
pub fn chain(random: &mut Random, depth: usize, leaf: fn(&mut Random) -> Vec<u8>) -> Vec<u8> {
    (0..depth).fold(leaf(random), |inside, _| {
        let beside = leaf(random);
        let tag = template_tag(random);
        object(tag, &in_any_order(random, beside, inside))
    })
}

/// As many SC_DOs in a row as so many bytes hold, at least one.
fn row(random: &mut Random, longest: usize) -> Vec<u8> {
    let mut row = short_leaf(random);
    while row.len() + 3 <= longest && random.chance(92) {
        row.extend(leaf(random));
    }
    row
}

/// A condition of at most so many bytes, at least two, with templates at most
/// so deep inside one another.
fn tree(random: &mut Random, longest: usize, depth: usize) -> Vec<u8> {
    if depth == 0 || longest < LEAST_TEMPLATE || random.chance(25) {
        return if longest < 3 { short_leaf(random) } else { leaf(random) };
    }
    let mut left = longest - HEAD_BYTES;
    let mut inside = Vec::new();
    let mut conditions = 0;
    while left >= 2 && (conditions < FEWEST_CONDITIONS || random.chance(60)) {
        // What the conditions that must still come take at the least.
        let kept = 2 * FEWEST_CONDITIONS.saturating_sub(conditions + 1);
        let most = random.range(2, (left - kept) as u32) as usize;
        let one = tree(random, most, depth - 1);
        left -= one.len();
        inside.extend(one);
        conditions += 1;
    }
    object(template_tag(random), &inside)
}

/// A well-formed rule of at most so many bytes, 28 or more; of fewer an open
/// one, at least 5.
pub fn well_formed(random: &mut Random, longest: usize) -> Vec<u8> {
    let left = longest.saturating_sub(MODE_BYTES);
    let conditions = match random.below(10) {
        0 => return open(random, longest),
        1 | 2 => return many_groups(random, longest),
        3 => return writing_that_fits(random, longest),
        4 | 5 => {
            let depth = 1 + random.below(DEEPEST);
            chain(random, depth, leaf)
        }
        6 => {
            let inside = row(random, left.saturating_sub(HEAD_BYTES + 3));
            object(template_tag(random), &[leaf(random), inside].concat())
        }
        7 => row(random, left),
        _ => tree(random, left, DEEPEST),
    };
    let rule = [mode(any_mode(random)), conditions].concat();
    if rule.len() > longest {
        return open(random, longest);
    }
    rule
}

/// Groups of all sorts until so many bytes are filled; of most one right, so
/// that a later group decides.
fn many_groups(random: &mut Random, longest: usize) -> Vec<u8> {
    let bit = 1u8 << random.below(7);
    let mut rule = Vec::new();
    while rule.len() + MODE_BYTES + 3 <= longest {
        let left = longest - rule.len() - MODE_BYTES;
        let most = random.range(2, left.min(12) as u32) as usize;
        let am = if random.chance(60) { bit } else { any_mode(random) };
        rule.extend(mode(am));
        rule.extend(tree(random, most, 2));
    }
    if rule.is_empty() {
        return open(random, longest);
    }
    rule
}

/// The expanded writing of a compact rule: for each SC byte an AM_DO with one
/// bit and a 9E. Of a malformed rule whatever its bytes give.
pub fn writing_of(rule: &[u8]) -> Vec<u8> {
    let mut out = Vec::new();
    let mut bytes = rule.iter().copied();
    while let Some(am) = bytes.next() {
        for bit in (0..7).rev().map(|n| 1u8 << n).filter(|bit| am & bit != 0) {
            let Some(sc) = bytes.next() else { break };
            out.extend(mode(bit));
            out.extend(object(tags::BYTE, &[sc]));
        }
    }
    out
}

/// The expanded writing of a compact rule that is short enough.
fn writing_that_fits(random: &mut Random, longest: usize) -> Vec<u8> {
    // An SC byte takes six bytes; a group of one right two of a compact rule.
    let rights = random.range(1, (longest / 6).max(1) as u32);
    let bits = (0..rights).flat_map(|_| [1u8 << random.below(7), compact::condition(random)]);
    let rule: Vec<u8> = bits.collect();
    writing_of(&rule)
}
