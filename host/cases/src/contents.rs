//! What a record of a rule file holds (02, Ticket 7): an expanded rule and
//! padding behind it, or something that is nearly so.

use model::deciding::PADDING;
use model::expanded::tags;
use model::rule::Form;

use crate::decided::{rule_of, Wish};
use crate::expanded::{mode, object};
use crate::flaws::{flawed, Flaw};
use crate::random::Random;

/// The shortest rule that can be made for any wish, and the shortest of all.
const SHORTEST_FOR_A_WISH: usize = 6;
const SHORTEST: usize = 5;
/// The longest rule that stands in a file's own record where there are bodies.
const LONGEST_IN_A_RECORD: usize = 28;
/// The records for which flaws are made.
const FLAWED: usize = 28;

/// What a record holds.
#[derive(Clone, Copy, PartialEq, Eq, PartialOrd, Ord, Debug)]
pub enum Contents {
    /// A rule, and padding behind it.
    Padded,
    /// A rule that fills the record.
    Filled,
    /// A rule that ends with an SC byte like the padding behind it.
    EndsLikePadding,
    /// A rule longer than one in a file's own record may be.
    Long,
    /// Padding alone.
    Empty,
    /// Bytes that are no rule, and padding.
    Malformed,
    /// A rule with other bytes than padding behind it, at once or later.
    Followed,
    /// A rule with padding before it.
    Preceded,
}

/// How often each comes, the good ones more often.
const MIX: [(Contents, usize); 8] = [
    (Contents::Padded, 30),
    (Contents::Filled, 14),
    (Contents::EndsLikePadding, 14),
    (Contents::Long, 10),
    (Contents::Empty, 6),
    (Contents::Malformed, 12),
    (Contents::Followed, 9),
    (Contents::Preceded, 5),
];

impl Contents {
    /// Any.
    pub fn any(random: &mut Random) -> Contents {
        random.weighted(&MIX).unwrap_or(Contents::Padded)
    }

    /// One that holds a rule.
    pub fn good(random: &mut Random) -> Contents {
        random.weighted(&MIX[..4]).unwrap_or(Contents::Padded)
    }
}

/// A record of so many bytes. The rule in it, if it holds one, decides as
/// wished, as long as the record is not too short for that.
pub fn record(random: &mut Random, contents: Contents, length: usize, wish: &Wish) -> Vec<u8> {
    let mut record = match contents {
        Contents::Padded => a_rule(random, length, wish),
        Contents::Filled => filled(random, length, wish, length),
        Contents::EndsLikePadding => {
            let mut rule = a_rule(random, length.saturating_sub(4), wish);
            if !rule.is_empty() {
                rule.extend(object(tags::BYTE, &[PADDING]));
            }
            rule
        }
        Contents::Long if length > LONGEST_IN_A_RECORD => {
            let least = LONGEST_IN_A_RECORD as u32 + 1;
            let wanted = random.range(least, length as u32) as usize;
            filled(random, length, wish, wanted)
        }
        Contents::Long => filled(random, length, wish, length),
        Contents::Empty => Vec::new(),
        Contents::Malformed => malformed(random),
        Contents::Followed => followed(random, length, wish),
        Contents::Preceded => {
            let rule = a_rule(random, length.saturating_sub(1), wish);
            [vec![PADDING], rule].concat()
        }
    };
    record.resize(length, PADDING);
    record
}

/// A rule of at most so many bytes, made for the wish where they suffice; none
/// where they suffice for no rule.
fn a_rule(random: &mut Random, longest: usize, wish: &Wish) -> Vec<u8> {
    match longest {
        0..SHORTEST => Vec::new(),
        SHORTEST..SHORTEST_FOR_A_WISH => {
            let tag = random.pick([tags::ALWAYS, tags::NEVER]);
            [mode(wish.right.bit()), object(tag, &[])].concat()
        }
        _ => {
            // A short one at times, so that much padding is left.
            let most = if random.chance(30) { SHORTEST_FOR_A_WISH } else { longest };
            rule_of(random, Form::Expanded, wish, most)
        }
    }
}

/// A rule of so many bytes, if it can be: conditions that never hold change
/// nothing as further alternatives, and take two bytes or three.
fn filled(random: &mut Random, longest: usize, wish: &Wish, wanted: usize) -> Vec<u8> {
    let mut rule = a_rule(random, longest.min(wanted), wish);
    if rule.len() + 1 == wanted {
        // One byte cannot be filled; a shorter rule leaves more.
        rule = a_rule(random, longest.min(wanted).min(SHORTEST_FOR_A_WISH), wish);
    }
    while !rule.is_empty() && rule.len() + 2 <= wanted {
        let never = match (wanted - rule.len()) % 2 {
            0 => object(tags::NEVER, &[]),
            _ => object(tags::BYTE, &[PADDING]),
        };
        rule.extend(never);
    }
    rule
}

/// A flaw of a rule, or a rule in another form. Some are whole again by the
/// padding behind them, as where the last SC byte was cut off.
fn malformed(random: &mut Random) -> Vec<u8> {
    let flaw = match Flaw::any(random) {
        Flaw::Empty | Flaw::TooLong => Flaw::Compact,
        flaw => flaw,
    };
    flawed(random, flaw, FLAWED)
}

/// A rule, perhaps padding, and behind it a byte or more that is none.
fn followed(random: &mut Random, length: usize, wish: &Wish) -> Vec<u8> {
    let mut rule = a_rule(random, length.saturating_sub(2), wish);
    let end = rule.len();
    rule.resize(length, PADDING);
    let last = length.saturating_sub(1);
    let place = random.pick([end, last, end + 1, (end + last) / 2]).min(last);
    let byte = random.pick([0x00, 0x00, 0x90, 0x80, 0xFE, 0x7F]);
    match rule.get_mut(place..) {
        // As where a record is cleared with zeros.
        Some(rest) if random.chance(30) => rest.fill(0x00),
        Some([first, ..]) => *first = byte,
        _ => {}
    }
    rule
}
