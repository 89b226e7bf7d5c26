//! States of the caller: the three sets and the byte of open channels.

use model::State;

use crate::random::Random;

/// A state that mostly opens everything.
pub fn mostly_full(random: &mut Random) -> State {
    if random.chance(92) {
        State::FULL
    } else {
        any(random)
    }
}

/// Any state: full, empty, sets with one bit, sets lacking one bit, random.
pub fn any(random: &mut Random) -> State {
    State {
        messaging: set(random),
        external: set(random),
        user: set(random),
        channels: channels(random),
    }
}

fn set(random: &mut Random) -> u16 {
    let bit = 1u16 << random.below(16);
    match random.below(6) {
        0 => 0,
        1 => u16::MAX,
        2 | 3 => bit,
        4 => !bit,
        _ => random.number16(),
    }
}

/// Mostly no other channel; else bits that count and bits that do not.
fn channels(random: &mut Random) -> u8 {
    match random.below(10) {
        0 => 1 << random.below(8),
        1 => random.byte(),
        2 => 0xF1,
        _ => 0,
    }
}
