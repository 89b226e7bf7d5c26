//! Response buffers: empty, too short by one or by more, exactly as long as
//! the data, and longer (02, Tickets 2 and 4). What they hold before is random.

use model::{command, State};

use crate::random::Random;

/// A long response buffer, which all data fit.
pub const LONG: usize = 256;
/// So many bytes more than its data a buffer may have.
const MORE: usize = 60;

/// A response buffer for a command on an image with this pool.
pub fn lent(random: &mut Random, image: &[u8], pool: &[u8], command: &[u8]) -> Vec<u8> {
    let length = match data_of(image, pool, command) {
        0 => random.pick([0, 0, 1, 26, 27, 67, LONG]),
        data => length_for(random, data),
    };
    random.bytes(length)
}

/// A length near that of the data.
fn length_for(random: &mut Random, data: usize) -> usize {
    match random.below(20) {
        0 => 0,
        1 | 2 => data.saturating_sub(1),
        3 => random.below(data),
        4..=8 => data,
        9..=11 => data + 1,
        12..=16 => data + random.below(MORE),
        _ => LONG,
    }
}

/// How many bytes of data a SELECT or a READ would give; no other command gives
/// any.
fn data_of(image: &[u8], pool: &[u8], bytes: &[u8]) -> usize {
    if !matches!(bytes, [_, 0xA4, _, 0x04, ..] | [_, 0xB0 | 0xB2, ..]) {
        return 0;
    }
    let (mut image, mut pool) = (image.to_vec(), pool.to_vec());
    command(&mut image, &mut pool, bytes, &mut [0; LONG], &State::FULL).data
}
