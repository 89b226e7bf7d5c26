//! Standard inputs for replay (01, "Both sides of each line", "Replay").

use model::edition::Edition;

use crate::history::history_on;
use crate::random::Random;
use crate::raw::raw;
use crate::themes::Theme;

/// The longest input that replay looks at.
const MOST_BYTES: usize = 32_768;

/// An input of any sort: whole, cut short, too big, with a bad header.
pub fn input(random: &mut Random) -> Vec<u8> {
    let mut input = whole(random);
    match random.below(20) {
        0..=9 => {}
        10..=12 => {
            let length = random.below(input.len() + 1);
            input.truncate(length);
        }
        13 => input.push(random.byte()),
        14 => input.extend([0xFF, 0xFF, 0x00]),
        15 | 16 => spoil_header(random, &mut input),
        17 => input.truncate(random.below(12)),
        18 if random.chance(20) => input.resize(MOST_BYTES, 0),
        19 if random.chance(20) => input.resize(MOST_BYTES + 1 + random.below(2), 0),
        _ => {
            let length = random.below(60);
            input = random.bytes(length);
        }
    }
    input
}

/// A good header and the commands of a history, some raw ones among them.
fn whole(random: &mut Random) -> Vec<u8> {
    let theme = random.pick(Theme::ALL);
    let slots = random.pick([2, 3, 8, 8, 12, 20, 40]);
    let steps = random.below(25);
    let history = history_on(random, Edition::BASE, theme, slots, steps);
    let mut stream = header(slots as u16, history.total);
    for step in history.steps {
        let command = if random.chance(5) { raw(random) } else { step.command };
        stream.extend((command.len() as u16).to_be_bytes());
        stream.extend(command);
    }
    stream
}

fn header(slots: u16, total: u32) -> Vec<u8> {
    let mut header = b"UFS".to_vec();
    header.extend(1u16.to_be_bytes());
    header.extend(slots.to_be_bytes());
    header.extend(total.to_be_bytes());
    header
}

/// Mark, version, slot count or total just wrong.
fn spoil_header(random: &mut Random, input: &mut [u8]) {
    let (at, bytes): (usize, &[u8]) = random.pick([
        (0, b"UFT".as_slice()),
        (0, b"ufs".as_slice()),
        (3, &[0, 2]),
        (3, &[1, 0]),
        (5, &[0, 0]),
        (5, &[0, 1]),
        (5, &[4, 0]),
        (5, &[0xFF, 0xFF]),
        (7, &[0, 0, 0, 0]),
        (7, &[0xFF, 0xFF, 0xFF, 0xFF]),
        (7, &[0, 1, 0, 0]),
    ]);
    if let Some(part) = input.get_mut(at..at + bytes.len()) {
        part.copy_from_slice(bytes);
    }
}
