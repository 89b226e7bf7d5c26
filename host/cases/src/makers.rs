//! Calls of the maker on both sides of each of its checks (01, "Making and
//! reporting"; 02, Tickets 3 and 7).

use model::rule::Form;

use crate::case::Case;
use crate::images::slot_count;
use crate::random::Random;
use crate::{editions, rules};

/// A call with any version, length, total, form and rule.
pub fn call(random: &mut Random) -> Case {
    let slots = slot_count(random);
    let most = 64 * (slots as u32 - 1);
    let good_length = 16 + 64 * slots;
    let length = if random.chance(85) { good_length } else { wrong_length(random, good_length) };
    let total = match random.below(10) {
        0 => random.pick([0, most + 1, u32::MAX, 0xFFFF_FFC0, 65_409]),
        1 => 1,
        2..=4 => random.range(1, most),
        _ => most,
    };
    let edition = editions::any(random);
    let rule = match random.below(10) {
        0 => rules::broken(random, edition),
        1 => rules::any(random),
        2 if random.chance(50) => rules::no_reference(random, edition),
        2 | 3 => rules::some_reference(random),
        4 | 5 => rules::some_open(random, edition),
        _ => rules::of_any_form(random, edition),
    };
    let version = u32::from(edition.version_number());
    let form = rule.form_number();
    let unlike = if rule.form == Form::Referred { 25 } else { 10 };
    Case::Make {
        buffer: contents(random, length),
        version: if random.chance(90) { version } else { editions::unknown(random) },
        total,
        form: if random.chance(unlike) { editions::any_form(random) } else { form },
        rule: rule.bytes,
    }
}

fn wrong_length(random: &mut Random, good: usize) -> usize {
    random.pick([0, 1, 15, 16, 79, 80, good - 1, good + 1, good + 16, 16 + 64 * 1024])
}

/// What the buffer held before: zeros or anything.
fn contents(random: &mut Random, length: usize) -> Vec<u8> {
    if random.chance(50) {
        vec![0; length]
    } else {
        random.bytes(length)
    }
}
