//! The pool of a card, for people: what of it is used, its gaps, and which new
//! file would make the card move bodies.

use std::ops::Range;

use card::RECORD_BYTES;
use model::bodies::{body, in_order, pool_length};
use model::life_cycle::{is_deactivated, is_terminated};
use model::Card as Decoded;

use crate::describe;

/// Signs of the bar.
const WIDTH: usize = 64;

/// The map of the pool; nothing for a card without bodies.
pub fn map(card: &Decoded) -> Option<String> {
    let length = pool_length(card)?;
    let bodies: Vec<_> = in_order(card).into_iter().map(|slot| body(card.record(slot))).collect();
    let used: usize = bodies.iter().map(Range::len).sum();
    let gaps = gaps(&bodies, length);
    let largest = gaps.iter().map(Range::len).max().unwrap_or(0);
    let free = length.saturating_sub(used);
    let many = match gaps.len() {
        0 => "no gap".to_string(),
        1 => format!("1 gap of {}", describe::bytes(largest)),
        many => format!("{many} gaps, the largest of {}", describe::bytes(largest)),
    };
    let all = describe::bytes(length);
    let mut told = format!("\npool of {all}: {used} used, {free} free: {many}\n");
    told += &format!("      {}\n", bar(&bodies, length));
    if !gaps.is_empty() {
        told += "      gap from  length\n";
    }
    for gap in &gaps {
        told += &format!("      {:>8}  {:>6}\n", gap.start, gap.len());
    }
    Some(told + &format!("      {}\n", moving(card, largest)))
}

/// The runs of bytes in no body, the one above the last body among them. The
/// bodies are in order, and apart.
fn gaps(bodies: &[Range<usize>], length: usize) -> Vec<Range<usize>> {
    let ends = [0].into_iter().chain(bodies.iter().map(|body| body.end));
    let starts = bodies.iter().map(|body| body.start).chain([length]);
    ends.zip(starts).map(|(end, start)| end..start).filter(|gap| !gap.is_empty()).collect()
}

/// The pool as a bar, and what its signs mean.
fn bar(bodies: &[Range<usize>], length: usize) -> String {
    let each = length.div_ceil(WIDTH).max(1);
    let sign = |number: usize| {
        let sign = number * each..((number + 1) * each).min(length);
        let common =
            |body: &Range<usize>| body.end.min(sign.end).saturating_sub(body.start.max(sign.start));
        match bodies.iter().map(common).sum::<usize>() {
            0 => '.',
            used if used == sign.len() => '#',
            _ => '+',
        }
    };
    let signs: String = (0..length.div_ceil(each)).map(sign).collect();
    format!("[{signs}]  # used, . free, + both; {} a sign", describe::bytes(each))
}

/// Which sizes of a new file no gap holds, although a directory has room for
/// them: the card moves all bodies down then.
fn moving(card: &Decoded, largest: usize) -> String {
    let takes_files = |slot: &usize| {
        let record = card.record(*slot);
        let closed = is_deactivated(record.life_cycle) || is_terminated(record.life_cycle);
        record.is_df() && !closed && !card.is_terminated_above(*slot)
    };
    let room = |slot| usize::try_from(card.room(slot)).unwrap_or(usize::MAX);
    // Of those with the same room the first.
    let slots = (0..card.records.len()).rev();
    let roomiest = slots.filter(takes_files).max_by_key(|slot| room(*slot));
    let (Some(slot), more) = (roomiest, largest + 1) else {
        return "no directory takes a new file".to_string();
    };
    let most = room(slot).saturating_sub(RECORD_BYTES);
    let sizes = match most.checked_sub(more) {
        None => return "no new file needs bodies to be moved".to_string(),
        Some(0) => describe::bytes(most),
        Some(_) => format!("{more} to {most} bytes"),
    };
    let name = card.record(slot).identifier;
    format!("a new file of {sizes} in {name:04X} needs bodies to be moved first: no gap holds it")
}

#[cfg(test)]
mod tests {
    use super::*;

    fn ranges<const MANY: usize>(pairs: [(usize, usize); MANY]) -> [Range<usize>; MANY] {
        pairs.map(|(start, end)| start..end)
    }

    #[test]
    fn gaps_lie_between_bodies() {
        assert_eq!(gaps(&[], 10), ranges([(0, 10)]));
        assert_eq!(gaps(&ranges([(0, 10)]), 10), []);
        assert_eq!(gaps(&[2..4, 4..5, 7..9], 10), [0..2, 5..7, 9..10]);
    }

    #[test]
    fn a_sign_tells_whether_all_its_bytes_are_used() {
        let signs = |bodies: &[Range<usize>], length| -> String {
            let bar = bar(bodies, length);
            bar.chars().skip(1).take_while(|sign| *sign != ']').collect()
        };
        assert_eq!(signs(&[0..1, 2..4], 5), "#.##.");
        assert_eq!(signs(&[0..2, 3..4], 128), format!("#+{}", ".".repeat(62)));
        assert_eq!(signs(&ranges([(0, 128)]), 130), "#".repeat(42) + "+.");
        assert_eq!(signs(&ranges([(0, 65_408)]), 65_408), "#".repeat(64));
        assert_eq!(signs(&ranges([(65_407, 65_408)]), 65_408), ".".repeat(63) + "+");
        assert_eq!(signs(&[], 1), ".");
    }
}
