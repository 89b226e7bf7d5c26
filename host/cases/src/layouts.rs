//! Where bodies lie in the pool (02, Ticket 4): packed, far apart, at its end, in
//! any order; the gaps between them; and starts that are wrong.

use model::bodies::{body, in_order};
use model::Card;

use crate::random::Random;

/// How the free bytes lie.
#[derive(Clone, Copy, PartialEq, Eq, Debug)]
pub enum Layout {
    /// All above the bodies.
    Packed,
    /// All below, so that the last body ends with the pool.
    AtTheEnd,
    /// As many below each body as above the last.
    FarApart,
    /// The same, but none below the first body.
    FirstAtZero,
    /// A few between bodies, the others above.
    SmallGaps,
    /// By chance.
    Any,
}

impl Layout {
    /// Any layout, those with gaps more often.
    pub fn any(random: &mut Random) -> Layout {
        random.pick([
            Layout::Packed,
            Layout::AtTheEnd,
            Layout::FarApart,
            Layout::FirstAtZero,
            Layout::SmallGaps,
            Layout::Any,
            Layout::Any,
        ])
    }

    /// How many of the free bytes lie below the next body, if so many bodies are
    /// done and so many still to come.
    fn gap(self, random: &mut Random, free: u32, done: usize, to_come: usize) -> u32 {
        match self {
            Layout::Packed => 0,
            Layout::AtTheEnd => free,
            Layout::FirstAtZero if done == 0 => 0,
            Layout::FarApart | Layout::FirstAtZero => free / (to_come as u32 + 1),
            Layout::SmallGaps => random.range(0, 3).min(free),
            Layout::Any => random.range(0, free) / random.pick([1, 2, 4]),
        }
    }
}

/// Gives each body a place in the pool, seldom in the order of the slots; does
/// nothing on a card without bodies.
pub fn lay_out(random: &mut Random, card: &mut Card, layout: Layout) {
    let mut slots = in_order(card);
    slots.sort_unstable();
    if random.chance(80) {
        shuffle(random, &mut slots);
    }
    let bytes: u32 = slots.iter().map(|&slot| card.record(slot).size).sum();
    let mut free = card.record(0).size.saturating_sub(bytes);
    let mut start = 0;
    for (done, &slot) in slots.iter().enumerate() {
        let gap = layout.gap(random, free, done, slots.len() - done);
        (start, free) = (start + gap, free - gap);
        card.set_start(slot, start as u16);
        start += card.record(slot).size;
    }
}

fn shuffle(random: &mut Random, slots: &mut [usize]) {
    for place in (1..slots.len()).rev() {
        slots.swap(place, random.below(place + 1));
    }
}

/// The lengths of all gaps, the lowest first, the one above the last body at the
/// end; none are empty.
pub fn gaps(card: &Card) -> Vec<u32> {
    let mut free_from = 0;
    let bodies = in_order(card).into_iter().map(|slot| body(card.record(slot)));
    let end = card.record(0).size as usize;
    let mut gaps = Vec::new();
    for body in bodies.chain(std::iter::once(end..end)) {
        gaps.extend(u32::try_from(body.start.saturating_sub(free_from)));
        free_from = body.end;
    }
    gaps.retain(|&gap| gap > 0);
    gaps
}

/// A slot and a start that it must not have: a body one byte into its neighbour
/// or past the pool, two at one place, a start where there is no body.
pub fn wrong_start(random: &mut Random, card: &Card) -> (usize, u16) {
    let with_bodies = in_order(card);
    let without: Vec<_> = (0..card.records.len()).filter(|s| !card.record(*s).is_ef()).collect();
    let none = (random.choose(&without).copied().unwrap_or(0), random.pick([1, 0x0100, 0xFFFF]));
    let Some(&slot) = random.choose(&with_bodies) else { return none };
    let size = card.record(slot).size as usize;
    let end = card.record(0).size as usize;
    let neighbour = neighbours(random, &with_bodies).map(|(below, above)| {
        let (lower, upper) = (body(card.record(below)), body(card.record(above)));
        match (random.below(3), (upper.start + 1).checked_sub(lower.len())) {
            (0, Some(start)) => (below, start),
            (1, _) => (above, lower.start),
            _ => (above, lower.end - 1),
        }
    });
    let (slot, start) = match (random.below(8), neighbour) {
        (0..=3, Some(wrong)) => wrong,
        (0..=5, _) => (slot, end - size + 1),
        (6, _) => (slot, 0xFFFF),
        _ => return none,
    };
    (slot, u16::try_from(start).unwrap_or(u16::MAX))
}

/// Two files whose bodies lie one above the other, with or without a gap.
fn neighbours(random: &mut Random, slots: &[usize]) -> Option<(usize, usize)> {
    let pairs: Vec<_> = slots.iter().copied().zip(slots.iter().copied().skip(1)).collect();
    random.choose(&pairs).copied()
}
