//! Where bodies lie (02, Ticket 4), found in another way than the model's, and
//! with one thing wrong if so wished; cards that lay out their pool by it.

use crate::impostor::{Came, Left};
use compare::Told;
use model::bodies::body;
use model::soundness::sound_card;
use model::words::SUCCESS;
use model::Card;

/// Which of the gaps that fit a new body takes.
#[derive(Clone, Copy, PartialEq, Eq)]
pub enum Gap {
    Lowest,
    Highest,
    Smallest,
    /// The first one found behind the bodies in the order of their slots.
    BySlot,
}

/// How bodies are laid.
#[derive(Clone, Copy)]
pub struct Places {
    pub gap: Gap,
    /// So many bytes may a gap be too short.
    pub short_by: usize,
    /// Whether the gap above the last body counts.
    pub above: bool,
    /// Whether bodies are moved in the order of their slots.
    pub by_slot: bool,
    /// Whether bodies are moved even where a gap fits.
    pub always_move: bool,
    /// Whether only so many are moved as are in the way.
    pub as_few: bool,
    /// Whether bytes that bodies left become zeros.
    pub wipe_vacated: bool,
    /// Whether all free bytes do.
    pub wipe_free: bool,
    /// What a new body holds; what was there, if nothing.
    pub fill: Option<u8>,
    /// Whether deleted bodies become zeros: of a file alone, of those beneath.
    pub wipe_deleted: [bool; 2],
}

/// Nothing wrong.
pub const RIGHT: Places = Places {
    gap: Gap::Lowest,
    short_by: 0,
    above: true,
    by_slot: false,
    always_move: false,
    as_few: false,
    wipe_vacated: true,
    wipe_free: false,
    fill: Some(0xFF),
    wipe_deleted: [true, true],
};

/// Start and length of each gap, from the lowest on.
fn gaps(card: &Card, length: usize) -> Vec<(usize, usize)> {
    let mut taken = vec![false; length + 1];
    taken[length] = true;
    for slot in card.used_slots().filter(|&slot| card.record(slot).is_ef()) {
        taken[body(card.record(slot))].fill(true);
    }
    let starts = (0..length).filter(|&at| !taken[at] && (at == 0 || taken[at - 1]));
    starts.map(|at| (at, (at..).take_while(|&at| !taken[at]).count())).collect()
}

impl Places {
    /// Where a new body of this size goes, if a gap fits.
    fn gap_for(&self, card: &Card, length: usize, size: usize) -> Option<usize> {
        let fits = |&(start, free): &(usize, usize)| {
            free + self.short_by >= size && (self.above || start + free < length)
        };
        let fitting: Vec<_> = gaps(card, length).into_iter().filter(fits).collect();
        let chosen = match self.gap {
            Gap::Lowest => fitting.first(),
            Gap::Highest => fitting.last(),
            Gap::Smallest => fitting.iter().min_by_key(|(_, free)| free),
            Gap::BySlot => {
                let files = card.used_slots().filter(|&slot| card.record(slot).is_ef());
                let ends = files.map(|slot| body(card.record(slot)).end).chain([0]);
                ends.into_iter().find_map(|end| fitting.iter().find(|(start, _)| *start == end))
            }
        };
        chosen.map(|(start, _)| *start)
    }

    /// Moves bodies down; gives the end of the last.
    pub fn pack(&self, card: &mut Card, pool: &mut [u8], size: usize) -> usize {
        let mut slots: Vec<_> = card.used_slots().filter(|&s| card.record(s).is_ef()).collect();
        if !self.by_slot {
            slots.sort_by_key(|&slot| card.record(slot).start);
        }
        let (held, before) = (pool.to_vec(), card.clone());
        let mut free_from = 0;
        for &slot in &slots {
            let old = body(before.record(slot));
            if self.as_few && old.start >= free_from + size {
                break;
            }
            if self.wipe_vacated {
                pool[old].fill(0);
            }
            card.set_start(slot, free_from as u16);
            free_from += before.record(slot).size as usize;
        }
        for &slot in &slots {
            pool[body(card.record(slot))].copy_from_slice(&held[body(before.record(slot))]);
        }
        if self.wipe_free {
            gaps(card, pool.len()).iter().for_each(|&(at, free)| pool[at..at + free].fill(0));
        }
        free_from
    }

    /// Lays a new body; gives its start.
    fn lay(&self, card: &mut Card, pool: &mut [u8], size: usize) -> usize {
        let gap = self.gap_for(card, pool.len(), size).filter(|_| !self.always_move);
        let start = gap.unwrap_or_else(|| self.pack(card, pool, size));
        let end = pool.len().min(start + size);
        self.fill.into_iter().for_each(|byte| pool[start..end].fill(byte));
        start
    }

    /// A card that lays its bodies so.
    pub fn card(&self, came: &Came, left: &mut Left, told: Told) -> Told {
        let bodied = |card: &Card| card.edition.has_bodies() && told.word == SUCCESS;
        let Some(before) = sound_card(came.image).filter(bodied) else { return told };
        let after = Card::decode(left.image).expect("the model left an image");
        match came.command {
            [_, 0xE0, ..] => self.create(came, left, (before, after)),
            [_, 0xE4, ..] => self.delete(came, left, (&before, &after)),
            _ => {}
        }
        told
    }

    fn create(&self, came: &Came, left: &mut Left, (mut before, mut after): (Card, Card)) {
        let Some(new) = after.current_ef.filter(|&slot| !before.record(slot).is_used()) else {
            return;
        };
        left.pool.copy_from_slice(came.pool);
        let start = self.lay(&mut before, left.pool, after.record(new).size as usize);
        for slot in before.used_slots() {
            after.set_start(slot, before.record(slot).start);
        }
        after.set_start(new, start as u16);
        left.image.copy_from_slice(&after.encode());
    }

    fn delete(&self, came: &Came, left: &mut Left, (before, after): (&Card, &Card)) {
        let gone = |slot: &usize| before.record(*slot).is_ef() && !after.record(*slot).is_used();
        for slot in before.used_slots().filter(gone) {
            let beneath = before.parent(slot) != before.current_df;
            if !self.wipe_deleted[usize::from(beneath)] {
                let body = body(before.record(slot));
                left.pool[body.clone()].copy_from_slice(&came.pool[body]);
            }
        }
    }
}
