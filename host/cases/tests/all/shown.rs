//! What a command on a card with bodies shows (02, Ticket 4): of READ and UPDATE
//! the word and the part of the body, of CREATE how it found a place, of DELETE
//! what it wiped.

use cases::layouts;
use model::bodies::{body, in_order};
use model::lines::Case as Line;
use model::soundness::sound_card;
use model::{command, words, Card, Outcome};

/// One command on a sound image of version 3 with the right pool.
pub struct Shown {
    pub before: Card,
    pub pool: Vec<u8>,
    pub command: Vec<u8>,
    lent: usize,
    outcome: Outcome,
    pub after: Card,
    pub pool_after: Vec<u8>,
    /// The word with a long response buffer.
    roomy: Outcome,
}

impl Shown {
    /// Runs the command of a line, if it is one on such an image.
    pub fn of(line: Line) -> Option<Shown> {
        let Line::Command { image, pool, command: bytes, state, response } = line else {
            return None;
        };
        let before = sound_card(&image).filter(|card| card.edition.has_bodies())?;
        let run = |mut response: Vec<u8>| {
            let (mut image, mut pool) = (image.clone(), pool.clone());
            let outcome = command(&mut image, &mut pool, &bytes, &mut response, &state);
            (outcome, image, pool)
        };
        let (outcome, after, pool_after) = run(response.clone());
        let roomy = run(vec![0; 300]).0;
        (outcome.answer != 6).then(|| Shown {
            before,
            pool,
            lent: response.len(),
            outcome,
            after: sound_card(&after).expect("sound after"),
            pool_after,
            roomy,
            command: bytes,
        })
    }

    /// What it shows.
    pub fn names(&self) -> Vec<String> {
        match (self.command.get(1), self.outcome.word) {
            (Some(0xB0 | 0xB2 | 0xD6 | 0xDC), _) => self.of_read_and_update(),
            (Some(0xE0), words::SUCCESS) => self.of_create(),
            (Some(0xE0), words::NOT_ENOUGH_MEMORY) => self.of_no_memory(),
            (Some(0xE4), words::SUCCESS) => self.of_delete(),
            _ => Vec::new(),
        }
    }

    /// The instruction with its word; 6700 and 6B00 by their step.
    fn of_read_and_update(&self) -> Vec<String> {
        let ins = self.command[1];
        let named = |what: &str| format!("{ins:02X} {what}");
        let late = matches!(self.current(), Some(slot) if usable(&self.before, slot));
        let word = match self.outcome.word {
            words::NO_WORD => "answer 5".to_string(),
            word @ (words::WRONG_LENGTH | words::WRONG_PARAMETERS) if !late => {
                format!("{word:04X} early")
            }
            word => format!("{word:04X}"),
        };
        let mut names = vec![named(&word)];
        if self.roomy.data > 0 {
            let how = match (self.lent, self.roomy.data) {
                (lent, data) if lent == data => "exactly long enough",
                (lent, data) if lent + 1 == data => "one byte short",
                (lent, data) if lent < data => "shorter",
                _ => "longer",
            };
            names.push(named(how));
            names.extend((self.roomy.data == 256).then(|| named("256 bytes")));
        }
        names.extend(self.part().into_iter().map(named));
        names
    }

    fn current(&self) -> Option<usize> {
        self.before.current_ef
    }

    /// Which part of the body a command is for that succeeds or just fails.
    fn part(&self) -> Option<&'static str> {
        let file = self.before.record(self.current()?);
        let &[_, ins, p1, p2, length, ..] = self.command.as_slice() else { return None };
        let [p1, p2, length] = [p1, p2, length].map(u32::from);
        let (size, start) = (file.size, p1 << 8 | p2);
        match (ins, self.roomy.word) {
            (0xB2 | 0xDC, words::SUCCESS) if p1 == 254 => Some("record 254"),
            (0xB2 | 0xDC, words::SUCCESS) => {
                (p1 * u32::from(file.record_length) == size).then_some("last record")
            }
            (0xB2 | 0xDC, words::RECORD_NOT_FOUND) if p1 == 0 => Some("record 0"),
            (0xB2 | 0xDC, words::RECORD_NOT_FOUND) => {
                ((p1 - 1) * u32::from(file.record_length) == size).then_some("past the last")
            }
            (0xB0 | 0xD6, words::WRONG_PARAMETERS) => (start == size).then_some("start at the end"),
            (0xB0 | 0xD6, words::WRONG_LENGTH) => {
                (start + length == size + 1).then_some("one byte past the end")
            }
            (0xB0 | 0xD6, words::SUCCESS) => (start + length == size).then_some("up to the end"),
            _ => None,
        }
    }

    /// How CREATE found a place.
    fn of_create(&self) -> Vec<String> {
        let Some(new) = self.after.current_ef else { return vec!["DF made".into()] };
        let old = in_order(&self.before);
        let place = body(self.after.record(new));
        let gaps = layouts::gaps(&self.before);
        let size = self.after.record(new).size;
        let start = |card: &Card, slot: usize| card.record(slot).start;
        let moved =
            old.iter().filter(|&&s| start(&self.before, s) != start(&self.after, s)).count();
        let above = old.iter().any(|&slot| body(self.after.record(slot)).start >= place.end);
        let by_slot = old.windows(2).all(|two| two[0] < two[1]);
        let free_stays = (0..self.pool.len()).any(|at| {
            let free =
                |card: &Card| in_order(card).iter().all(|&s| !body(card.record(s)).contains(&at));
            moved > 0 && self.pool[at] != 0 && free(&self.before) && free(&self.after)
        });
        let wiped = self.pool.iter().zip(&self.pool_after).any(|(old, new)| *old != 0 && *new == 0);
        let told = [
            (moved == 0 && above, "made in a gap"),
            (moved == 0 && above && gaps.contains(&size), "made in a gap of its size"),
            (moved == 0 && !above, "made above all"),
            (moved == 0 && gaps.contains(&(size - 1)), "made past a gap one byte short"),
            (moved > 0, "packed"),
            (moved > 0 && gaps.contains(&(size - 1)), "packed for one byte"),
            (moved > 1 && !by_slot, "packed in another order than the slots"),
            (moved > 0 && moved < old.len(), "packed, the lowest stays"),
            (moved > 0 && wiped, "packed, bytes wiped"),
            (free_stays, "packed, free bytes stay"),
            (self.after.room(self.before.current_df) == 0, "made with no room left"),
            (size == 1, "made of one byte"),
        ];
        told.into_iter().filter(|(is_so, _)| *is_so).map(|(_, name)| name.to_string()).collect()
    }

    /// A refusal for memory although the pool has as many free bytes.
    fn of_no_memory(&self) -> Vec<String> {
        let free: u32 = layouts::gaps(&self.before).iter().sum();
        let asked = model::ledger::announced(&self.command).map_or(u32::MAX, |new| new.size);
        let name = if asked <= free { "6A84 with free bytes" } else { "6A84 without" };
        vec![name.to_string()]
    }

    fn of_delete(&self) -> Vec<String> {
        let left = in_order(&self.after).len();
        let name = match in_order(&self.before).len() - left {
            0 => "no body deleted",
            1 => "one body deleted",
            _ => "several bodies deleted",
        };
        let others = if left > 0 { ", others stay" } else { "" };
        vec![format!("{name}{others}")]
    }
}

/// Whether a READ or an UPDATE could pass the steps A to K with some rule.
fn usable(card: &Card, slot: usize) -> bool {
    let activated = model::life_cycle::is_activated(card.record(slot).life_cycle);
    activated && !card.is_terminated_above(slot) && !card.is_terminated(0)
}
