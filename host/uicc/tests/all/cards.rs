//! What a card is whose files were made again, foretold from the documents by
//! the model, which the program asks for no right.

use std::collections::BTreeMap;

use model::life_cycle::{is_deactivated, is_terminated, ACTIVATED, DEACTIVATED, TERMINATED};
use model::maker::ROOT_DESCRIPTOR;
use model::rule::{decide, Form, Right};
use model::{bodies, Card, Record, State};

/// Bytes from here on are reached by no UPDATE BINARY: it starts before 8000 and
/// takes 255.
const OUT_OF_REACH: usize = 0x7FFF + 255;

/// The identifiers on the way from the root to a file.
pub type Path = Vec<u16>;
/// The 64 bytes of each file's record, but parent, level and start; and what the
/// file holds.
pub type Tree = BTreeMap<Path, (Vec<u8>, Vec<u8>)>;

/// A card as its file has it.
pub struct Kept {
    pub card: Card,
    pub pool: Vec<u8>,
}

impl Kept {
    /// Reads a file: the image, as long as its slot count tells, and the pool.
    pub fn read(bytes: &[u8]) -> Kept {
        let slots = usize::from(u16::from_be_bytes([bytes[5], bytes[6]]));
        let (image, pool) = bytes.split_at(16 + 64 * slots);
        Kept { card: Card::decode(image).expect("a card"), pool: pool.to_vec() }
    }

    /// A card, with a pool only where there are bodies.
    pub fn new(card: Card, pool: Vec<u8>) -> Kept {
        let pool = if card.edition.has_bodies() { pool } else { Vec::new() };
        Kept { card, pool }
    }

    pub fn bytes(&self) -> Vec<u8> {
        [self.card.encode(), self.pool.clone()].concat()
    }

    /// What a file holds.
    pub fn body(&self, slot: usize) -> &[u8] {
        let record = self.card.record(slot);
        match bodies::has_body(&self.card, record) {
            true => &self.pool[bodies::body(record)],
            false => &[],
        }
    }
}

/// What is to be found on the new card.
pub struct Foretold {
    pub tree: Tree,
    pub current: Path,
    /// How many things are told as lost.
    pub lost: usize,
}

pub fn path(card: &Card, slot: usize) -> Path {
    let mut path: Path =
        card.above(slot).into_iter().map(|above| card.record(above).identifier).collect();
    path.reverse();
    path.push(card.record(slot).identifier);
    path
}

pub fn tree(kept: &Kept) -> Tree {
    let card = &kept.card;
    let file = |slot| (bytes(card, card.record(slot)), kept.body(slot).to_vec());
    card.used_slots().map(|slot| (path(card, slot), file(slot))).collect()
}

/// The path of what is current.
pub fn current(card: &Card) -> Path {
    path(card, card.current_ef.unwrap_or(card.current_df))
}

fn bytes(card: &Card, record: &Record) -> Vec<u8> {
    let mut bytes = Vec::new();
    Record { parent: 0, level: 0, start: 0, ..record.clone() }.encode(card.edition, &mut bytes);
    bytes
}

fn grants(record: &Record, right: Right) -> bool {
    decide(record.form, &record.rule, right, &State::FULL).is_granted()
}

/// Whether a file can be created in its directory.
fn is_granted(card: &Card, slot: usize) -> bool {
    let right = if card.record(slot).is_df() { Right::CreateDf } else { Right::CreateEf };
    slot == 0 || grants(card.record(card.parent(slot)), right)
}

/// Whether a file and all directories above it can be created.
fn is_made(card: &Card, slot: usize) -> bool {
    is_granted(card, slot) && card.above(slot).into_iter().all(|above| is_granted(card, above))
}

/// The life cycle that a file can be brought to.
fn life_cycle(card: &Card, slot: usize) -> u8 {
    let record = card.record(slot);
    let may = |right| grants(record, right);
    let own = record.life_cycle;
    let by_command = slot == 0 || card.children(slot).next().is_some();
    match own {
        _ if is_terminated(own) && may(Right::Terminate) => TERMINATED,
        _ if is_terminated(own) => ACTIVATED,
        _ if is_deactivated(own) && by_command && may(Right::Deactivate) => DEACTIVATED,
        _ if is_deactivated(own) && by_command => ACTIVATED,
        _ if slot == 0 => ACTIVATED,
        _ => own,
    }
}

/// What a file can be brought to hold. It is updated while it is activated, and
/// comes to 04 and 0C then; before it is activated, and with 06, it cannot be.
fn body(kept: &Kept, slot: usize) -> Vec<u8> {
    let (record, old) = (kept.card.record(slot), kept.body(slot));
    let updated = grants(record, Right::UPDATE)
        && match record.life_cycle {
            0x05 | 0x07 | 0x0C => true,
            0x04 => grants(record, Right::Deactivate),
            _ => false,
        };
    let reached = if record.record_length > 0 { old.len() } else { OUT_OF_REACH };
    let new = |(place, byte): (usize, &u8)| if updated && place < reached { *byte } else { 0xFF };
    old.iter().enumerate().map(new).collect()
}

/// Whether the rule of a file stands in a record of another one. What comes back
/// of such a card depends on the order of the script, and is not foretold.
pub fn refers(card: &Card) -> bool {
    card.used_slots().any(|slot| card.record(slot).form == Form::Referred)
}

/// What is found on a new card, with as many things lost as differ: files that are
/// missing where their directory is not, life cycles, what files hold, and the
/// root's name and descriptor. Nothing else may differ.
pub fn found(old: &Kept, new: &Kept) -> Foretold {
    let slots = |kept: &Kept| -> BTreeMap<Path, usize> {
        kept.card.used_slots().map(|slot| (path(&kept.card, slot), slot)).collect()
    };
    let (before, after) = (slots(old), slots(new));
    let (mut tree, mut lost) = (Tree::new(), 0);
    for (path, slot) in &before {
        let Some(now) = after.get(path) else {
            lost += usize::from(after.contains_key(&path[..path.len() - 1]));
            continue;
        };
        let (was, is) = (old.card.record(*slot), new.card.record(*now));
        let mut record = Record { life_cycle: is.life_cycle, ..was.clone() };
        lost += usize::from(was.life_cycle != is.life_cycle);
        lost += usize::from(old.body(*slot) != new.body(*now));
        if *slot == 0 {
            lost += usize::from(!record.name.is_empty());
            lost += usize::from(record.descriptor != ROOT_DESCRIPTOR);
            record.name.clear();
            record.descriptor = ROOT_DESCRIPTOR;
        }
        tree.insert(path.clone(), (bytes(&old.card, &record), new.body(*now).to_vec()));
    }
    let current = current(&old.card);
    let current = if after.contains_key(&current) { current } else { path(&old.card, 0) };
    Foretold { tree, current, lost }
}

pub fn foretold(kept: &Kept) -> Foretold {
    let card = &kept.card;
    let (mut tree, mut lost) = (Tree::new(), 0);
    for slot in card.used_slots() {
        if !is_made(card, slot) {
            lost += usize::from(is_made(card, card.parent(slot)));
            continue;
        }
        let mut record = card.record(slot).clone();
        record.life_cycle = life_cycle(card, slot);
        lost += usize::from(record.life_cycle != card.record(slot).life_cycle);
        if slot == 0 {
            lost += usize::from(!record.name.is_empty());
            lost += usize::from(record.descriptor != ROOT_DESCRIPTOR);
            record.name.clear();
            record.descriptor = ROOT_DESCRIPTOR;
        }
        let body = body(kept, slot);
        lost += usize::from(body != kept.body(slot));
        tree.insert(path(card, slot), (bytes(card, &record), body));
    }
    let file = card.current_ef.unwrap_or(card.current_df);
    let current = path(card, if is_made(card, file) { file } else { 0 });
    Foretold { tree, current, lost }
}
