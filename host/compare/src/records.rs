//! Smaller records of files in which rules are kept (02, Ticket 7), and references
//! that no longer are. An image of any bytes gives an image or nothing.

use std::collections::BTreeSet;

use model::bodies::body;
use model::deciding::PADDING;
use model::rule::Form;
use model::{Card, Record};

/// Everything always: expanded, and compact.
const OPEN: [u8; 5] = [0x80, 0x01, 0x7F, 0x90, 0x00];
const OPEN_COMPACT: [u8; 8] = [0x7F, 0, 0, 0, 0, 0, 0, 0];
/// How many bytes conditions and groups have that may be left out alone.
const OBJECTS: [usize; 4] = [2, 3, 5, 6];
/// Records as short as the shortest rules, and a byte of padding behind them.
const SHORT: [u16; 4] = [5, 6, 7, 8];

/// What becomes of the records of a file.
#[derive(Clone, Copy, PartialEq, Eq, Debug)]
pub enum Change {
    /// This one alone is left, and is the first.
    Only(u8),
    /// So many bytes are left of each.
    Short(u16),
    /// Each holds the shortest rule that allows everything.
    Open,
    /// In each, so many bytes from a place on are left out, and padding comes in.
    Without(usize, usize),
}

/// What can be changed, by the slots of the files to which references lead.
pub fn changes_of(image: &[u8]) -> Vec<(usize, Change)> {
    let Some(card) = Card::decode(image) else { return Vec::new() };
    let referred = card.records.iter().filter(|file| is_referred(file));
    let named: BTreeSet<_> = referred.map(named).collect();
    let mut all = Vec::new();
    for slot in card.used_slots().filter(|&slot| card.record(slot).record_length > 0) {
        let Record { identifier, record_length, .. } = *card.record(slot);
        let numbers = named.iter().filter(|(of, _)| *of == identifier).map(|(_, number)| *number);
        let only: Vec<_> = numbers.map(|number| (slot, Change::Only(number))).collect();
        if !only.is_empty() {
            all.extend(only);
            all.push((slot, Change::Open));
            all.extend(shorter(record_length).map(|change| (slot, change)));
        }
    }
    all
}

/// Shorter records, and such with something left out.
fn shorter(length: u16) -> impl Iterator<Item = Change> {
    let halves = move || {
        std::iter::successors(Some(length / 2), |part| Some(part / 2)).take_while(|&part| part > 0)
    };
    let short = SHORT.into_iter().filter(move |&short| short < length);
    let short = short.chain(halves().map(move |part| length - part)).map(Change::Short);
    let widths = halves().map(usize::from).filter(|part| *part > 6).chain(OBJECTS);
    let without = widths.flat_map(move |width| {
        let step = if OBJECTS.contains(&width) { 1 } else { width };
        (0..usize::from(length)).step_by(step).map(move |at| Change::Without(at, width))
    });
    short.chain(without)
}

/// Image and pool with the records of the file in a slot changed.
pub fn changed(
    image: &[u8],
    pool: &[u8],
    slot: usize,
    change: Change,
) -> Option<(Vec<u8>, Vec<u8>)> {
    let mut card = Card::decode(image)?;
    let file = card.records.get(slot)?.clone();
    let length = usize::from(file.record_length).max(1);
    let records = change.of(pool.get(body(&file))?, length)?;
    if let Change::Only(number) = change {
        rename(&mut card, file.identifier, number);
    }
    let bytes = records.concat();
    let mut new = pool.to_vec();
    new.get_mut(body(&file))?.fill(0);
    let record_length = u16::try_from(records.first()?.len()).ok()?;
    let file = Record { record_length, size: u32::try_from(bytes.len()).ok()?, ..file };
    new.get_mut(body(&file))?.copy_from_slice(&bytes);
    card.put(slot, file);
    Some((card.encode(), new))
}

impl Change {
    /// What becomes of records of so many bytes.
    fn of(self, body: &[u8], length: usize) -> Option<Vec<Vec<u8>>> {
        let mut records = body.chunks_exact(length);
        match self {
            Change::Only(number) => {
                let record = records.nth(usize::from(number).checked_sub(1)?)?;
                Some(vec![record.to_vec()])
            }
            Change::Short(left) => {
                records.map(|record| Some(record.get(..left.into())?.to_vec())).collect()
            }
            Change::Open => Some(records.map(|_| padded(OPEN.to_vec(), length)).collect()),
            Change::Without(at, count) => {
                let left_out = |record: &[u8]| {
                    let mut bytes = record.to_vec();
                    let end = bytes.len().min(at.saturating_add(count));
                    (at < end).then(|| bytes.drain(at..end).count());
                    padded(bytes, length)
                };
                Some(records.map(left_out).collect())
            }
        }
    }
}

/// References to this record become such to the first.
fn rename(card: &mut Card, identifier: u16, number: u8) {
    for file in card.records.iter_mut().filter(|file| is_referred(file)) {
        if named(file) == (identifier, number) {
            file.rule.iter_mut().skip(2).for_each(|byte| *byte = 1);
        }
    }
}

/// The image with open rules in the place of references.
pub fn owned(image: &[u8], slot: usize, count: usize) -> Option<Vec<u8>> {
    let mut card = Card::decode(image)?;
    let mut found = false;
    let files = card.records.iter_mut().skip(slot).take(count);
    for file in files.filter(|file| is_referred(file)) {
        (file.form, file.rule) = (Form::Compact, OPEN_COMPACT.to_vec());
        found = true;
    }
    found.then(|| card.encode())
}

fn is_referred(file: &Record) -> bool {
    file.is_used() && file.form == Form::Referred
}

/// The identifier and the record number of a reference.
fn named(file: &Record) -> (u16, u8) {
    let byte = |at: usize| file.rule.get(at).copied().unwrap_or(0);
    (u16::from_be_bytes([byte(0), byte(1)]), byte(2))
}

fn padded(mut bytes: Vec<u8>, length: usize) -> Vec<u8> {
    bytes.resize(length, PADDING);
    bytes
}
