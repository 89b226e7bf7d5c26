//! The decoded image: header and list of records (01, "Image"), and the
//! questions that soundness, commands and report ask about the tree.

use crate::bytes::{all_zero, byte, number16, part};
use crate::edition::Edition;
use crate::life_cycle;
use crate::record::{Kind, Record, RECORD_BYTES};

/// Bytes in the header.
pub const HEADER_BYTES: usize = 16;
/// Fewest slots.
pub const FEWEST_SLOTS: usize = 2;
/// Most slots.
pub const MOST_SLOTS: usize = 1023;
/// The slot of the root.
pub const ROOT: usize = 0;
/// The identifier of the root.
pub const ROOT_IDENTIFIER: u16 = 0x3F00;
/// Identifiers that no file may carry.
pub const RESERVED_IDENTIFIERS: [u16; 3] = [0x3FFF, 0x7FFF, 0xFFFF];

const MARK: &[u8] = b"UFT";
const NO_EF: u16 = 0xFFFF;

/// An image, its fields read. Nothing says that it is sound.
#[derive(Clone, PartialEq, Eq, Debug)]
pub struct Card {
    /// Version and variant.
    pub edition: Edition,
    /// Slot of the current directory.
    pub current_df: usize,
    /// Slot of the current elementary file.
    pub current_ef: Option<usize>,
    /// The records, slot by slot.
    pub records: Vec<Record>,
}

impl Card {
    /// Reads an image; nothing if header, length or a record's layout is
    /// broken.
    pub fn decode(image: &[u8]) -> Option<Card> {
        let slots = usize::from(number16(image, 5));
        let header_good = part(image, 0, 3)? == MARK
            && (FEWEST_SLOTS..=MOST_SLOTS).contains(&slots)
            && slots_of_length(image.len()) == Some(slots)
            && all_zero(part(image, 12, 4)?);
        if !header_good {
            return None;
        }
        let edition = Edition::from_header(number16(image, 3), byte(image, 11))?;
        let mut records = Vec::with_capacity(slots);
        for slot in 0..slots {
            let bytes = part(image, HEADER_BYTES + RECORD_BYTES * slot, RECORD_BYTES)?;
            records.push(Record::decode(bytes, edition)?);
        }
        Some(Card {
            edition,
            current_df: usize::from(number16(image, 7)),
            current_ef: match number16(image, 9) {
                NO_EF => None,
                slot => Some(usize::from(slot)),
            },
            records,
        })
    }

    /// The bytes of the image.
    pub fn encode(&self) -> Vec<u8> {
        let mut out = MARK.to_vec();
        out.extend(self.edition.version_number().to_be_bytes());
        out.extend(slot_number(self.records.len()).to_be_bytes());
        out.extend(slot_number(self.current_df).to_be_bytes());
        out.extend(self.current_ef.map_or(NO_EF, slot_number).to_be_bytes());
        out.push(self.edition.variant_number());
        out.extend([0; 4]);
        for record in &self.records {
            record.encode(self.edition, &mut out);
        }
        out
    }

    /// The record in a slot; a slot that does not exist reads as free.
    pub fn record(&self, slot: usize) -> &Record {
        const FREE: &Record = &Record::FREE;
        self.records.get(slot).unwrap_or(FREE)
    }

    /// Puts a record into a slot, if the slot exists.
    pub fn put(&mut self, slot: usize, record: Record) {
        if let Some(place) = self.records.get_mut(slot) {
            *place = record;
        }
    }

    /// Writes the life-cycle byte of a slot, if the slot exists.
    pub fn set_life_cycle(&mut self, slot: usize, byte: u8) {
        if let Some(record) = self.records.get_mut(slot) {
            record.life_cycle = byte;
        }
    }

    /// Writes where the body of a slot starts, if the slot exists.
    pub fn set_start(&mut self, slot: usize, start: u16) {
        if let Some(record) = self.records.get_mut(slot) {
            record.start = start;
        }
    }

    /// The slots in use, in order.
    pub fn used_slots(&self) -> impl Iterator<Item = usize> + '_ {
        (0..self.records.len()).filter(|&slot| self.record(slot).is_used())
    }

    /// The slot of a file's directory.
    pub fn parent(&self, slot: usize) -> usize {
        usize::from(self.record(slot).parent)
    }

    /// The direct children of a directory, in the order of their slots. The
    /// root is nobody's child.
    pub fn children(&self, df: usize) -> impl Iterator<Item = usize> + '_ {
        self.used_slots().filter(move |&slot| slot != ROOT && self.parent(slot) == df)
    }

    /// The directories above a file, nearest first, down to the root. The
    /// walk takes at most as many steps as there are slots, so that it ends
    /// on an unsound card too.
    pub fn above(&self, slot: usize) -> Vec<usize> {
        let mut found = Vec::new();
        let mut at = slot;
        while at != ROOT && found.len() < self.records.len() {
            at = self.parent(at);
            found.push(at);
        }
        found
    }

    /// All files beneath a directory. It is not above itself, so it is not
    /// among them.
    pub fn beneath(&self, df: usize) -> Vec<usize> {
        self.used_slots().filter(|&slot| self.above(slot).contains(&df)).collect()
    }

    /// What the direct children of a directory take of its total.
    pub fn charged(&self, df: usize) -> u64 {
        self.children(df).map(|slot| self.record(slot).charge()).sum()
    }

    /// What is left of a directory's total.
    pub fn room(&self, df: usize) -> u64 {
        u64::from(self.record(df).size).saturating_sub(self.charged(df))
    }

    /// The lowest free slot.
    pub fn lowest_free_slot(&self) -> Option<usize> {
        (0..self.records.len()).find(|&slot| !self.record(slot).is_used())
    }

    /// Whether a file is terminated.
    pub fn is_terminated(&self, slot: usize) -> bool {
        life_cycle::is_terminated(self.record(slot).life_cycle)
    }

    /// Whether a directory above a file is terminated.
    pub fn is_terminated_above(&self, slot: usize) -> bool {
        self.above(slot).into_iter().any(|df| self.is_terminated(df))
    }

    /// Makes a file the current one: a DF with no current EF, an EF beside
    /// the current DF.
    pub fn make_current(&mut self, slot: usize) {
        match self.record(slot).kind {
            Kind::Df => {
                self.current_df = slot;
                self.current_ef = None;
            }
            Kind::Ef => self.current_ef = Some(slot),
            Kind::Free => {}
        }
    }
}

/// The N of a buffer of 16 + 64 N bytes with N from 2 to 1,023.
pub fn slots_of_length(length: usize) -> Option<usize> {
    let records = length.checked_sub(HEADER_BYTES)?;
    let slots = records / RECORD_BYTES;
    let whole = records % RECORD_BYTES == 0;
    (whole && (FEWEST_SLOTS..=MOST_SLOTS).contains(&slots)).then_some(slots)
}

/// The largest total that the root of a card with so many slots may have.
pub fn largest_total(slots: usize) -> u64 {
    RECORD_BYTES as u64 * (slots as u64).saturating_sub(1)
}

/// A slot as it stands in the image. Slots come from 16-bit fields or count
/// records, of which there are at most 1,023, so nothing is lost.
pub fn slot_number(slot: usize) -> u16 {
    u16::try_from(slot).unwrap_or(u16::MAX)
}
