//! Demand 3's ledger, kept beside the card: 01, "What the statements must tie
//! down".
//!
//! What it takes in: the maker's call (the root's total), and of each command
//! answered 9000 the identifier and the size or total that stand in the
//! command itself. What it asks the image: only which DF slot is current,
//! header bytes 7 and 8, before and after the command. It never reads a
//! record, and it has its own reading of commands, apart from the model's.
//!
//! Room of a directory := the total announced for it, less (size + 64) for
//! each of its live direct children.

use crate::bytes::{byte, number16, part, rest, value};
use crate::record::charge;
use crate::words::{Word, NOT_ENOUGH_MEMORY, SUCCESS};

/// The INS bytes that the ledger looks for.
const CREATE: u8 = 0xE0;
const DELETE: u8 = 0xE4;

/// A live file as the ledger knows it.
#[derive(Clone, PartialEq, Eq, Debug)]
struct Entry {
    /// Slot of the directory in which it was created.
    directory: u16,
    identifier: u16,
    /// The announced size or total.
    size: u32,
    /// The slot of a DF, known because a new DF becomes current.
    own_slot: Option<u16>,
}

/// What a CREATE announces.
#[derive(Clone, Copy, PartialEq, Eq, Debug)]
pub struct Announced {
    /// The new file is a DF.
    pub is_df: bool,
    /// Its identifier.
    pub identifier: u16,
    /// Its size or total.
    pub size: u32,
}

/// The ledger of one card from its making on.
#[derive(Clone, PartialEq, Eq, Debug)]
pub struct Ledger {
    root_total: u32,
    entries: Vec<Entry>,
}

impl Ledger {
    /// Opens the ledger with the maker's call, when that answered 0.
    pub fn open(root_total: u32) -> Ledger {
        Ledger { root_total, entries: Vec::new() }
    }

    /// Enters a command and its word. `before` and `after` are the current
    /// DF slots before and after it, see [`current_df_slot`].
    pub fn enter(&mut self, command: &[u8], word: Word, before: u16, after: u16) {
        if word != SUCCESS {
            return;
        }
        match byte(command, 1) {
            CREATE => self.enter_create(command, before, after),
            DELETE => self.strike(before, number16(command, 5)),
            _ => {}
        }
    }

    fn enter_create(&mut self, command: &[u8], before: u16, after: u16) {
        if let Some(new) = announced(command) {
            self.entries.push(Entry {
                directory: before,
                identifier: new.identifier,
                size: new.size,
                own_slot: new.is_df.then_some(after),
            });
        }
    }

    /// Strikes a directory's child out, with all beneath it.
    fn strike(&mut self, directory: u16, identifier: u16) {
        let found = self
            .entries
            .iter()
            .position(|entry| entry.directory == directory && entry.identifier == identifier);
        let Some(found) = found else { return };
        let mut emptied: Vec<u16> = self.entries.remove(found).own_slot.into_iter().collect();
        while let Some(gone) = emptied.pop() {
            let (struck, kept) = std::mem::take(&mut self.entries)
                .into_iter()
                .partition(|entry| entry.directory == gone);
            self.entries = kept;
            emptied.extend(struck.into_iter().filter_map(|entry: Entry| entry.own_slot));
        }
    }

    /// The total announced for the directory in a slot.
    pub fn total(&self, directory: u16) -> Option<u32> {
        if directory == 0 {
            return Some(self.root_total);
        }
        let entry = self.entries.iter().find(|e| e.own_slot == Some(directory))?;
        Some(entry.size)
    }

    /// The room of the directory in a slot; nothing if the ledger knows no
    /// such directory or more was charged than announced, which a card that
    /// keeps demand 3 never lets happen.
    pub fn room(&self, directory: u16) -> Option<u64> {
        let charged: u64 = self
            .entries
            .iter()
            .filter(|entry| entry.directory == directory)
            .map(|entry| charge(entry.size))
            .sum();
        u64::from(self.total(directory)?).checked_sub(charged)
    }

    /// How many live children the directory in a slot has.
    pub fn children(&self, directory: u16) -> usize {
        self.entries.iter().filter(|entry| entry.directory == directory).count()
    }

    /// Whether size + 64 is at most the room of the directory in a slot.
    pub fn has_room_for(&self, directory: u16, size: u32) -> bool {
        self.room(directory).is_some_and(|room| charge(size) <= room)
    }

    /// Whether a command's word agrees with demand 3, judged before the
    /// command is entered: a CREATE is answered 9000 only where there is
    /// room, and 6A84 only where there is none. Nothing else is judged.
    pub fn agrees(&self, command: &[u8], word: Word, directory: u16) -> bool {
        if byte(command, 1) != CREATE || !matches!(word, SUCCESS | NOT_ENOUGH_MEMORY) {
            return true;
        }
        let room = announced(command).map(|new| self.has_room_for(directory, new.size));
        room == Some(word == SUCCESS)
    }
}

/// The only question that the ledger asks an image.
pub fn current_df_slot(image: &[u8]) -> u16 {
    number16(image, 7)
}

/// What a well-formed CREATE announces: the values of 83 and of 80 or 81.
pub fn announced(command: &[u8]) -> Option<Announced> {
    let mut objects = rest(command, 7);
    let (mut identifier, mut size, mut is_df) = (None, None, false);
    while let (Some(&tag), Some(&length)) = (objects.first(), objects.get(1)) {
        let contents = part(objects, 2, usize::from(length))?;
        match tag {
            0x83 => identifier = Some(number16(contents, 0)),
            0x80 => size = value(contents),
            0x81 => {
                size = value(contents);
                is_df = true;
            }
            _ => {}
        }
        objects = rest(objects, 2 + usize::from(length));
    }
    Some(Announced { is_df, identifier: identifier?, size: size? })
}
