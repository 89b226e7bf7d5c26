//! Demand 3's ledger as the theorem has it: `crates/history/specs/Ledger` and
//! `Story` in Rust, definition by definition and under the same names; walks
//! over entries are iterators, and `payer`, being the directory itself, is left
//! out. The model has another ledger, written from the documents; both are kept
//! beside every history, and must agree.
//!
//! A definition here is as plain as its original: no index, nothing kept that
//! can be computed. Numbers are unbounded there and wide enough here. What a
//! CREATE announces is read as the model's ledger reads it.

use model::ledger::announced as sent;
use model::words::{Word, SUCCESS};

/// A file that was created and lives.
#[derive(Clone, Copy, PartialEq, Eq, Debug, Default)]
pub struct Entry {
    /// Slot of the directory that it was created in.
    pub dir: u64,
    /// Its identifier.
    pub identifier: u64,
    /// Its size, or total.
    pub size: u64,
    /// The slot that a DF got; 0 for an EF.
    pub own: u64,
}

/// The root's total, and every file but the root, the newest first.
#[derive(Clone, PartialEq, Eq, Debug)]
pub struct Ledger {
    /// From the maker's call.
    pub total: u64,
    /// The entries.
    pub files: Vec<Entry>,
}

/// What a command announces.
#[derive(Clone, Copy, PartialEq, Eq, Debug)]
pub enum Announced {
    /// A new file: identifier, size or total, whether it is a DF.
    Makes(u64, u64, bool),
    /// A deletion of the file with this identifier.
    Deletes(u64),
    /// Neither.
    Neither,
}

/// `heard`: what a command announced, if it was answered 9000.
pub fn heard(command: &[u8], word: Word) -> Announced {
    match (word == SUCCESS, command.get(1)) {
        (true, Some(0xE0)) => sent(command).map_or(Announced::Neither, |new| {
            Announced::Makes(u64::from(new.identifier), u64::from(new.size), new.is_df)
        }),
        (true, Some(0xE4)) => match command.get(5..7) {
            Some(&[high, low]) => Announced::Deletes(u64::from(u16::from_be_bytes([high, low]))),
            _ => Announced::Neither,
        },
        _ => Announced::Neither,
    }
}

impl Ledger {
    /// `opened`: the ledger of a fresh card.
    pub fn opened(total: u32) -> Ledger {
        Ledger { total: u64::from(total), files: Vec::new() }
    }

    fn first_entry(&self, has: impl Fn(&Entry) -> bool) -> Entry {
        self.files.iter().copied().find(|entry| has(entry)).unwrap_or_default()
    }

    /// `lives_in`: the directory in slot d lives.
    pub fn lives_in(&self, d: u64) -> bool {
        d == 0 || self.files.iter().any(|entry| entry.own == d)
    }

    /// `total_in`: the total announced for it.
    pub fn total_in(&self, d: u64) -> u64 {
        if d == 0 {
            self.total
        } else {
            self.first_entry(|entry| entry.own == d).size
        }
    }

    /// `charged_in`: size plus 64 of each file created directly in it.
    pub fn charged_in(&self, d: u64) -> u64 {
        self.files.iter().filter(|entry| entry.dir == d).map(|entry| entry.size + 64).sum()
    }

    /// `room_in`: its room.
    pub fn room_in(&self, d: u64) -> u64 {
        self.total_in(d).saturating_sub(self.charged_in(d))
    }

    fn above_in(&self, d: u64) -> u64 {
        if d == 0 {
            0
        } else {
            self.first_entry(|entry| entry.own == d).dir
        }
    }

    /// `beneath_in`: d is c, or c stands some steps up from it, at most as many
    /// as there are entries.
    pub fn beneath_in(&self, c: u64, d: u64) -> bool {
        let mut at = d;
        for _ in 0..=self.files.len() {
            if at == c {
                return true;
            }
            at = self.above_in(at);
        }
        false
    }

    /// `file_in`: the file x of directory d.
    pub fn file_in(&self, d: u64, x: u64) -> Entry {
        self.first_entry(|entry| entry.dir == d && entry.identifier == x)
    }

    fn within(&self, d: u64, x: u64, t: u64) -> bool {
        let own = self.file_in(d, x).own;
        own != 0 && self.beneath_in(own, t)
    }

    fn goes_with(&self, d: u64, x: u64, entry: &Entry) -> bool {
        (entry.dir == d && entry.identifier == x) || self.within(d, x, entry.dir)
    }

    /// `entered`: the ledger after a command, with the current DF slots before
    /// and after it.
    pub fn entered(&self, told: Announced, before: u64, after: u64) -> Ledger {
        let files = match told {
            Announced::Makes(identifier, size, is_df) => {
                let own = if is_df { after } else { 0 };
                let new = Entry { dir: before, identifier, size, own };
                std::iter::once(new).chain(self.files.iter().copied()).collect()
            }
            Announced::Deletes(x) => {
                let stays = |entry: &&Entry| !self.goes_with(before, x, entry);
                self.files.iter().filter(stays).copied().collect()
            }
            Announced::Neither => self.files.clone(),
        };
        Ledger { total: self.total, files }
    }

    /// `strikes`: the command deletes directory d, or one above it.
    pub fn strikes(&self, told: Announced, before: u64, d: u64) -> bool {
        match told {
            Announced::Deletes(x) => self.within(before, x, d),
            Announced::Makes(..) | Announced::Neither => false,
        }
    }

    /// The directories that live, the root first.
    pub fn directories(&self) -> impl Iterator<Item = u64> + '_ {
        std::iter::once(0).chain(self.files.iter().map(|entry| entry.own).filter(|&own| own != 0))
    }
}
