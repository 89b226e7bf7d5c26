//! The card whose files are made again: its tree, and each file's template.

use card::{lent, Card, Kind, State, LONGEST_RESPONSE};
use model::life_cycle::ACTIVATED;
use model::{bodies, Card as Decoded, Record};

use super::referred::Referred;
use crate::arguments::Fresh;
use crate::fcp::Template;
use crate::rule::{self, Written};
use crate::tree;

/// The slot of the root.
pub const ROOT: usize = 0;

/// A card that is read. Slots are its own.
pub struct Source {
    kind: Kind,
    card: Decoded,
    pool: Vec<u8>,
    children: Vec<Vec<usize>>,
    referred: Referred,
}

impl Source {
    pub fn new(card: &Card) -> Result<Source, String> {
        let (kind, pool) = (card.kind(), card.pool().to_vec());
        let decoded = Decoded::decode(card.image()).ok_or("the image cannot be read")?;
        let referred = Referred::new(card, &decoded)?;
        let mut children = tree::children(&decoded);
        children.iter_mut().for_each(|list| list.sort_by_key(|slot| referred.turn(*slot)));
        Ok(Source { kind, card: decoded, pool, children, referred })
    }

    pub fn referred(&self) -> &Referred {
        &self.referred
    }

    /// The fresh card on which the files can be made again.
    pub fn fresh(&self) -> Fresh {
        let root = self.record(ROOT);
        let rule = rule::of_record(root);
        let rule = Written::bare(rule.form, rule.bytes.to_vec());
        Fresh { kind: self.kind, slots: self.card.records.len(), total: root.size, rule }
    }

    pub fn record(&self, slot: usize) -> &Record {
        self.card.record(slot)
    }

    pub fn parent(&self, slot: usize) -> usize {
        self.card.parent(slot)
    }

    /// The files in a directory, in the order in which they are made.
    pub fn children(&self, slot: usize) -> &[usize] {
        self.children.get(slot).map_or(&[], Vec::as_slice)
    }

    /// How many files stand beneath a directory.
    pub fn beneath(&self, slot: usize) -> usize {
        self.card.beneath(slot).len()
    }

    /// What a file holds; nothing where there are no bodies.
    pub fn body(&self, slot: usize) -> &[u8] {
        let record = self.record(slot);
        let body = bodies::has_body(&self.card, record).then(|| bodies::body(record));
        body.and_then(|body| self.pool.get(body)).unwrap_or_default()
    }

    /// The current EF, else the current directory.
    pub fn current(&self) -> usize {
        self.card.current_ef.unwrap_or(self.card.current_df)
    }

    /// The directories from the root down to a directory, itself the last.
    pub fn path(&self, directory: usize) -> Vec<usize> {
        let mut path = self.card.above(directory);
        path.reverse();
        path.push(directory);
        path
    }

    /// A file's identifier and its directory's.
    pub fn name(&self, slot: usize) -> String {
        let identifier = |slot| format!("{:04X}", self.record(slot).identifier);
        match slot {
            ROOT => identifier(ROOT),
            _ => format!("{} in {}", identifier(slot), identifier(self.parent(slot))),
        }
    }

    /// What SELECT answers of a file: by a copy in which the file's directory
    /// is current and the card is not terminated.
    pub fn template(&self, slot: usize) -> Result<Vec<u8>, String> {
        let mut copy = self.card.clone();
        copy.make_current(self.parent(slot));
        copy.set_life_cycle(ROOT, ACTIVATED);
        let [high, low] = self.record(slot).identifier.to_be_bytes();
        let select = [0x00, 0xA4, 0x00, 0x04, 0x02, high, low, 0x00];
        let (mut image, mut pool) = (copy.encode(), self.pool.clone());
        let mut response = [0; LONGEST_RESPONSE];
        let answer = lent::command(&mut image, &mut pool, &select, &mut response, &State::FULL);
        let length = answer.map_err(|error| error.to_string())?.data_length;
        Ok(response.into_iter().take(length).collect())
    }

    pub fn read<'a>(&self, data: &'a [u8]) -> Result<Template<'a>, String> {
        Template::read(data).ok_or_else(|| "SELECT answers no template".to_string())
    }
}
