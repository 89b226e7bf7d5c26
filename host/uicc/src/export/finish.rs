//! What comes when the files are made: life cycles, the root, and what is current.

use model::life_cycle::{is_deactivated, is_terminated, ACTIVATED, DEACTIVATED, TERMINATED};

use super::source::ROOT;
use super::{Exporter, DEACTIVATE};
use crate::{describe, hex};

const TERMINATE_EF: u8 = 0xE8;
const TERMINATE_DF: u8 = 0xE6;
const TERMINATE_CARD: u8 = 0xFE;

impl Exporter<'_> {
    /// Brings a file whose files are all made from the life cycle that it was
    /// made with to the one that it had.
    pub(super) fn finish(&mut self, slot: usize, first: u8) -> Result<(), String> {
        let (own, mut now) = (self.source.record(slot).life_cycle, first);
        if own == now {
            return Ok(());
        }
        let mut why = format!("no command writes {own:02X}");
        let change = match (self.source.record(slot).is_ef(), slot) {
            _ if is_deactivated(own) => Some((DEACTIVATE, DEACTIVATED)),
            _ if !is_terminated(own) => None,
            (true, _) => Some((TERMINATE_EF, TERMINATED)),
            (false, ROOT) => Some((TERMINATE_CARD, TERMINATED)),
            (false, _) => Some((TERMINATE_DF, TERMINATED)),
        };
        let name = self.source.name(slot);
        if let Some((instruction, after)) = change {
            let command = [0x00, instruction, 0x00, 0x00];
            let becomes = describe::life_cycle_and_byte(after);
            self.target.note(&format!("{name} is to become {becomes}"));
            // TERMINATE CARD USAGE goes by no current file.
            if instruction != TERMINATE_CARD {
                self.target.make_current(slot)?;
            }
            let reply = self.target.play(&command)?;
            match reply.word.is_success() {
                true => now = after,
                false => why = self.target.refused(&command, &reply),
            }
        }
        if own != now {
            let [own, now] = [own, now].map(describe::life_cycle_and_byte);
            self.lose(format!("{name} comes back {now}, not {own}: {why}"));
        }
        Ok(())
    }

    /// The root, which the maker made, and what is current. A terminated card
    /// serves no command, so that this comes last.
    pub(super) fn root(&mut self) -> Result<(), String> {
        let root = self.source.record(ROOT);
        let descriptor = root.descriptor;
        if descriptor != self.target.root_descriptor()? {
            self.lose(format!(
                "the descriptor {descriptor:02X} of 3F00 does not come back: uicc new gives another"
            ));
        }
        if !root.name.is_empty() {
            let name = hex::row(&root.name);
            self.lose(format!("the name {name} of 3F00 does not come back: uicc new gives none"));
        }
        let terminated = is_terminated(root.life_cycle);
        // The maker gives the root no other life cycle.
        if !terminated {
            self.finish(ROOT, ACTIVATED)?;
        }
        self.current()?;
        if terminated {
            self.finish(ROOT, ACTIVATED)?;
        }
        Ok(())
    }

    /// Makes current what was, if it is there, else the root.
    fn current(&mut self) -> Result<(), String> {
        let current = self.source.current();
        if self.target.is_current(current) {
            return Ok(());
        }
        if self.target.has(current) {
            self.target.note("what is current in the end");
            return self.target.make_current(current);
        }
        let name = self.source.name(current);
        self.target.note(&format!("3F00 is current in the end, since {name} is not made"));
        self.target.make_current(ROOT)
    }
}
