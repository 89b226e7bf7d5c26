//! The files of a card as a script that makes them again on a fresh card.
//!
//! Nothing is foretold: each command is played on a fresh card in memory before
//! it is written down, with every condition satisfied, and what that card
//! refuses is told as lost. A directory must not be deactivated or terminated
//! while files are made in it, so it comes to that after them. A file is updated
//! only while it is activated; what it then holds is compared.
//!
//! A file that keeps rules of others is made before them and filled at once. What
//! its rules no longer allow, as somebody has updated it since, would be lost so:
//! then the records that are named stand open while the files are made, and the
//! file is filled last.

mod contents;
mod finish;
mod referred;
mod source;
mod target;

use std::collections::BTreeMap;

use card::Card;
use model::life_cycle::{is_deactivated, is_terminated, ACTIVATED, DEACTIVATED};

use crate::arguments::Fresh;
use crate::fcp::Template;
use source::{Source, ROOT};
use target::Target;

const DEACTIVATE: u8 = 0x04;

/// A script, and what of the card it does not make again, a sentence for each.
pub struct Export {
    pub script: String,
    pub lost: Vec<String>,
}

/// What is still to be done.
enum Work {
    /// A file is made, and what is in it.
    Make(usize),
    /// All that a file rules is made: it gets what it held.
    Close(usize),
    /// All files of a directory are made, or an EF is filled; with the life
    /// cycle that it was made with.
    Finish(usize, u8),
}

/// The script of a card, which is only read. Where rules stand in records that
/// lose something as they are, they are opened, if that loses less.
pub fn export(card: &Card) -> Result<Export, String> {
    let source = Source::new(card)?;
    let (plain, files) = attempt(&source, false)?;
    if plain.lost.is_empty() || source.referred().is_empty() {
        return Ok(plain);
    }
    let (opened, files_then) = attempt(&source, true)?;
    let less = (files_then, opened.lost.len()) < (files, plain.lost.len());
    Ok(if less { opened } else { plain })
}

/// A script, with how many files it does not make.
fn attempt(source: &Source, opens: bool) -> Result<(Export, usize), String> {
    let fresh = source.fresh();
    let target = Target::new(source, &fresh)?;
    let (open, lost) = (BTreeMap::new(), Vec::new());
    let mut exporter = Exporter { source, target, opens, open, lost, files: 0 };
    exporter.files()?;
    exporter.root()?;
    let Exporter { target, lost, files, .. } = exporter;
    let script = head(&fresh, lost.len(), opens) + &target.into_lines();
    Ok((Export { script, lost }, files))
}

/// What a reader must know first.
fn head(fresh: &Fresh, lost: usize, opens: bool) -> String {
    let options = fresh.options();
    let told = match lost {
        0 => "all of the card is made again.".to_string(),
        1 => "NOT ALL of the card is made again:\n# one line below begins with LOST.".to_string(),
        _ => format!("NOT ALL of the card is made again:\n# {lost} lines below begin with LOST."),
    };
    let opened = match opens {
        true => "# Records that keep rules allow everything until all that they rule is made.\n",
        false => "",
    };
    format!(
        "# The files of a card, made again on a fresh one of its version and size:\n\
         #     uicc new NEW.card {options}\n\
         #     uicc run THIS.apdu --image NEW.card\n\
         # Tried on such a card: no command is refused, and {told}\n\
         # No card keeps the C6 of a directory; C60100 stands for it.\n{opened}\n"
    )
}

struct Exporter<'a> {
    source: &'a Source,
    target: Target<'a>,
    /// Whether records that keep rules are opened.
    opens: bool,
    /// The files that stand open, with the life cycle that they were made with.
    open: BTreeMap<usize, u8>,
    lost: Vec<String>,
    /// How many files are not made.
    files: usize,
}

impl Exporter<'_> {
    /// All files but the root, each directory before what is in it.
    fn files(&mut self) -> Result<(), String> {
        let mut left: Vec<Work> = self.inside(ROOT);
        while let Some(work) = left.pop() {
            match work {
                Work::Make(slot) => match self.make(slot)? {
                    Some(first) if self.openings(slot).is_some() => {
                        self.open.insert(slot, first);
                    }
                    Some(first) => {
                        left.push(Work::Finish(slot, first));
                        left.extend(self.inside(slot));
                    }
                    None => {}
                },
                Work::Close(slot) => self.close(slot)?,
                Work::Finish(slot, first) => self.finish(slot, first)?,
            }
        }
        Ok(())
    }

    /// What is to be done for the files in a directory, the first thing last. Of
    /// files that stand open those are closed first that others of them rule.
    fn inside(&self, directory: usize) -> Vec<Work> {
        let files = self.source.children(directory).iter().copied();
        let open = files.clone().filter(|slot| self.openings(*slot).is_some());
        open.map(Work::Close).chain(files.rev().map(Work::Make)).collect()
    }

    /// The commands that open the records of a file that keeps rules, if it is
    /// to stand open.
    fn openings(&self, slot: usize) -> Option<Vec<Vec<u8>>> {
        let numbers = self.source.referred().records(slot).filter(|_| self.opens)?;
        Some(contents::openings(self.source.record(slot), numbers))
    }

    /// Brings what a file that stood open held into it, and its life cycle.
    fn close(&mut self, slot: usize) -> Result<(), String> {
        let Some(first) = self.open.remove(&slot) else { return Ok(()) };
        self.target.note(&format!("what {} held", self.source.name(slot)));
        self.target.make_current(slot)?;
        let (record, body) = (self.source.record(slot), self.source.body(slot));
        let rewrites = contents::rewrites(record, self.target.body()?, body);
        self.fill(slot, &rewrites)?;
        self.finish(slot, first)
    }

    /// Makes a file and fills it; gives the life cycle that it has then, if it is
    /// there.
    fn make(&mut self, slot: usize) -> Result<Option<u8>, String> {
        let data = self.source.template(slot)?;
        let template = self.source.read(&data)?;
        let name = self.source.name(slot);
        self.target.reach(self.source.parent(slot))?;
        self.target.note(&format!("{name}: {}", template.in_short()));
        let contents = contents::updates(self.source.record(slot), self.source.body(slot));
        let openings = self.openings(slot);
        let commands = [openings.clone().unwrap_or_default(), contents.clone()].concat();
        let first = self.first_life_cycle(slot, &template, &commands)?;
        let create = template.create(first);
        let reply = self.target.play(&create)?;
        if !reply.word.is_success() {
            let beneath = match self.source.beneath(slot) {
                0 => String::new(),
                1 => ", nor the file beneath it".to_string(),
                many => format!(", nor the {many} files beneath it"),
            };
            let why = self.target.refused(&create, &reply);
            self.lose(format!("{name} does not come back{beneath}: {why}"));
            self.files += 1 + self.source.beneath(slot);
            return Ok(None);
        }
        self.target.made(slot);
        match openings {
            // What cannot be opened is seen by what it rules.
            Some(openings) => {
                for command in openings {
                    self.target.play(&command)?;
                }
            }
            None => self.fill(slot, &contents)?,
        }
        Ok(Some(first))
    }

    /// The life cycle that a file is made with: its own, unless CREATE takes
    /// no such byte, or the directory would take no files then. A deactivated
    /// file that holds something is made activated, if it can be filled and
    /// come to its own byte then.
    fn first_life_cycle(
        &self,
        slot: usize,
        template: &Template,
        commands: &[Vec<u8>],
    ) -> Result<u8, String> {
        let own = self.source.record(slot).life_cycle;
        let closed = is_deactivated(own) && !self.source.children(slot).is_empty();
        if closed || is_terminated(own) {
            return Ok(ACTIVATED);
        }
        if own != DEACTIVATED || commands.is_empty() {
            return Ok(own);
        }
        let before = [template.create(ACTIVATED)];
        let after = [vec![0x00, DEACTIVATE, 0x00, 0x00]];
        let filled = self.target.would_take(&[&before, commands, &after].concat())?;
        Ok(if filled { ACTIVATED } else { own })
    }

    /// Brings what a file held into the new one, which is current. Whatever was
    /// played, the bodies are compared.
    fn fill(&mut self, slot: usize, contents: &[Vec<u8>]) -> Result<(), String> {
        let mut why = "no command reaches it".to_string();
        for command in contents {
            let reply = self.target.play(command)?;
            if !reply.word.is_success() {
                why = self.target.refused(command, &reply);
                break;
            }
        }
        let body = self.source.body(slot);
        if body.is_empty() {
            return Ok(());
        }
        let differs = self.target.body()?.iter().zip(body).position(|(new, old)| new != old);
        if let Some(place) = differs {
            let name = self.source.name(slot);
            self.lose(format!("what {name} holds does not come back from byte {place} on: {why}"));
        }
        Ok(())
    }

    /// Tells of something that it does not come back, by a whole sentence.
    fn lose(&mut self, what: String) {
        self.target.note(&format!("LOST: {what}"));
        self.lost.push(what);
    }
}

#[cfg(test)]
mod tests;
