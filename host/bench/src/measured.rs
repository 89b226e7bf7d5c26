//! What is measured on one shape of card, and printed.

use std::io::{self, Write};
use std::time::Duration;

use card::{lent, LONGEST_RESPONSE};
use cases::Lent;
use model::deciding::place_of;

use crate::bodied::without_bodies;
use crate::clock::{measure, measure_copy, Times};
use crate::shapes::Shape;
use crate::slowest::Slowest;
use crate::work::{Call, Task};
use crate::{table, Cell, SIZES};

const TEMPLATES: &str = "SELECT with template / without, in turn in one run";
const AGAINST_SELECT: &str = "commands / SELECT of the last file, in turn in one run";
const VERSIONS: &str =
    "soundness of version 3 / of the same files on version 2, in turn in one run";
const OF_POOL: &str = "copies of the pool";
const AGAINST_OWN: &str =
    "rules in one file / in the files' own records, the same card, in turn in one run";

/// One shape in all sizes.
pub struct Measured<'a, W> {
    pub shapes: &'a [Shape; 4],
    /// One copy of the image at each size.
    pub copies: &'a [Times; 4],
    pub budget: Duration,
    pub out: &'a mut W,
}

impl<W: Write> Measured<'_, W> {
    /// Measures everything and prints it.
    pub fn print(&mut self) -> io::Result<()> {
        let [.., Shape { title, start, wanted, tasks, own }] = self.shapes;
        let has_bodies = !start.pool.is_empty();
        writeln!(self.out, "\n{title}\n{}", table::columns(&SIZES))?;
        let mut slowest = Slowest::default();
        let mut rows = Vec::new();
        for &task in *tasks {
            let cells = self.starts().map(|start| cell(task, start, self.budget));
            writeln!(self.out, "{}", table::row(task.title(), &SIZES, &cells, self.copies))?;
            slowest.see(task, &cells, self.copies);
            rows.push((task, cells));
        }
        writeln!(self.out, "{}", slowest.told(&SIZES, *wanted))?;
        if own.is_some() {
            self.against_own(tasks)
        } else if has_bodies {
            self.ratios(AGAINST_SELECT, &Task::AGAINST_SELECT)?;
            self.copies_of_the_pool(&rows)?;
            self.versions()
        } else {
            self.ratios(TEMPLATES, &Task::TEMPLATES)
        }
    }

    fn starts(&self) -> [&Lent; 4] {
        self.shapes.each_ref().map(|shape| &shape.start)
    }

    /// How many times as long the second task takes as the first.
    fn ratios(&mut self, head: &str, all: &[(&str, Task, Task)]) -> io::Result<()> {
        writeln!(self.out, "{}", table::ratio_head(head, &SIZES))?;
        for (what, first, second) in all {
            let both = |start| (first.prepared(start), second.prepared(start));
            let ratios = self.starts().map(|start| ratio(both(start), self.budget));
            writeln!(self.out, "{}", table::ratio_row(what, &ratios, 3))?;
        }
        Ok(())
    }

    /// How many times as long each task takes where the rules stand in one file.
    fn against_own(&mut self, tasks: &[Task]) -> io::Result<()> {
        writeln!(self.out, "{}", table::ratio_head(AGAINST_OWN, &SIZES))?;
        for task in tasks {
            let ratios = self.shapes.each_ref().map(|shape| {
                let own = shape.own.as_ref().unwrap_or(&shape.start);
                ratio((task.prepared(own), task.prepared(&shape.start)), self.budget)
            });
            writeln!(self.out, "{}", table::ratio_row(task.title(), &ratios, 3))?;
        }
        Ok(())
    }

    /// The commands about bodies, in copies of the pool.
    fn copies_of_the_pool(&mut self, rows: &[(Task, [Cell; 4])]) -> io::Result<()> {
        let copies = self.starts().map(|start| measure_copy(start.pool.len(), self.budget));
        writeln!(self.out, "{}", table::ratio_head(OF_POOL, &SIZES))?;
        let about_bodies = |task: Task| Task::AGAINST_SELECT.iter().any(|(.., of)| *of == task);
        for (task, cells) in rows.iter().filter(|(task, _)| about_bodies(*task)) {
            let mut sizes = cells.iter().zip(&copies).map(|(cell, copy)| Times {
                median: cell.card.median / copy.median,
                lowest: cell.card.lowest / copy.lowest,
            });
            let none = Times { median: f64::NAN, lowest: f64::NAN };
            let ratios = [(); 4].map(|()| sizes.next().unwrap_or(none));
            writeln!(self.out, "{}", table::ratio_row(task.title(), &ratios, 1))?;
        }
        Ok(())
    }

    /// What bodies add to soundness.
    fn versions(&mut self) -> io::Result<()> {
        writeln!(self.out, "{}", table::ratio_head(VERSIONS, &SIZES))?;
        let both = |start: &Lent| {
            let twin = without_bodies(start).unwrap_or_else(|| start.clone());
            ((twin, Call::Sound), (start.clone(), Call::Sound))
        };
        let ratios = self.starts().map(|start| ratio(both(start), self.budget));
        writeln!(self.out, "{}", table::ratio_row("soundness", &ratios, 3))
    }
}

/// Measures a task on a card, by the proved card and by the model.
fn cell(task: Task, start: &Lent, budget: Duration) -> Cell {
    let (start, call) = task.prepared(start);
    let word = by_card(&call, &mut start.clone());
    let card = |lent: &mut Lent| by_card(&call, lent);
    let model = |lent: &mut Lent| by_model(&call, lent);
    let (card, model) = measure((&start, card), (&start, model), budget);
    Cell { card, model, word }
}

/// How many times as long the proved card takes for the second call as for the
/// first, both in turn: by the medians, by the lowest times.
fn ratio((one, other): ((Lent, Call), (Lent, Call)), budget: Duration) -> Times {
    let first = |lent: &mut Lent| by_card(&one.1, lent);
    let second = |lent: &mut Lent| by_card(&other.1, lent);
    let (first, second) = measure((&one.0, first), (&other.0, second), budget);
    Times { median: second.median / first.median, lowest: second.lowest / first.lowest }
}

/// A call by the proved card, with a response that is long enough: its word, or
/// 0 where it has none.
fn by_card(call: &Call, lent: &mut Lent) -> u16 {
    let Lent { image, pool } = lent;
    match call {
        Call::Sound => u16::from(!lent::is_sound(image)),
        Call::Report => u16::from(lent::report(image).is_err()),
        Call::Rule(slot) => u16::from(lent::rule_place(image, pool, *slot).is_err()),
        Call::Command(bytes) | Call::Unauthenticated(bytes) => {
            let mut response = [0; LONGEST_RESPONSE];
            let state = match call {
                Call::Unauthenticated(_) => card::State::EMPTY,
                _ => card::State::FULL,
            };
            let answer = lent::command(image, pool, bytes, &mut response, &state);
            answer.map_or(0, |answer| answer.word.0)
        }
    }
}

/// The same by the model.
fn by_model(call: &Call, lent: &mut Lent) -> u16 {
    let Lent { image, pool } = lent;
    match call {
        Call::Sound => u16::from(!model::sound(image)),
        Call::Report => u16::from(model::report(image).0),
        Call::Rule(slot) => u16::from(place_of(image, pool, *slot).0 != 0),
        Call::Command(bytes) | Call::Unauthenticated(bytes) => {
            let mut response = [0; LONGEST_RESPONSE];
            let state = match call {
                Call::Unauthenticated(_) => model::State::EMPTY,
                _ => model::State::FULL,
            };
            model::command(image, pool, bytes, &mut response, &state).word
        }
    }
}
