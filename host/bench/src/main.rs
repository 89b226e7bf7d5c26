//! Measures how long the proved card takes for each kind of command, on cards
//! of several sizes and shapes, beside the model on the same work and one copy
//! of the image; and how many times as long SELECT takes with the template as
//! without. The first cards are of version 1, so that their lines compare with
//! earlier ones; cards of version 2 with rules of both forms follow, and cards of
//! version 3 with bodies, their commands also beside SELECT and one copy of the
//! pool; and cards whose files' rules stand in one file, beside the same cards whose
//! files have them in their own records. Below each card its slowest command stands beside what is wanted
//! (docs/SPEED.md).
//!
//!     cargo run --release -p bench [-- --milliseconds M] [--shape WORD]
//!
//! Each figure is the median of as many runs as M milliseconds allow (100), all
//! in one process. It is no part of the tests: a loaded machine is slower.
//!
//!     cargo run --release -p bench -- --searches [--milliseconds M]
//!
//! measures instead only the searches by identifier, on the largest cards: as
//! they are now, beside the plain walk that they were before and the floor, a loop
//! that compares one word of each record.

#![deny(unsafe_code)]

mod bodied;
mod clock;
mod measured;
mod referred;
mod searches;
mod shapes;
mod slowest;
mod table;
mod work;

use std::ffi::OsString;
use std::io::{self, Write};
use std::process::ExitCode;
use std::time::Duration;

use clock::{measure_copy, Times};
use measured::Measured;
use shapes::shapes;

const SIZES: [usize; 4] = [16, 128, 256, 1023];
const USAGE: &str = "usage: bench [--milliseconds M] [--shape WORD | --searches]";

/// What was measured for one task on one card.
pub struct Cell {
    pub card: Times,
    pub model: Times,
    pub word: u16,
}

/// What is measured: the shapes whose title has a word, or the searches alone.
enum Asked {
    Shapes(String),
    Searches,
}

fn main() -> ExitCode {
    let arguments: Vec<_> = std::env::args_os().skip(1).collect();
    let Some((budget, asked)) = read(&arguments) else {
        console::complain(USAGE);
        return ExitCode::from(2);
    };
    let measured = match asked {
        Asked::Searches => searches::measure_all(budget),
        Asked::Shapes(shape) if titles().iter().any(|title| title.contains(&shape)) => {
            measure_all(budget, &shape)
        }
        Asked::Shapes(shape) => {
            console::complain(&format!("bench: no shape has {shape:?}; there are:"));
            titles().iter().for_each(|title| console::complain(&format!("  {title}")));
            return ExitCode::from(2);
        }
    };
    match console::unless_reader_left(measured) {
        Ok(()) => ExitCode::SUCCESS,
        Err(error) => {
            console::complain(&format!("bench: {error}"));
            ExitCode::FAILURE
        }
    }
}

/// Measures and prints, shape by shape, those whose title has the word.
fn measure_all(budget: Duration, shape: &str) -> io::Result<()> {
    let mut out = console::output()?;
    let copies = SIZES.map(|slots| measure_copy(16 + 64 * slots, budget));
    write!(out, "{}", table::head(&SIZES, &copies))?;
    for (number, title) in titles().into_iter().enumerate() {
        if !title.contains(shape) {
            continue;
        }
        let shapes = SIZES.map(|slots| shapes(slots).swap_remove(number));
        let mut measured = Measured { shapes: &shapes, copies: &copies, budget, out: &mut out };
        measured.print()?;
    }
    out.flush()
}

fn read(arguments: &[OsString]) -> Option<(Duration, Asked)> {
    let (mut milliseconds, mut shape, mut searches) = (100, None, false);
    let mut words = arguments.iter();
    while let Some(word) = words.next() {
        match word.to_str()? {
            "--milliseconds" => milliseconds = words.next()?.to_str()?.parse().ok()?,
            "--shape" => shape = Some(words.next()?.to_str()?.to_string()),
            "--searches" => searches = true,
            _ => return None,
        }
    }
    let asked = match (searches, shape) {
        (true, None) => Asked::Searches,
        (true, Some(_)) => return None,
        (false, shape) => Asked::Shapes(shape.unwrap_or_default()),
    };
    Some((Duration::from_millis(milliseconds), asked))
}

fn titles() -> Vec<&'static str> {
    shapes(16).into_iter().map(|shape| shape.title).collect()
}
