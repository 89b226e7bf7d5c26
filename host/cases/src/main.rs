//! Prints generated cases in the line format of the vectors, so that any
//! other program can be fed with them.
//!
//!     cases [--seed S] [--count C] [--first I] [--kind K] [--results] [--measure]
//!     cases --near-misses [--results] [--measure]
//!
//! `--near-misses` takes every near-miss in turn instead of cases from the
//! seed; `--results` adds ` > ` and the model's result; `--measure` prints
//! nothing but how many lines the model runs a second.

#![forbid(unsafe_code)]

use std::ffi::OsString;
use std::io::{self, BufWriter, Write};
use std::process::ExitCode;
use std::time::Instant;

use cases::near::every_near_miss;
use cases::{Generator, Kind};
use model::lines::Case as Line;

const USAGE: &str =
    "usage: cases [--seed S] [--count C] [--first I] [--kind K] [--results] [--measure]
       cases --near-misses [--results] [--measure]";

/// What the command line asks for.
struct Wish {
    seed: u64,
    count: usize,
    first: u64,
    kind: Option<Kind>,
    near_misses: bool,
    results: bool,
    measure: bool,
}

fn main() -> ExitCode {
    let arguments: Vec<_> = std::env::args_os().skip(1).collect();
    let Some(wish) = read_wish(&arguments) else {
        let kinds: Vec<_> = Kind::MIX.iter().map(|(kind, _)| kind.name()).collect();
        console::complain(&format!("{USAGE}\nkinds: {}", kinds.join(" ")));
        return ExitCode::from(2);
    };
    let done = if wish.measure { measure(&wish) } else { print(&wish) };
    match console::unless_reader_left(done) {
        Ok(()) => ExitCode::SUCCESS,
        Err(error) => {
            console::complain(&format!("cases: {error}"));
            ExitCode::FAILURE
        }
    }
}

fn read_wish(arguments: &[OsString]) -> Option<Wish> {
    let mut wish = Wish {
        seed: 1,
        count: 100,
        first: 0,
        kind: None,
        near_misses: false,
        results: false,
        measure: false,
    };
    // A word that is no text is none of those known.
    let mut words = arguments.iter().map(|word| word.to_str().unwrap_or(""));
    while let Some(word) = words.next() {
        match word {
            "--near-misses" => wish.near_misses = true,
            "--results" => wish.results = true,
            "--measure" => wish.measure = true,
            "--seed" => wish.seed = words.next()?.parse().ok()?,
            "--count" => wish.count = words.next()?.parse().ok()?,
            "--first" => wish.first = words.next()?.parse().ok()?,
            "--kind" => wish.kind = Some(Kind::from_name(words.next()?)?),
            _ => return None,
        }
    }
    Some(wish)
}

/// The lines of all cases that are wished for.
fn lines(wish: &Wish) -> Box<dyn Iterator<Item = Line>> {
    if wish.near_misses {
        return Box::new(every_near_miss().flat_map(|case| case.lines()));
    }
    let all = match wish.kind {
        None => Generator::new(wish.seed),
        Some(kind) => Generator::only(wish.seed, kind),
    };
    let made = all.starting_at(wish.first).take(wish.count);
    Box::new(made.flat_map(|made| made.case.lines()))
}

fn print(wish: &Wish) -> io::Result<()> {
    let mut out = BufWriter::new(console::output()?);
    for line in lines(wish) {
        if wish.results {
            writeln!(out, "{} > {}", line.line(), line.result())?;
        } else {
            writeln!(out, "{}", line.line())?;
        }
    }
    out.flush()
}

fn measure(wish: &Wish) -> io::Result<()> {
    let start = Instant::now();
    let lines: Vec<_> = lines(wish).collect();
    if lines.is_empty() {
        return Err(io::Error::other("there is no line to measure"));
    }
    let making = start.elapsed().as_secs_f64();
    let start = Instant::now();
    let bytes: usize = lines.iter().map(|line| line.result().len()).sum();
    let running = start.elapsed().as_secs_f64();
    let (count, rate) = (lines.len(), lines.len() as f64 / running);
    console::print(&format!(
        "{count} lines: made in {making:.2} s, run by the model in {running:.2} s, \
         {rate:.0} lines a second, {bytes} characters of results\n"
    ))
}
