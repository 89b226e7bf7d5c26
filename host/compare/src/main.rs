//! Compares the proved card with the model on as many cases as wanted.
//!
//!     compare [--seed S] [--count C] [--first I] [--kind K]
//!     compare --replay FILE
//!
//! The second form runs lines of the vectors again, such as a disagreement
//! prints; FILE may be `-` for standard input.

#![forbid(unsafe_code)]

use std::ffi::{OsStr, OsString};
use std::path::Path;
use std::process::ExitCode;
use std::time::{Duration, Instant};

use cases::{Generator, Kind};
use compare::shrink::smallest;
use compare::{check_case, check_line, Pair, Tally};
use model::lines::Case as Line;
use model::vectors::case_lines;

const USAGE: &str = "usage: compare [--seed S] [--count C] [--first I] [--kind K]
       compare --replay FILE";
const BETWEEN_TELLINGS: Duration = Duration::from_secs(30);

/// What the command line asks for.
struct Wish {
    seed: u64,
    count: u64,
    first: u64,
    kind: Option<Kind>,
    replay: Option<OsString>,
}

fn main() -> ExitCode {
    let arguments: Vec<_> = std::env::args_os().skip(1).collect();
    let Some(wish) = read_wish(&arguments) else {
        let kinds: Vec<_> = Kind::MIX.iter().map(|(kind, _)| kind.name()).collect();
        console::complain(&format!("{USAGE}\nkinds: {}", kinds.join(" ")));
        return ExitCode::from(2);
    };
    let done = match &wish.replay {
        Some(file) => replay(file),
        None => generate(&wish),
    };
    let printed = done.and_then(|text| {
        console::unless_reader_left(console::print(&text)).map_err(|error| error.to_string())
    });
    match printed {
        Ok(()) => ExitCode::SUCCESS,
        Err(message) => {
            console::complain(&format!("compare: {message}"));
            ExitCode::FAILURE
        }
    }
}

fn read_wish(arguments: &[OsString]) -> Option<Wish> {
    let mut wish = Wish { seed: 1, count: 100_000, first: 0, kind: None, replay: None };
    let mut words = arguments.iter();
    while let Some(word) = words.next() {
        match word.to_str()? {
            "--seed" => wish.seed = words.next()?.to_str()?.parse().ok()?,
            "--count" => wish.count = words.next()?.to_str()?.parse().ok()?,
            "--first" => wish.first = words.next()?.to_str()?.parse().ok()?,
            "--kind" => wish.kind = Some(Kind::from_name(words.next()?.to_str()?)?),
            "--replay" => wish.replay = Some(words.next()?.clone()),
            _ => return None,
        }
    }
    Some(wish)
}

/// Compares generated cases; the first disagreement ends it.
fn generate(wish: &Wish) -> Result<String, String> {
    let end = wish.first.checked_add(wish.count).ok_or("there are not so many cases")?;
    if wish.count == 0 {
        return Err("nothing was compared: --count is 0".to_string());
    }
    let all = match wish.kind {
        None => Generator::new(wish.seed),
        Some(kind) => Generator::only(wish.seed, kind),
    };
    let mut tally = Tally::default();
    let (start, mut told) = (Instant::now(), Instant::now());
    for index in wish.first..end {
        let made = all.case(index);
        if let Err(found) = check_case(Pair::PROVED, &made.case, &mut tally) {
            let kind = made.kind.name();
            return Err(format!(
                "case {index} of seed {}, kind {kind}, shows a disagreement; shrunk:\n{}",
                wish.seed,
                smallest(Pair::PROVED, found)
            ));
        }
        if told.elapsed() > BETWEEN_TELLINGS {
            told = Instant::now();
            console::complain(&format!("{} cases so far, all agree", tally.cases));
        }
    }
    let seconds = start.elapsed().as_secs_f64();
    Ok(format!("seed {}: all agree in {seconds:.1} s: {tally}\n", wish.seed))
}

/// The text of a file, or of standard input.
fn text_of(file: &OsStr) -> Result<String, String> {
    let bytes = if file == "-" { console::input() } else { std::fs::read(file) };
    let name = Path::new(file).display();
    let bytes = bytes.map_err(|error| format!("{name}: {error}"))?;
    String::from_utf8(bytes).map_err(|_| format!("{name}: this is not valid UTF-8"))
}

/// Runs lines again and tells of each what both give.
fn replay(file: &OsStr) -> Result<String, String> {
    let text = text_of(file)?;
    let (mut compared, mut failed, mut told) = (0, 0, String::new());
    for line in case_lines(&text) {
        let case = line.split_once(" > ").map_or(line, |(case, _)| case);
        let parsed = Line::parse(case).ok_or_else(|| format!("no known case: {case:.200}"))?;
        compared += 1;
        match check_line(Pair::PROVED, &parsed, &mut Tally::default()) {
            Ok(Some(outcome)) => told += &format!("both give {outcome}\n"),
            Ok(None) => {
                compared -= 1;
                told += "the card has no call for this line\n";
            }
            Err(found) => {
                failed += 1;
                told += &format!("they disagree:\n{found}\n");
            }
        }
    }
    if compared == 0 {
        return Err(format!("nothing was compared: no line with a call of the card\n{told}"));
    }
    match failed {
        0 => Ok(told),
        _ => Err(format!("{failed} lines disagree\n{told}")),
    }
}
