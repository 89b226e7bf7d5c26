//! A program for people: plays scripts of commands on the proved card (`run`),
//! makes card images (`new`), shows what is on them (`show`), reads and writes
//! the bodies of files (`read`, `write`), writes the script that makes the files
//! of a card again (`export`), and explains access rules (`rule`).
//!
//! The proved card decides everything, also whether it takes a rule, where the
//! rule of a file stands, and whether anything opens a command that it refused.
//! Only `show` and `export`, `read` and `write` to see where they are on a path,
//! and the words for what a rule asks and for why the search for one denies read
//! the records of an image by the model, once the proved card has found it sound.

#![forbid(unsafe_code)]

mod arguments;
mod bar;
mod body;
mod describe;
mod dump;
mod export;
mod fcp;
mod file_path;
mod hex;
mod hint;
mod meaning;
mod pieces;
mod play;
mod pool;
mod refusal;
mod rule;
mod script;
mod standing;
mod store;
mod transfer;
mod tree;

use std::io::{self, Write};
use std::path::{Path, PathBuf};
use std::process::ExitCode;

use arguments::{Fresh, Wish};
use card::{largest_total, Card, MakeError, Rule};
use export::Export;

/// What was done: what is to be printed, the file that was saved, and what is
/// missing, in words.
struct Done {
    output: Vec<u8>,
    saved: Option<PathBuf>,
    lost: Vec<String>,
}

impl Done {
    /// Something to print, with nothing saved and nothing missing.
    fn told(text: impl Into<Vec<u8>>) -> Done {
        Done { output: text.into(), saved: None, lost: Vec::new() }
    }

    /// The same with a file saved.
    fn saved(text: String, file: &Path) -> Done {
        Done { saved: Some(file.to_path_buf()), ..Done::told(text) }
    }
}

/// Why the program ends without having done what was asked.
enum Failure {
    /// The command line is wrong.
    Usage(String),
    /// A file, an image or a script is wrong.
    Refused(String),
}

/// The exit status where a file was saved and the output was lost.
const SAVED_UNTOLD: u8 = 3;
/// The exit status where a script does not make all of a card again.
const NOT_ALL: u8 = 4;

fn main() -> ExitCode {
    let arguments: Vec<_> = std::env::args_os().skip(1).collect();
    let (text, status) = match arguments::read(&arguments).and_then(carry_out) {
        Ok(done) => return print(&done),
        Err(Failure::Usage(message)) => (format!("{message}\nuicc --help tells more"), 2),
        Err(Failure::Refused(message)) => (message, 1),
    };
    console::complain(&format!("uicc: {text}"));
    ExitCode::from(status)
}

/// Does what was asked.
fn carry_out(wish: Wish) -> Result<Done, Failure> {
    match wish {
        Wish::Help => Ok(Done::told(arguments::HELP)),
        Wish::Run { script, image, fresh, state } => {
            let steps = script::read(&script).map_err(Failure::Refused)?;
            match image {
                None => play::on_fresh(&fresh_card(&fresh)?, &fresh, &steps, &state),
                Some(image) => play::on_image(&image, &steps, &state),
            }
            .map_err(Failure::Refused)
        }
        Wish::Show { image } => {
            let card = store::look(&image).map_err(Failure::Refused)?;
            Ok(Done::told(tree::show(&card).map_err(Failure::Refused)?))
        }
        Wish::Read { image, path, part, output, state } => {
            transfer::read(&image, &path, &part, &output, &state).map_err(Failure::Refused)
        }
        Wish::Write { image, path, part, input, state } => {
            transfer::write(&image, &path, &part, &input, &state).map_err(Failure::Refused)
        }
        Wish::Export { image } => {
            let card = store::look(&image).map_err(Failure::Refused)?;
            let Export { script, lost } = export::export(&card).map_err(Failure::Refused)?;
            let name = image.display();
            let lost = lost.into_iter().map(|what| format!("{name}: lost: {what}")).collect();
            Ok(Done { lost, ..Done::told(script) })
        }
        Wish::New { image, fresh, replace } => {
            let card = fresh_card(&fresh)?;
            store::make(&image, &card, replace).map_err(Failure::Refused)?;
            let text = format!("{}: {}\n", image.display(), fresh.describe());
            Ok(Done::saved(text, &image))
        }
        Wish::Rule { rule } => rule::explain(&rule).map(Done::told).map_err(Failure::Refused),
    }
}

/// The card that is wished for; what is wrong is told by the option's name.
fn fresh_card(fresh: &Fresh) -> Result<Card, Failure> {
    let Fresh { kind, slots, total, rule } = fresh;
    Card::make(*slots, *kind, *total, rule.rule()).map_err(|error| {
        Failure::Usage(match error {
            MakeError::Length => format!("--slots {slots}: {error}"),
            MakeError::Version(version) => format!("--version {version}: {error}"),
            MakeError::Total => {
                let largest = largest_total(*slots);
                format!("--total {total}: with {slots} slots the root's total is 1 to {largest}")
            }
            MakeError::Rule(_) => {
                let where_and_why = rule.malformed().unwrap_or_else(|| error.to_string());
                format!("--rule: the root's access rule is malformed: {where_and_why}")
            }
            MakeError::Form(..) => format!("--rule: {error}{}", other_versions(rule.rule())),
            MakeError::RuleLength(most) => {
                let (length, version) = (describe::bytes(rule.rule().bytes.len()), kind.version);
                let advice = other_versions(rule.rule());
                format!(
                    "--rule: the root's access rule has {length}, and a card of version {version} \
                     takes 1 to {most}{advice}"
                )
            }
            _ => format!("--rule: {error}"),
        })
    })
}

/// The advice to choose a card that takes a rule, if there is one.
fn other_versions(rule: Rule) -> String {
    let others: Vec<_> = rule::takers(rule).map(|kind| kind.version.to_string()).collect();
    match others.as_slice() {
        [] => String::new(),
        _ => format!(": choose --version {}", describe::list(&others, "or")),
    }
}

/// Prints what was done, and then what is missing. A reader that has had enough
/// is no failure, unless a file was saved: nobody may think that it was not,
/// and play a script twice.
fn print(done: &Done) -> ExitCode {
    let printed = console::output().and_then(|mut output| output.write_all(&done.output));
    done.lost.iter().for_each(|what| console::complain(&format!("uicc: {what}")));
    let status = ExitCode::from(if done.lost.is_empty() { 0 } else { NOT_ALL });
    let Err(error) = printed else { return status };
    match &done.saved {
        Some(file) => {
            let name = file.display();
            console::complain(&format!(
                "uicc: {name} WAS saved; only the output cannot be written: {error}"
            ));
            ExitCode::from(SAVED_UNTOLD)
        }
        None if error.kind() == io::ErrorKind::BrokenPipe => status,
        None => {
            console::complain(&format!("uicc: the output cannot be written: {error}"));
            ExitCode::FAILURE
        }
    }
}
