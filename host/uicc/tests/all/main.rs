//! The program, run as people run it: what it prints, its exit status, and
//! what it leaves in the folder.

#![forbid(unsafe_code)]

mod bodies;
mod cards;
mod command_line;
mod contents;
mod denials;
mod exporting;
mod folder;
mod images;
mod killed;
mod lengths;
mod making_again;
mod reading;
mod referred;
mod referred_again;
mod refusals;
mod rules;
mod saving;
mod scripts;
mod sharing;
mod templates;
mod told;

/// Says past the capture of the test harness what was not tested; `./test`
/// counts such lines.
fn skip(what: &str) {
    use std::io::Write;
    let _ = writeln!(std::io::stderr(), "SKIPPED: {what}");
}
