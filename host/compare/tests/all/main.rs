//! The tests of the comparison, one module a subject.

#![forbid(unsafe_code)]

mod again;
mod generated;
mod impostor;
mod impostors;
mod judge;
mod kept;
mod large;
mod ledger;
mod places;
mod program;
mod quirks;
mod rule_files;
mod smaller;
mod vectors;
mod wrong_answers;
mod wrong_bodies;
mod wrong_places;
mod wrong_pools;
mod wrong_rule_files;
mod wrong_rules;
mod wrong_security;
mod wrong_templates;

/// Prints a line past the capture of the test harness.
fn say(line: &str) {
    use std::io::Write;
    let _ = writeln!(std::io::stderr(), "{line}");
}
