//! Vectors, cases with their results, against a subject.

use std::collections::BTreeMap;

use model::lines::Case as Line;
use model::vectors::case_lines;

use crate::outcome::run;
use crate::rights::asked;
use crate::subject::Subject;

/// Runs every line of a text of vectors, but for E of rules that no record
/// takes for their length; gives how many there were of each kind, or what is
/// wrong with the first that does not agree.
pub fn check_vectors(subject: &dyn Subject, text: &str) -> Result<BTreeMap<char, usize>, String> {
    let mut counts = BTreeMap::new();
    for line in case_lines(text) {
        let (case, wanted) = line.split_once(" > ").ok_or("a line without its result")?;
        let parsed = Line::parse(case).ok_or_else(|| format!("no known case: {case:.200}"))?;
        let outcome = run(subject, &parsed).map(|outcome| outcome.result());
        let Some(given) = outcome.or_else(|| asked(subject, &parsed)) else { continue };
        if given != wanted {
            return Err(format!("{case}\n  wanted {wanted}\n  given  {given}"));
        }
        *counts.entry(case.chars().next().unwrap_or(' ')).or_insert(0) += 1;
    }
    Ok(counts)
}
