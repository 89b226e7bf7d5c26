//! What disagrees, and how it is told.

use std::fmt;

use cases::{Again, Case, History};
use model::lines::Case as Line;

use crate::outcome::Outcome;

/// What card and model disagree about, or both with what must hold of them.
#[derive(Clone, PartialEq, Eq, Debug)]
pub enum Disagreement {
    /// The card gives something else for one line.
    Line {
        /// The line.
        line: Box<Line>,
        /// What the model gives.
        wanted: Box<Outcome>,
        /// What the card gives.
        given: Box<Outcome>,
    },
    /// The card agrees with the model, and not with the ledger or with what its
    /// files hold.
    Ledger {
        /// The history up to the step where it shows.
        history: History,
        /// What does not agree.
        complaint: String,
    },
    /// Card and model agree, and not with demand 1.
    Demand1 {
        /// The line.
        line: Box<Line>,
        /// What both give.
        given: Box<Outcome>,
        /// What demand 1 has against it.
        complaint: String,
    },
    /// Card and model agree, and what the card does under full sets does not make
    /// the refusal lacking, or closed.
    Opened {
        /// The line.
        line: Box<Line>,
        /// What it does.
        complaint: String,
    },
    /// Card and model agree where a rule stands, and not with what stands there or
    /// with commands that ask it.
    Standing {
        /// The line.
        line: Box<Line>,
        /// What both give.
        given: Box<Outcome>,
        /// What is wrong.
        complaint: String,
    },
    /// Card and model agree, and a file's template does not make it again.
    Again {
        /// The card that holds the file.
        again: Again,
        /// The calls by which it was made again.
        lines: Vec<Line>,
        /// What is wrong.
        complaint: String,
    },
    /// One of the two gives one thing now and another then.
    Unsteady {
        /// The line.
        line: Box<Line>,
    },
}

/// Lines of the vectors that show it, and comments that say what is wrong.
impl fmt::Display for Disagreement {
    fn fmt(&self, f: &mut fmt::Formatter<'_>) -> fmt::Result {
        match self {
            Disagreement::Line { line, wanted, given } => {
                write!(f, "{}\n# model {wanted}\n# card  {given}", line.line())
            }
            Disagreement::Ledger { history, complaint } => {
                writeln!(f, "# what is kept beside it disagrees: {complaint}; the history:")?;
                let lines = Case::History(history.clone()).lines();
                lines.iter().try_for_each(|line| writeln!(f, "{}", line.line()))
            }
            Disagreement::Demand1 { line, given, complaint } => {
                write!(f, "{}\n# both give {given}\n# against demand 1: {complaint}", line.line())
            }
            Disagreement::Opened { line, complaint } => {
                write!(f, "{}\n# told of the refusal: {complaint}", line.line())
            }
            Disagreement::Standing { line, given, complaint } => {
                write!(f, "{}\n# both give {given}\n# and yet: {complaint}", line.line())
            }
            Disagreement::Again { lines, complaint, .. } => {
                writeln!(f, "# a file is not made again: {complaint}; the calls:")?;
                lines.iter().try_for_each(|line| writeln!(f, "{}", line.line()))
            }
            Disagreement::Unsteady { line } => {
                write!(f, "{}\n# does not give the same twice", line.line())
            }
        }
    }
}
