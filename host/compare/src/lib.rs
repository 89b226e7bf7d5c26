//! The proved card against the model (01: "Other cases are run by program and
//! compared with an independent one"): answer, word, numbers and every byte
//! of image, pool and response buffer, what demand 1 says of them, what full
//! sets open of what was refused, where a deciding rule stands, demand 3's two
//! ledgers and what the files hold beside every history, and files made again by
//! their templates.
//!
//! A disagreement is shrunk to the smallest case that still shows it, and
//! told as a line of the vectors, which the program `compare` runs again.
//!
//! | what | where |
//! |---|---|
//! | who can be compared: the proved card, the model | [`subject`] |
//! | what a line gives | [`outcome`] |
//! | a case, line by line, with the ledger | [`check`] |
//! | how much was compared, what disagrees | [`tally`], [`disagreement`] |
//! | what demand 1 says of a command | [`demand1`] |
//! | what lacking and closed mean, by full sets | [`opened`] |
//! | where a rule stands, by what stands there and by commands that ask it | [`standing`] |
//! | demand 3's ledger, and what is said of a command with it | [`ledger`], [`demand3`] |
//! | what the files of a history hold | [`contents`] |
//! | files made again by their templates | [`again`] |
//! | whether a rule is fit, and its seven decisions, by other calls | [`rights`] |
//! | making a case smaller | [`shrink`], [`pieces`], [`parts`], [`smaller`], [`laid`], [`records`] |
//! | stored and shared vectors | [`vectors`] |

#![forbid(unsafe_code)]
#![warn(missing_docs)]

pub mod again;
pub mod check;
pub mod contents;
pub mod demand1;
pub mod demand3;
pub mod disagreement;
pub mod laid;
pub mod ledger;
pub mod opened;
pub mod outcome;
pub mod parts;
pub mod pieces;
pub mod records;
pub mod rights;
pub mod shrink;
pub mod smaller;
pub mod standing;
pub mod subject;
pub mod tally;
pub mod vectors;

pub use check::{check_case, check_line};
pub use disagreement::Disagreement;
pub use outcome::{run, Outcome};
pub use subject::{Model, Pair, Proved, Subject, Told};
pub use tally::Tally;
