//! The card of document 01 ("What the build covers, and its rules") in plain
//! Rust: maker, soundness, the commands, report and replay; with as many
//! tickets of document 02 as [`edition::LEVEL`] tells.
//!
//! The model exists to be compared with the proved card, so it shares nothing
//! with it. It follows one way throughout: decode the image into a list of
//! records, judge, encode. No input makes it panic: every access to a slice
//! goes through `get`, and a slot that does not exist reads as a free record.
//!
//! | what | where |
//! |---|---|
//! | level, versions, variants | [`edition`] |
//! | status words, answers | [`words`], [`answers`] |
//! | image layout | [`card`], [`record`], [`bytes`] |
//! | data objects | [`objects`] |
//! | bodies in the pool | [`bodies`] |
//! | soundness | [`soundness`] |
//! | descriptor, life cycle | [`descriptor`], [`life_cycle`] |
//! | rules of each form | [`rule`], [`compact`], [`expanded`] |
//! | security state, what a rule decides under it | [`security`], [`decision`] |
//! | which rule decides, and where it stands | [`deciding`] |
//! | maker, report, replay | [`maker`], [`mod@report`], [`mod@replay`] |
//! | steps A to G of a command | [`mod@command`] |
//! | why a command is refused | [`refusal`] |
//! | steps H to L of each command | [`commands`] |
//! | CREATE's data, SELECT's answer | [`template`], [`fcp`] |
//! | demand 3's ledger | [`ledger`] |
//! | the line format of the vectors, and where they lie | [`lines`], [`vectors`] |

#![forbid(unsafe_code)]
#![warn(missing_docs)]
#![deny(
    clippy::indexing_slicing,
    clippy::unwrap_used,
    clippy::expect_used,
    clippy::panic,
    clippy::unreachable,
    clippy::todo,
    clippy::unimplemented
)]

pub mod answers;
pub mod bodies;
pub mod bytes;
pub mod card;
pub mod command;
pub mod commands;
pub mod compact;
pub mod deciding;
pub mod decision;
pub mod descriptor;
pub mod edition;
pub mod expanded;
pub mod fcp;
pub mod ledger;
pub mod life_cycle;
pub mod lines;
pub mod maker;
pub mod objects;
pub mod record;
pub mod refusal;
pub mod replay;
pub mod report;
pub mod rule;
pub mod security;
pub mod soundness;
pub mod template;
pub mod vectors;
pub mod words;

pub use answers::Answer;
pub use card::Card;
pub use command::{command, Outcome};
pub use decision::Decision;
pub use ledger::Ledger;
pub use maker::make;
pub use record::{Kind, Record};
pub use replay::replay;
pub use report::{report, Numbers};
pub use security::State;
pub use soundness::sound;
pub use words::Word;
