//! Cases for the card of document 01, with the tickets of document 02 that the
//! model contains, made from a seed, for the comparison of the proved card with
//! the model ("Other cases are run by program and compared with an independent
//! one").
//!
//! Case number i of seed s depends on s and i alone, so a single case can be
//! made again:
//!
//! ```
//! use cases::Generator;
//! let all: Vec<_> = Generator::new(7).take(20).collect();
//! assert_eq!(Generator::new(7).case(13), all[13]);
//! for made in all {
//!     for case in made.case.lines() {
//!         println!("{} > {}", case.line(), case.result());
//!     }
//! }
//! ```
//!
//! | what | where |
//! |---|---|
//! | kinds of cases and the mix | [`generator`] |
//! | the cases themselves | [`case`] |
//! | histories on fresh cards | [`history`], [`themes`], [`actions`], [`creations`], [`choices`] |
//! | sound images at random, and where their bodies lie | [`images`], [`layouts`] |
//! | READ and UPDATE, cards made for them | [`bodies`], [`bodied`] |
//! | images damaged in one field | [`damage`] |
//! | raw commands and near-misses | [`raw`] |
//! | every near-miss in turn | [`near`], [`near_kept`] |
//! | CREATE's data, good and broken | [`template`], [`breach`] |
//! | versions, life-cycle bytes, states | [`editions`], [`life_cycles`], [`states`] |
//! | rules of all forms, and what can be wrong with them | [`rules`], [`compact`], [`expanded`], [`flaws`] |
//! | rules made for a decision, commands that ask them | [`decided`], [`security`] |
//! | rules kept in a file, cards ruled by them, histories that write them | [`contents`], [`kept`], [`rule_files`], [`ruled`] |
//! | where a deciding rule stands | [`places`] |
//! | maker's calls, replay's streams | [`makers`], [`streams`] |
//! | pools, response buffers | [`pools`], [`responses`] |
//! | files made again by their templates | [`again`], [`target`], [`elsewhere`], [`regrown`], [`sorts`] |
//! | worst-case cards | [`worst`] |

#![forbid(unsafe_code)]
#![warn(missing_docs)]

pub mod actions;
pub mod again;
pub mod bodied;
pub mod bodies;
pub mod breach;
pub mod case;
pub mod choices;
pub mod compact;
pub mod contents;
pub mod creations;
pub mod damage;
pub mod decided;
pub mod editions;
pub mod elsewhere;
pub mod expanded;
pub mod flaws;
pub mod generator;
pub mod history;
pub mod images;
pub mod kept;
pub mod layouts;
pub mod life_cycles;
pub mod makers;
pub mod near;
pub mod near_kept;
pub mod places;
pub mod pools;
pub mod random;
pub mod raw;
pub mod regrown;
pub mod responses;
pub mod rule_files;
pub mod ruled;
pub mod rules;
pub mod security;
pub mod sorts;
pub mod states;
pub mod streams;
pub mod target;
pub mod template;
pub mod themes;
pub mod worst;

pub use again::Again;
pub use case::{Case, History, Lent, Step};
pub use generator::{Generator, Kind, Made};
pub use random::Random;
pub use rules::Rule;
