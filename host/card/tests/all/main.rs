//! The wrapper: each call reaches the library and tells what it answers, and
//! no input makes it panic.

mod bodies;
mod calls;
mod common;
mod making;
mod numbers;
mod places;
mod pools;
mod referred;
mod rules;
mod security;
mod templates;
