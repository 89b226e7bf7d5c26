//! The tests of the model, one module a subject, in one program so that they
//! build quickly.

#![forbid(unsafe_code)]

mod bodies;
mod common;
mod create_data;
mod deciding;
mod decisions;
mod expanded;
mod fcp;
mod ledger;
mod lent;
mod life_cycle;
mod no_panic;
mod order;
mod padding;
mod pool;
mod read_order;
mod reading;
mod readings;
mod referred;
mod scope;
mod security;
mod shown;
mod sorts;
mod soundness;
mod stored;
mod vectors;
mod version_three;
mod version_two;
