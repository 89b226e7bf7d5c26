//! The tests of the generator, one module a subject, in one program so that
//! they build quickly.

#![forbid(unsafe_code)]

mod again;
mod asked;
mod bodies;
mod common;
mod coverage;
mod determinism;
mod elsewhere;
mod expanded;
mod fcp;
mod histories;
mod images;
mod kept;
mod life_cycles;
mod met;
mod mistaken;
mod near;
mod pools;
mod program;
mod references;
mod security;
mod shown;
mod starts;
