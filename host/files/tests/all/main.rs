//! Saving when the system refuses: each request fails once, in each way, and
//! the file is the old one or the new one and nothing else.

#![forbid(unsafe_code)]

mod faults;
mod faulty;
mod folder;
mod names;
