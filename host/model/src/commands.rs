//! Steps H to L and the effect of each command: 01, from "SELECT" to
//! "TERMINATE CARD USAGE"; 02, Ticket 4.

pub mod change;
pub mod create;
pub mod delete;
pub mod read_update;
pub mod select;
