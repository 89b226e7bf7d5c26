//! The answers of the public calls: the table of 01, "Making and reporting";
//! 02, Ticket 2 (answer 5), Ticket 3 (versions and forms) and Ticket 4
//! (answer 6).

/// The number that each public call answers with.
pub type Answer = u8;

/// Done; for a command, its word tells.
pub const DONE: Answer = 0;
/// Command and report: the image is not sound; everything stays as it came.
pub const UNSOUND: Answer = 1;
/// Maker: the version is unknown, or the buffer's length is not 16 + 64 N with
/// N from 2 to 1,023.
pub const BAD_BUFFER: Answer = 2;
/// Maker: the total is not from 1 to 64 (N - 1).
pub const BAD_TOTAL: Answer = 3;
/// Maker: form and rule do not fit a record of the version.
pub const BAD_RULE: Answer = 4;
/// Command: the response buffer is shorter than the data that it should take;
/// everything stays as it came.
pub const SHORT_BUFFER: Answer = 5;
/// Command on a card with bodies: the pool is not as long as the root's total;
/// everything stays as it came.
pub const WRONG_POOL: Answer = 6;
