//! Links the archive of the searches alone, `libsearches.a`, which stands beside
//! that of the card.

#[path = "../card/link.rs"]
mod link;

use std::process::ExitCode;

fn main() -> ExitCode {
    link::link("searches")
}
