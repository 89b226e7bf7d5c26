//! Links the archive of the proved card, `libabi.a`.

mod link;

use std::process::ExitCode;

fn main() -> ExitCode {
    link::link("abi")
}
