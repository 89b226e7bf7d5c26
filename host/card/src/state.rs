//! What the caller tells the card with each command.

/// The conditions that hold, as three sets of environments, and the open
/// channels.
#[derive(Clone, Copy, PartialEq, Eq, Hash, Debug, Default)]
pub struct State {
    /// Secure messaging: bit n is on if it holds in environment n.
    pub messaging: u16,
    /// External authentication: bit n for environment n.
    pub external: u16,
    /// User authentication: bit n for environment n.
    pub user: u16,
    /// Open channels: bits 1 to 3 are channels 1 to 3; no other bit counts.
    pub channels: u8,
}

impl State {
    /// Every condition holds and no other channel is open.
    pub const FULL: State =
        State { messaging: 0xFFFF, external: 0xFFFF, user: 0xFFFF, channels: 0 };

    /// No condition holds and no other channel is open.
    pub const EMPTY: State = State { messaging: 0, external: 0, user: 0, channels: 0 };
}
