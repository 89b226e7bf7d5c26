//! The caller's security state and the judging of one SC byte: 01,
//! "Descriptor and rules", third paragraph, and the byte of open channels of
//! "The order in which a command is judged"; 02, Ticket 6.

use crate::decision::Decision;

/// What the caller tells with each command.
#[derive(Clone, Copy, PartialEq, Eq, Debug, Default)]
pub struct State {
    /// Secure messaging: bit n for environment n.
    pub messaging: u16,
    /// External authentication: bit n for environment n.
    pub external: u16,
    /// User authentication: bit n for environment n.
    pub user: u16,
    /// Open channels; bits 1 to 3 count, bit 0 being the lowest.
    pub channels: u8,
}

impl State {
    /// Every condition that can hold holds, and no other channel is open.
    pub const FULL: State =
        State { messaging: 0xFFFF, external: 0xFFFF, user: 0xFFFF, channels: 0 };

    /// No condition holds, and no other channel is open.
    pub const EMPTY: State = State { messaging: 0, external: 0, user: 0, channels: 0 };

    /// Whether a channel other than the basic one is open.
    pub fn another_channel_open(&self) -> bool {
        self.channels & 0b1110 != 0
    }
}

/// What the condition of one SC byte decides. A named condition whose bit is
/// off lacks it, as the state with that bit on would do.
pub fn condition(sc: u8, state: &State) -> Decision {
    match sc {
        0x00 => return Decision::Granted,
        0xFF => return Decision::Closed,
        _ => {}
    }
    let environment = sc & 0x0F;
    if environment == 15 {
        return Decision::Closed;
    }
    let holds = |set: u16| match (set >> environment) & 1 {
        1 => Decision::Granted,
        _ => Decision::Lacking,
    };
    let mut named = Vec::new();
    if sc & 0x40 != 0 {
        named.push(holds(state.messaging));
    }
    if sc & 0x20 != 0 {
        named.push(holds(state.external));
    }
    if sc & 0x10 != 0 {
        named.push(holds(state.user));
    }
    if named.is_empty() {
        return Decision::Closed;
    }
    let all_asked = sc & 0x80 != 0;
    if all_asked {
        Decision::of_all_together(named)
    } else {
        Decision::of_alternatives(named)
    }
}

/// Whether the condition of one SC byte holds.
pub fn condition_holds(sc: u8, state: &State) -> bool {
    condition(sc, state).is_granted()
}
