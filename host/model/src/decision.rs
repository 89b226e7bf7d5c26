//! What a rule says to a right under a security state: 02, Ticket 6. One of
//! three, and how several of them make one.
//!
//! "Closed" means that no security state opens it, whatever the three sets
//! hold. It is told from how the conditions are put together, no state being
//! tried for it: each condition gives one of the three, and two rules join them.
//!
//! - Of alternatives the most open counts: what opens one opens the whole.
//! - Of conditions that must all hold the least open counts. One that is closed
//!   closes the whole. If none is, each is opened by some state, and the state
//!   with all bits of those opens them together, because no condition asks for
//!   a bit to be off.

/// The decision on a rule; the less, the more open.
#[derive(Clone, Copy, PartialEq, Eq, PartialOrd, Ord, Debug)]
pub enum Decision {
    /// It holds under this state.
    Granted,
    /// It does not, but some state opens it.
    Lacking,
    /// No state opens it.
    Closed,
}

impl Decision {
    /// All three, the most open first.
    pub const ALL: [Decision; 3] = [Decision::Granted, Decision::Lacking, Decision::Closed];

    /// The number in a call's result, where 0 means that security refused
    /// nothing, and in the vectors.
    pub fn number(self) -> u8 {
        match self {
            Decision::Granted => 0,
            Decision::Lacking => 1,
            Decision::Closed => 2,
        }
    }

    /// Whether it holds under the state.
    pub fn is_granted(self) -> bool {
        self == Decision::Granted
    }

    /// Several of which one suffices; none at all never opens.
    pub fn of_alternatives(all: impl IntoIterator<Item = Decision>) -> Decision {
        all.into_iter().min().unwrap_or(Decision::Closed)
    }

    /// Several that must hold together; none at all asks for nothing.
    pub fn of_all_together(all: impl IntoIterator<Item = Decision>) -> Decision {
        all.into_iter().max().unwrap_or(Decision::Granted)
    }
}
