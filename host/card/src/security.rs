//! What a security refusal lacks.

/// Whether security refused a command, and if so, whether any security state
/// would let it pass. The library tells it beside the word; with 6982 it is one
/// of the last two, and with any other word the first.
#[derive(Clone, Copy, PartialEq, Eq, Hash, Debug)]
pub enum Security {
    /// Security did not refuse it; another condition may have.
    NoRefusal,
    /// Its rule does not allow it in this state, and would in another one.
    Lacking,
    /// Its rule allows it in no state.
    Closed,
}

impl Security {
    /// All three.
    pub const ALL: [Security; 3] = [Security::NoRefusal, Security::Lacking, Security::Closed];

    /// The library's number for it.
    pub fn number(self) -> u32 {
        match self {
            Security::NoRefusal => 0,
            Security::Lacking => 1,
            Security::Closed => 2,
        }
    }

    /// The one that the library means by a number, if it is known.
    pub fn of_number(number: u32) -> Option<Security> {
        Security::ALL.into_iter().find(|security| security.number() == number)
    }

    /// What it says, in English.
    pub fn meaning(self) -> &'static str {
        match self {
            Security::NoRefusal => "security did not refuse it",
            Security::Lacking => "lacking, more authentication opens the rule",
            Security::Closed => "closed, no authentication opens the rule",
        }
    }
}
