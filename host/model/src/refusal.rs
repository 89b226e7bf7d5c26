//! Why a command is refused: the word of its step, and at step J what the rules
//! decided (02, Ticket 6).

use crate::decision::Decision;
use crate::words::{Word, SECURITY_NOT_SATISFIED};

/// A refused command. Only [`step_j_security`] makes one with a decision other
/// than granted, and only it gives 6982.
#[derive(Clone, Copy, PartialEq, Eq, Debug)]
pub struct Refusal {
    /// The status word.
    pub word: Word,
    /// Lacking or closed at step J; at every other step security refused
    /// nothing.
    pub decision: Decision,
}

/// The refusal of a step other than J.
impl From<Word> for Refusal {
    fn from(word: Word) -> Refusal {
        Refusal { word, decision: Decision::Granted }
    }
}

/// Step J of every command: passes what its rule, or one of its two, grants.
pub fn step_j_security(decision: Decision) -> Result<(), Refusal> {
    match decision {
        Decision::Granted => Ok(()),
        Decision::Lacking | Decision::Closed => {
            Err(Refusal { word: SECURITY_NOT_SATISFIED, decision })
        }
    }
}

/// A step's refusal.
pub fn refuse_if(refused: bool, word: Word) -> Result<(), Word> {
    if refused {
        Err(word)
    } else {
        Ok(())
    }
}
