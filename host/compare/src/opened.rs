//! What lacking and closed mean (02, Ticket 6), asked of the card itself: what it
//! refuses as lacking, it does not refuse for security under full sets; what it
//! refuses as closed, it refuses as closed there too. No condition asks for a bit
//! to be off, so that a command which some state opens is opened by full sets.

use model::lines::Case as Line;
use model::words::SECURITY_NOT_SATISFIED;
use model::State;

use crate::outcome::{run, Outcome};
use crate::subject::{Subject, Told};

/// What a subject says under full sets against what it said of a refusal, if
/// anything. A number that is neither is left to demand 1.
pub fn complaint(subject: &dyn Subject, line: &Line, given: &Outcome) -> Option<String> {
    let (Line::Command { state, .. }, Outcome::Command { told, .. }) = (line, given) else {
        return None;
    };
    if (told.answer, told.word) != (0, SECURITY_NOT_SATISFIED) {
        return None;
    }
    let mut opened = line.clone();
    if let Line::Command { state: sets, .. } = &mut opened {
        *sets = State { channels: state.channels, ..State::FULL };
    }
    let Some(Outcome::Command { told: full, .. }) = run(subject, &opened) else { return None };
    let Told { answer, word, numbers: [_, security, _] } = full;
    let refused = (answer, word) == (0, SECURITY_NOT_SATISFIED);
    match (told.numbers[1], refused, security) {
        (1, true, _) => Some(format!("lacking, and full sets give {word:04X}")),
        (2, false, _) => Some(format!("closed, and full sets give answer {answer}, {word:04X}")),
        (2, true, 0 | 1) => Some("closed, and under full sets it is not".to_string()),
        _ => None,
    }
}
