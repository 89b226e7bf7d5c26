//! The parts of a line of the vectors, and the line with another in its place.

use model::lines::Case as Line;
use model::State;

/// The image, or the maker's buffer.
pub fn image_of(line: &Line) -> Option<&[u8]> {
    match line {
        Line::Command { image, .. } | Line::Report { image } => Some(image),
        Line::Deciding { image, .. } => Some(image),
        Line::Make { buffer, .. } => Some(buffer),
        _ => None,
    }
}

/// The command, the maker's rule, or replay's input.
pub fn bytes_of(line: &Line) -> &[u8] {
    match line {
        Line::Command { command, .. } => command,
        Line::Make { rule, .. } => rule,
        Line::Replay { input } => input,
        _ => &[],
    }
}

/// The response buffer of a command.
pub fn response_of(line: &Line) -> &[u8] {
    match line {
        Line::Command { response, .. } => response,
        _ => &[],
    }
}

/// The pool of a command or of a question where a rule stands.
pub fn pool_of(line: &Line) -> &[u8] {
    match line {
        Line::Command { pool, .. } | Line::Deciding { pool, .. } => pool,
        _ => &[],
    }
}

/// The line with other bytes for its image, and nothing else changed.
pub fn with_bytes_of_image(line: &Line, new: Vec<u8>) -> Option<Line> {
    let mut line = line.clone();
    match &mut line {
        Line::Command { image, .. } | Line::Report { image } => *image = new,
        Line::Deciding { image, .. } => *image = new,
        Line::Make { buffer, .. } => *buffer = new,
        _ => return None,
    }
    Some(line)
}

/// The line with another command, rule or input.
pub fn with_bytes(line: &Line, new: Vec<u8>) -> Line {
    let mut line = line.clone();
    match &mut line {
        Line::Command { command, .. } => *command = new,
        Line::Make { rule, .. } => *rule = new,
        Line::Replay { input } => *input = new,
        _ => {}
    }
    line
}

/// The line with another response buffer.
pub fn with_response(line: &Line, new: Vec<u8>) -> Option<Line> {
    let mut line = line.clone();
    match &mut line {
        Line::Command { response, .. } => *response = new,
        _ => return None,
    }
    Some(line)
}

/// The line with another pool.
pub fn with_pool(line: &Line, new: Vec<u8>) -> Option<Line> {
    let mut line = line.clone();
    match &mut line {
        Line::Command { pool, .. } | Line::Deciding { pool, .. } => *pool = new,
        _ => return None,
    }
    Some(line)
}

/// The line under another state.
pub fn with_state(line: &Line, new: State) -> Option<Line> {
    let mut line = line.clone();
    match &mut line {
        Line::Command { state, .. } => *state = new,
        _ => return None,
    }
    Some(line)
}

/// The question about another slot.
pub fn with_slot(line: &Line, new: usize) -> Option<Line> {
    let mut line = line.clone();
    match &mut line {
        Line::Deciding { slot, .. } => *slot = new,
        _ => return None,
    }
    Some(line)
}
