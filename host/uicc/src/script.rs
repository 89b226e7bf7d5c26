//! Scripts: one command a line, in hex, with comments.

use std::path::Path;

use crate::arguments::STREAM;
use crate::hex;

/// One command of a script.
#[derive(Debug, PartialEq, Eq)]
pub struct Step {
    /// The line on which it stands, from 1.
    pub line: usize,
    pub command: Vec<u8>,
}

/// Signs that end a line for some programs and not for others, so that a
/// command behind one could be lost in a comment.
const UNCLEAR: [char; 5] = ['\u{B}', '\u{C}', '\u{85}', '\u{2028}', '\u{2029}'];
/// What some editors put before the text; it means nothing.
const BYTE_ORDER_MARK: char = '\u{FEFF}';

/// Reads a script from a file or from standard input; what is wrong is told
/// with file, line and column.
pub fn read(file: &Path) -> Result<Vec<Step>, String> {
    let (name, bytes) = match file.to_str() {
        Some(STREAM) => ("standard input".to_string(), console::input()),
        _ => (file.display().to_string(), std::fs::read(file)),
    };
    let bytes = bytes.map_err(|error| format!("{name}: {error}"))?;
    let text = String::from_utf8(bytes).map_err(|error| {
        let good = &error.as_bytes()[..error.utf8_error().valid_up_to()];
        let (line, column) = place_after(&String::from_utf8_lossy(good));
        format!("{name}:{line}:{column}: this is no text: a script has hex digits and # comments")
    })?;
    parse(&text).map_err(|(line, wrong)| format!("{name}:{line}:{}: {}", wrong.column, wrong.what))
}

/// The commands of a text, or the line where it is wrong.
fn parse(text: &str) -> Result<Vec<Step>, (usize, hex::Wrong)> {
    let mut steps = Vec::new();
    for (line, text) in (1..).zip(lines(text)) {
        let unclear = text.chars().position(|sign| UNCLEAR.contains(&sign));
        if let Some(place) = unclear {
            return Err((line, unclear_end(&text, place)));
        }
        let code = text.split('#').next().unwrap_or("");
        let command = hex::bytes(code).map_err(|wrong| (line, wrong))?;
        if !command.is_empty() {
            steps.push(Step { line, command });
        }
    }
    Ok(steps)
}

fn unclear_end(text: &str, place: usize) -> hex::Wrong {
    let sign = text.chars().nth(place).map_or(0, u32::from);
    let what = format!("U+{sign:04X} ends a line for some programs: use a line feed");
    hex::Wrong { column: place + 1, what }
}

/// The lines of a text, each ended by LF, CR LF or CR alone.
fn lines(text: &str) -> Vec<String> {
    let text = text.strip_prefix(BYTE_ORDER_MARK).unwrap_or(text);
    text.replace("\r\n", "\n").split(['\n', '\r']).map(str::to_string).collect()
}

/// Line and column of what follows a text.
fn place_after(text: &str) -> (usize, usize) {
    let lines = lines(text);
    (lines.len(), lines.last().map_or(0, |line| line.chars().count()) + 1)
}

#[cfg(test)]
mod tests {
    use super::*;

    #[test]
    fn comments_and_empty_lines_are_no_commands() {
        let steps = parse("# first\n\n00 44 00 00 # activate\r\n  \n0004 0000").expect("good");
        let lines: Vec<_> = steps.iter().map(|step| (step.line, step.command[1])).collect();
        assert_eq!(lines, [(3, 0x44), (5, 0x04)]);
    }

    #[test]
    fn the_wrong_line_is_told() {
        assert_eq!(
            parse("00\n00 # x\n0x").map_err(|(line, wrong)| (line, wrong.column)),
            Err((3, 2))
        );
    }

    #[test]
    fn every_end_of_a_line_ends_it() {
        for end in ["\n", "\r\n", "\r"] {
            let text = format!("\u{FEFF}# first{end}00440000 # activate{end}{end}00040000{end}");
            let steps = parse(&text).expect("good");
            let lines: Vec<_> = steps.iter().map(|step| (step.line, step.command[1])).collect();
            assert_eq!(lines, [(2, 0x44), (4, 0x04)], "{end:?}");
        }
    }

    #[test]
    fn a_line_with_an_unclear_end_is_refused() {
        for sign in UNCLEAR {
            let text = format!("00\n# note{sign}00440000\n");
            let told = parse(&text).map_err(|(line, wrong)| (line, wrong.column));
            assert_eq!(told, Err((2, 7)), "{sign:?}");
        }
    }

    #[test]
    fn places_are_counted_from_one() {
        assert_eq!(place_after(""), (1, 1));
        assert_eq!(place_after("ab\ncd"), (2, 3));
        assert_eq!(place_after("ab\r\nc\rd"), (3, 2));
    }
}
