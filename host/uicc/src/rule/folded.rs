//! Long lists of rights and conditions, folded into lines.

/// No line is wider.
const WIDTH: usize = 120;
/// A line that continues another one stands so much further to the right.
const DEEPER: usize = 2;

/// Words of a rule that stand behind so many columns; where the line would be
/// too wide, others follow, indented.
pub fn folded(words: &str, indent: usize) -> String {
    let deeper = indent + DEEPER;
    let mut told = String::new();
    let mut column = indent;
    for piece in pieces(words) {
        if told.is_empty() {
            column += piece.len();
        } else if column + 1 + piece.len() <= WIDTH {
            told.push(' ');
            column += 1 + piece.len();
        } else {
            told += &format!("\n{:deeper$}", "");
            column = deeper + piece.len();
        }
        told += &piece;
    }
    told
}

/// What stays together: lines begin with "or" and "and", or end with a stop.
fn pieces(words: &str) -> Vec<String> {
    let mut pieces: Vec<String> = Vec::new();
    for word in words.split(' ') {
        match pieces.last_mut() {
            Some(piece) if !piece.ends_with([',', ';', ':']) && !matches!(word, "or" | "and") => {
                piece.push(' ');
                *piece += word;
            }
            _ => pieces.push(word.to_string()),
        }
    }
    pieces
}
