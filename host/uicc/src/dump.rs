//! Bytes in hex and as characters, sixteen a line.

use crate::fcp;

/// Bytes of a line.
const A_LINE: usize = 16;

/// Bytes in lines below another, the first of them being byte `from`.
pub fn below(bytes: &[u8], from: usize) -> String {
    let line = |(number, text): (usize, String)| fcp::line(&format!("byte {number}"), &text);
    lines(bytes, from).into_iter().map(line).collect()
}

/// The lines of some bytes, each with the number of its first byte, counted from
/// `from` on. What is no printable ASCII character is a dot.
fn lines(bytes: &[u8], from: usize) -> Vec<(usize, String)> {
    let width = 3 * bytes.len().clamp(1, A_LINE) - 1;
    let line = |(number, part): (usize, &[u8])| {
        let hex: Vec<_> = part.iter().map(|byte| format!("{byte:02X}")).collect();
        let signs: String = part.iter().map(|byte| sign(*byte)).collect();
        (from + A_LINE * number, format!("{:width$}  {signs}", hex.join(" ")))
    };
    bytes.chunks(A_LINE).enumerate().map(line).collect()
}

fn sign(byte: u8) -> char {
    match byte {
        b' '..=b'~' => char::from(byte),
        _ => '.',
    }
}

#[cfg(test)]
mod tests {
    use super::*;

    #[test]
    fn bytes_are_told_in_hex_and_characters() {
        assert_eq!(lines(b"Hi ~\x7F\xFF", 9), [(9, "48 69 20 7E 7F FF  Hi ~..".to_string())]);
        assert_eq!(lines(&[], 0), []);
        let two = lines(&[0x41; 17], 16);
        assert_eq!(two[0], (16, format!("{}  {}", vec!["41"; 16].join(" "), "A".repeat(16))));
        assert_eq!(two[1], (32, format!("{:47}  A", "41")), "characters stand below one another");
    }
}
