//! Hex as people write it: blanks between digits do not matter.

/// What is wrong with a text that should be hex, and at which character,
/// counted from 1.
#[derive(Debug, PartialEq, Eq)]
pub struct Wrong {
    pub column: usize,
    pub what: String,
}

/// The bytes of a text.
pub fn bytes(text: &str) -> Result<Vec<u8>, Wrong> {
    let mut bytes = Vec::new();
    let mut half: Option<(usize, u8)> = None;
    for (place, sign) in text.chars().enumerate() {
        if sign.is_whitespace() {
            continue;
        }
        let column = place + 1;
        let digit = sign.to_digit(16).and_then(|digit| u8::try_from(digit).ok());
        let digit = digit.ok_or_else(|| {
            let what = format!("{sign:?} is no hex digit (0-9, A-F)");
            Wrong { column, what }
        })?;
        match half.take() {
            None => half = Some((column, digit)),
            Some((_, high)) => bytes.push(high << 4 | digit),
        }
    }
    match half {
        None => Ok(bytes),
        Some((column, _)) => {
            Err(Wrong { column, what: "half a byte: a second hex digit is missing".to_string() })
        }
    }
}

/// Bytes as one row of digits.
pub fn row(bytes: &[u8]) -> String {
    bytes.iter().map(|byte| format!("{byte:02X}")).collect()
}

#[cfg(test)]
mod tests {
    use super::*;

    #[test]
    fn blanks_do_not_matter() {
        assert_eq!(bytes(" 00 a4\t0 0 0C "), Ok(vec![0x00, 0xA4, 0x00, 0x0C]));
        assert_eq!(bytes(""), Ok(Vec::new()));
    }

    #[test]
    fn the_first_wrong_sign_is_told() {
        assert_eq!(bytes("00 aG zz").map_err(|wrong| wrong.column), Err(5));
        assert_eq!(bytes("00 é").map_err(|wrong| wrong.column), Err(4));
        assert_eq!(bytes("00 A4 0").map_err(|wrong| wrong.column), Err(7));
    }
}
