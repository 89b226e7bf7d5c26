//! A body in pieces, as READ and UPDATE take them.

use std::ops::Range;

/// The most bytes that a READ BINARY gives: Le 00.
pub const READ_MOST: usize = 256;
/// The most bytes that an UPDATE BINARY takes.
pub const UPDATE_MOST: usize = 255;
/// The last byte from which READ BINARY and UPDATE BINARY start: b8 of P1 is
/// clear.
pub const LAST_START: usize = 0x7FFF;

pub const READ_BINARY: u8 = 0xB0;
pub const READ_RECORD: u8 = 0xB2;
pub const UPDATE_BINARY: u8 = 0xD6;
pub const UPDATE_RECORD: u8 = 0xDC;

/// P2 of READ RECORD and UPDATE RECORD: P1 is the number of a record.
const BY_NUMBER: u8 = 0x04;

/// What one command reads or updates.
#[derive(Clone, PartialEq, Eq, Debug)]
pub enum Piece {
    /// Bytes of a transparent file.
    Bytes { start: u16, length: usize },
    /// A record of a file with records.
    Record { number: u8, length: usize },
}

impl Piece {
    /// The READ for it.
    pub fn read(&self) -> Vec<u8> {
        let [instruction, first, second] = self.head(READ_BINARY, READ_RECORD);
        // Le 00 asks for 256 bytes.
        let le = u8::try_from(self.length()).unwrap_or(0);
        vec![0x00, instruction, first, second, le]
    }

    /// The UPDATE for it with these bytes, of which there are at most 255.
    pub fn update(&self, data: &[u8]) -> Vec<u8> {
        let [instruction, first, second] = self.head(UPDATE_BINARY, UPDATE_RECORD);
        let lc = u8::try_from(data.len()).unwrap_or(u8::MAX);
        [&[0x00, instruction, first, second, lc], data].concat()
    }

    pub fn length(&self) -> usize {
        match self {
            Piece::Bytes { length, .. } | Piece::Record { length, .. } => *length,
        }
    }

    fn head(&self, binary: u8, record: u8) -> [u8; 3] {
        match self {
            Piece::Bytes { start, .. } => {
                let [high, low] = start.to_be_bytes();
                [binary, high, low]
            }
            Piece::Record { number, .. } => [record, *number, BY_NUMBER],
        }
    }
}

/// The pieces of a row of bytes, each of at most so many; or the first byte that
/// no command reaches. No piece runs over the last start but one that begins
/// there, so that all is reached that can be.
pub fn of_bytes(bytes: Range<usize>, most: usize) -> Result<Vec<Piece>, usize> {
    let mut pieces = Vec::new();
    let mut at = bytes.start;
    while at < bytes.end {
        let bound = if at < LAST_START { LAST_START } else { bytes.end };
        let length = most.min(bytes.end.min(bound) - at);
        let start = u16::try_from(at).ok().filter(|_| at <= LAST_START).ok_or(at)?;
        pieces.push(Piece::Bytes { start, length });
        at += length;
    }
    Ok(pieces)
}

/// The records of a file, from the first on, so many.
pub fn of_records(many: usize, length: usize) -> Vec<Piece> {
    (1..=u8::MAX).take(many).map(|number| Piece::Record { number, length }).collect()
}

#[cfg(test)]
mod tests {
    use super::*;

    /// The pieces as start and length.
    fn pieces(bytes: Range<usize>, most: usize) -> Result<Vec<(u16, usize)>, usize> {
        let tell = |piece| match piece {
            Piece::Bytes { start, length } => (start, length),
            Piece::Record { .. } => panic!("a record among bytes"),
        };
        of_bytes(bytes, most).map(|pieces| pieces.into_iter().map(tell).collect())
    }

    #[test]
    fn pieces_follow_one_another() {
        assert_eq!(pieces(0..0, 255), Ok(vec![]));
        assert_eq!(pieces(3..4, 255), Ok(vec![(3, 1)]));
        assert_eq!(pieces(0..256, 256), Ok(vec![(0, 256)]));
        assert_eq!(pieces(0..256, 255), Ok(vec![(0, 255), (255, 1)]));
        assert_eq!(pieces(10..600, 255), Ok(vec![(10, 255), (265, 255), (520, 80)]));
    }

    #[test]
    fn what_no_command_reaches_is_told() {
        let wanted = vec![(32_760, 7), (32_767, 255)];
        assert_eq!(pieces(32_760..33_022, 255), Ok(wanted));
        assert_eq!(pieces(32_760..33_023, 255), Err(33_022));
        assert_eq!(pieces(32_767..33_023, 256), Ok(vec![(32_767, 256)]));
        assert_eq!(pieces(0..33_024, 256), Err(33_023));
        assert_eq!(pieces(32_768..32_769, 255), Err(32_768));
        assert_eq!(pieces(usize::MAX - 1..usize::MAX, 255), Err(usize::MAX - 1));
    }

    #[test]
    fn commands_name_their_piece() {
        let bytes = Piece::Bytes { start: 0x0102, length: 256 };
        assert_eq!(bytes.read(), [0x00, 0xB0, 0x01, 0x02, 0x00]);
        assert_eq!(bytes.update(&[7, 8]), [0x00, 0xD6, 0x01, 0x02, 0x02, 7, 8]);
        let record = of_records(2, 10).pop().expect("two records");
        assert_eq!(record.read(), [0x00, 0xB2, 0x02, 0x04, 0x0A]);
        assert_eq!(record.update(&[9; 10])[..5], [0x00, 0xDC, 0x02, 0x04, 0x0A]);
        assert_eq!(of_records(254, 1).len(), 254);
    }
}
