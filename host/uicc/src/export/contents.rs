//! The UPDATEs that bring what a file held into a new one, whose body is FF
//! throughout.

use std::collections::BTreeSet;

use model::Record;

use crate::pieces::{of_records, Piece, LAST_START, UPDATE_MOST};

/// What a new body holds; also what stands behind a rule in a record.
const NEW: u8 = 0xFF;
/// The shortest rule that allows everything always. A record that is shorter
/// holds no rule at all.
const OPEN_RULE: [u8; 5] = [0x80, 0x01, 0x7F, 0x90, 0x00];

/// The commands for a body, none for bytes that are FF anyway, nor for bytes
/// that no command reaches.
pub fn updates(record: &Record, body: &[u8]) -> Vec<Vec<u8>> {
    let length = usize::from(record.record_length);
    if length == 0 {
        return of_bytes(body);
    }
    let records = body.chunks(length);
    let pieces = of_records(records.len(), length).into_iter().zip(records);
    let changed = pieces.filter(|(_, record)| record.iter().any(|byte| *byte != NEW));
    changed.map(|(piece, record)| piece.update(record)).collect()
}

/// The commands that open some records of a file for all that they rule.
pub fn openings(record: &Record, numbers: &BTreeSet<u8>) -> Vec<Vec<u8>> {
    let length = usize::from(record.record_length);
    if length < OPEN_RULE.len() {
        return Vec::new();
    }
    let mut open = OPEN_RULE.to_vec();
    open.resize(length, NEW);
    let piece = |number: &u8| Piece::Record { number: *number, length };
    numbers.iter().map(|number| piece(number).update(&open)).collect()
}

/// The commands that write each record which differs from what the file holds.
pub fn rewrites(record: &Record, now: &[u8], body: &[u8]) -> Vec<Vec<u8>> {
    let length = usize::from(record.record_length).max(1);
    let records = now.chunks(length).zip(body.chunks(length));
    let pieces = of_records(records.len(), length).into_iter().zip(records);
    let changed = pieces.filter(|(_, (now, wanted))| now != wanted);
    changed.map(|(piece, (_, wanted))| piece.update(wanted)).collect()
}

fn of_bytes(body: &[u8]) -> Vec<Vec<u8>> {
    let mut updates = Vec::new();
    let mut at = 0;
    let next = |at: usize| body.iter().skip(at).position(|byte| *byte != NEW).map(|more| at + more);
    while let Some(first) = next(at) {
        // Further up is written from the last start on.
        let start = first.min(LAST_START);
        let whole = body.iter().skip(start).take(UPDATE_MOST);
        let Some(length) = whole.clone().rposition(|byte| *byte != NEW).map(|last| last + 1) else {
            break;
        };
        if start + length <= first {
            break;
        }
        let data: Vec<u8> = whole.copied().take(length).collect();
        let start_number = u16::try_from(start).unwrap_or(u16::MAX);
        updates.push(Piece::Bytes { start: start_number, length }.update(&data));
        at = start + length;
    }
    updates
}
