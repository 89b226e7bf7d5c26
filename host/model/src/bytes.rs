//! Big-endian numbers and parts of byte strings, without any access that
//! could panic (01, "Image": numbers are big-endian).

/// The byte at `at`, or 0 past the end.
pub fn byte(bytes: &[u8], at: usize) -> u8 {
    bytes.get(at).copied().unwrap_or(0)
}

/// The 16-bit number at `at`; bytes past the end read as 0.
pub fn number16(bytes: &[u8], at: usize) -> u16 {
    u16::from_be_bytes([byte(bytes, at), byte(bytes, at.saturating_add(1))])
}

/// The 32-bit number at `at`; bytes past the end read as 0.
pub fn number32(bytes: &[u8], at: usize) -> u32 {
    let high = u32::from(number16(bytes, at));
    let low = u32::from(number16(bytes, at.saturating_add(2)));
    (high << 16) | low
}

/// The `length` bytes from `at` on, or nothing if they are not all there.
pub fn part(bytes: &[u8], at: usize, length: usize) -> Option<&[u8]> {
    bytes.get(at..at.checked_add(length)?)
}

/// The bytes from `at` to the end; empty if there are none.
pub fn rest(bytes: &[u8], at: usize) -> &[u8] {
    bytes.get(at..).unwrap_or(&[])
}

/// Whether there is no byte but zero.
pub fn all_zero(bytes: &[u8]) -> bool {
    bytes.iter().all(|&b| b == 0)
}

/// The big-endian value of up to four bytes; more than four have none.
pub fn value(bytes: &[u8]) -> Option<u32> {
    if bytes.len() > 4 {
        return None;
    }
    Some(bytes.iter().fold(0, |sum, &b| (sum << 8) | u32::from(b)))
}

/// Appends `bytes` and as many zeros as fill `width`.
pub fn push_padded(out: &mut Vec<u8>, bytes: &[u8], width: usize) {
    out.extend(bytes.iter().copied().chain(std::iter::repeat(0)).take(width));
}
