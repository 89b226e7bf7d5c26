//! What the searches are measured against: a plain loop with one load and one
//! comparison for each record. Only who looks at several in a turn is faster.

use super::ffi::NOTHING;

const HEADER_BYTES: usize = 16;
const RECORD_BYTES: usize = 64;

/// The first record with identifier `x` and parent `d`, which stand side by side
/// and are compared as one word. It asks nothing else, so that it would take the
/// root for its own child and a free record for a file 0000. It is a call like
/// the others, and so not inlined.
#[inline(never)]
pub fn floor(image: &[u8], d: usize, x: u16) -> usize {
    let Ok(parent) = u16::try_from(d) else { return NOTHING };
    let ([a, b], [c, d]) = (x.to_be_bytes(), parent.to_be_bytes());
    let wanted = u32::from_ne_bytes([a, b, c, d]);
    let mut left = image.get(HEADER_BYTES..).unwrap_or_default().chunks_exact(RECORD_BYTES);
    // How many are left tells the slot, so that nothing is counted on the way.
    let slots = left.len();
    while let Some(record) = left.next() {
        if let Some([_, _, _, _, word @ ..]) = record.first_chunk::<8>() {
            if u32::from_ne_bytes(*word) == wanted {
                return slots - left.len() - 1;
            }
        }
    }
    NOTHING
}

#[cfg(test)]
mod tests {
    use super::*;
    use crate::searches::cards;
    use crate::searches::sought::Sort;
    use model::Card;

    /// .. but for the root, which is nobody's child.
    #[test]
    fn it_answers_as_the_model_for_every_file() {
        for worst in cards() {
            let card = Card::decode(&worst.image).expect("a card");
            for slot in card.used_slots().skip(1) {
                let (d, x) = (card.parent(slot), card.record(slot).identifier);
                assert_eq!(Sort::Child.found(&card, d, x), Some(slot), "{}", worst.title);
                assert_eq!(floor(&worst.image, d, x), slot, "{}", worst.title);
                assert_eq!(Sort::Child.found(&card, d, 0x5555), None, "{}", worst.title);
                assert_eq!(floor(&worst.image, d, 0x5555), NOTHING, "{}", worst.title);
            }
        }
    }

    #[test]
    fn any_bytes_have_an_answer() {
        for length in [0, 1, 15, 16, 79] {
            assert_eq!(floor(&vec![0; length], 0, 0), NOTHING, "{length} bytes");
        }
        assert_eq!(floor(&[0; 80], 0, 0), 0);
        assert_eq!(floor(&[0; 80], 1 << 16, 0), NOTHING);
    }
}
