//! Where the rule that decides on a file stands.

use std::ops::Range;

/// Where the deciding rule's bytes lie, without tag, length and padding. An
/// UPDATE of the file that keeps a rule, and any other command that has its
/// effect, may change it: it holds for the moment of the call.
#[derive(Clone, Copy, PartialEq, Eq, Hash, Debug)]
pub enum Place {
    /// There is none: the slot has no file, or the search for a referred rule
    /// denies, so that no state opens anything.
    Nowhere,
    /// In the image: the file's own record has it, in the form that it tells.
    InImage {
        /// Its first byte.
        from: usize,
        /// The byte behind its last.
        to: usize,
    },
    /// In the pool: a record of a rule file has it, expanded.
    InPool {
        /// Its first byte.
        from: usize,
        /// The byte behind its last.
        to: usize,
    },
}

impl Place {
    /// What the library's three numbers mean, where the buffers are so long;
    /// nothing if that is not known.
    pub(crate) fn of_numbers(numbers: [u32; 3], image: usize, pool: usize) -> Option<Place> {
        let [sort, from, length] = numbers.map(|number| usize::try_from(number).ok());
        let (from, length) = (from?, length?);
        let to = from.checked_add(length)?;
        match sort? {
            0 if to == 0 => Some(Place::Nowhere),
            1 if length > 0 && to <= image => Some(Place::InImage { from, to }),
            2 if length > 0 && to <= pool => Some(Place::InPool { from, to }),
            _ => None,
        }
    }

    /// The rule's bytes in the buffers that the place is of; none for
    /// [`Place::Nowhere`], nor for others that are too short.
    pub fn bytes<'a>(self, image: &'a [u8], pool: &'a [u8]) -> &'a [u8] {
        let (buffer, bytes): (&[u8], Range<usize>) = match self {
            Place::Nowhere => return &[],
            Place::InImage { from, to } => (image, from..to),
            Place::InPool { from, to } => (pool, from..to),
        };
        buffer.get(bytes).unwrap_or_default()
    }

    /// The library's number for where it is.
    pub fn number(self) -> u32 {
        match self {
            Place::Nowhere => 0,
            Place::InImage { .. } => 1,
            Place::InPool { .. } => 2,
        }
    }
}

#[cfg(test)]
mod tests {
    use super::*;

    /// The proved library gives no other numbers; one of another version might.
    #[test]
    fn numbers_that_are_not_known_have_no_place() {
        let place = |numbers| Place::of_numbers(numbers, 144, 64);
        assert_eq!(place([0, 0, 0]), Some(Place::Nowhere));
        assert_eq!(place([1, 50, 8]), Some(Place::InImage { from: 50, to: 58 }));
        assert_eq!(place([1, 140, 4]), Some(Place::InImage { from: 140, to: 144 }));
        assert_eq!(place([2, 0, 64]), Some(Place::InPool { from: 0, to: 64 }));
        for numbers in [
            [0, 1, 0],
            [0, 0, 1],
            [1, 141, 4],
            [1, 50, 0],
            [2, 0, 65],
            [2, 64, 1],
            [2, 9, 0],
            [3, 0, 1],
            [0x0001_0001, 50, 8],
            [1, u32::MAX, u32::MAX],
        ] {
            assert_eq!(place(numbers), None, "{numbers:?}");
        }
    }
}
