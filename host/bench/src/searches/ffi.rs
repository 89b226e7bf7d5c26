//! The border to the searches of the proved library: the only module with
//! `unsafe`. Each function takes a slice, hands on pointer and length, and gives
//! back the library's number as it is: a slot, or what stands below.

/// There is no such child.
pub const NOTHING: usize = 65536;
/// The bytes are no card's: they are not as long as their slot count says, or that
/// is below 2 or above 1,023.
pub const NO_CARD: usize = 65537;

extern "C" {
    fn search_child(image: *const u8, image_len: usize, d: usize, x: u16) -> usize;
    fn search_child_plainly(image: *const u8, image_len: usize, d: usize, x: u16) -> usize;
    fn search_df(image: *const u8, image_len: usize, d: usize, x: u16) -> usize;
    fn search_df_plainly(image: *const u8, image_len: usize, d: usize, x: u16) -> usize;
}

/// The child of directory `d` with identifier `x`.
pub fn child(image: &[u8], d: usize, x: u16) -> usize {
    // SAFETY: the image is a live slice with its own length, only read, and the
    // library keeps no pointer after it returns. Its bytes, the directory and
    // the identifier may be any.
    unsafe { search_child(image.as_ptr(), image.len(), d, x) }
}

/// .. by a plain walk, as it was before.
pub fn child_plainly(image: &[u8], d: usize, x: u16) -> usize {
    // SAFETY: as for `child`.
    unsafe { search_child_plainly(image.as_ptr(), image.len(), d, x) }
}

/// The child of directory `d` with identifier `x` that is a DF.
pub fn df(image: &[u8], d: usize, x: u16) -> usize {
    // SAFETY: as for `child`.
    unsafe { search_df(image.as_ptr(), image.len(), d, x) }
}

/// .. by a plain walk, as it was before.
pub fn df_plainly(image: &[u8], d: usize, x: u16) -> usize {
    // SAFETY: as for `child`.
    unsafe { search_df_plainly(image.as_ptr(), image.len(), d, x) }
}

#[cfg(test)]
mod tests {
    use super::*;
    use cases::{worst, Random};

    /// Child, the same by a plain walk, DF, the same by a plain walk.
    fn answers(image: &[u8], d: usize, x: u16) -> [usize; 4] {
        [child, child_plainly, df, df_plainly].map(|search| search(image, d, x))
    }

    fn number(image: &[u8], at: usize) -> usize {
        256 * usize::from(image[at]) + usize::from(image[at + 1])
    }

    /// What the layout of the records says; the root is nobody's child.
    fn expected(image: &[u8], d: usize, x: u16) -> [usize; 4] {
        let first = |fits: fn(u8) -> bool| {
            let found = (1..number(image, 5)).find(|slot| {
                let at = 16 + 64 * slot;
                let (identifier, parent) = (number(image, at + 4), number(image, at + 6));
                fits(image[at]) && parent == d && identifier == usize::from(x)
            });
            found.unwrap_or(NOTHING)
        };
        let (child, df) = (first(|kind| kind != 0), first(|kind| kind == 1));
        [child, child, df, df]
    }

    #[test]
    fn every_file_of_the_worst_cards_is_found_in_its_directory_alone() {
        for worst in worst::cards_of(64) {
            let image = worst.image;
            let (mut found, mut dfs) = (0, 0);
            let mut identifiers: Vec<_> =
                (0..64).map(|slot| number(&image, 16 + 64 * slot + 4) as u16).collect();
            identifiers.extend([0x5555, 0x0000, 0x3F00]);
            identifiers.sort_unstable();
            identifiers.dedup();
            for d in 0..=64 {
                for &x in &identifiers {
                    let given = answers(&image, d, x);
                    assert_eq!(given, expected(&image, d, x), "{}: {x:04X} in {d}", worst.title);
                    found += usize::from(given[0] != NOTHING);
                    dfs += usize::from(given[2] != NOTHING);
                }
            }
            let of_kind = |kind| (1..64).filter(|slot| image[16 + 64 * slot] == kind).count();
            assert_eq!((found, dfs), (of_kind(1) + of_kind(2), of_kind(1)), "{}", worst.title);
        }
    }

    #[test]
    fn neither_free_records_nor_the_root_are_found() {
        for worst in worst::cards_of(64) {
            let free = worst.image.ends_with(&[0; 64]);
            assert!(free && worst.image[16 + 4..][..4] == [0x3F, 0, 0, 0], "{}", worst.title);
            for identifier in [0x0000, 0x3F00] {
                let given = answers(&worst.image, 0, identifier);
                assert_eq!(given, [NOTHING; 4], "{}: {identifier:04X}", worst.title);
            }
        }
    }

    #[test]
    fn no_directory_is_above_65535() {
        for worst in worst::cards_of(64) {
            let x = number(&worst.image, 16 + 64 + 4) as u16;
            assert_eq!(answers(&worst.image, 0, x)[0], 1, "{}", worst.title);
            for d in [1 << 16, usize::MAX - 0xFFFF, usize::MAX] {
                assert_eq!(answers(&worst.image, d, x), [NOTHING; 4], "{}: {d}", worst.title);
            }
        }
    }

    /// A length that the slot count does not say, and counts that no card has.
    #[test]
    fn bytes_of_another_length_are_no_card() {
        let image = worst::cards_of(64).swap_remove(0).image;
        let longer = [&image[..], &[0]].concat();
        let mut counts = image.clone();
        counts[5..7].copy_from_slice(&[0, 63]);
        let mut all = vec![longer, counts];
        all.extend([0, 6, 7, 15, 16, 80, image.len() - 1].map(|length| image[..length].to_vec()));
        all.extend([0, 1, 1024, 0xFFFF].map(|slots: u16| {
            let mut image = vec![0; 16 + 64 * usize::from(slots)];
            image[5..7].copy_from_slice(&slots.to_be_bytes());
            image
        }));
        for image in all {
            assert_eq!(answers(&image, 0, 0x7001), [NO_CARD; 4], "{} bytes", image.len());
        }
        assert_eq!(answers(&image, 0, 0x7001), [1; 4]);
    }

    /// Bytes that no command would leave: files of kind 3, the same file twice.
    #[test]
    fn any_bytes_of_the_right_length_are_read_alike() {
        let mut random = Random::new(11);
        let mut found = 0;
        for slots in [2_u16, 3, 4, 5, 8, 13, 64].repeat(100) {
            let mut image: Vec<_> = (0..16 + 64 * slots).map(|_| random.byte() % 4).collect();
            image[5..7].copy_from_slice(&slots.to_be_bytes());
            for (d, x) in [(0, 0), (1, 0x0100), (0x0202, 0x0001), (3, 0x0203)] {
                let given = answers(&image, d, x);
                assert_eq!(given, expected(&image, d, x), "{x:04X} in {d}: {image:?}");
                found += usize::from(given[0] != given[2] && given[2] != NOTHING);
            }
        }
        assert!(found > 0, "no DF stands behind another file of its identifier");
    }
}
