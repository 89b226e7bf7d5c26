//! The ledger of demand 3's theorem, by itself: its definitions on small
//! histories, and that what it says of a command finds a wrong one out.

use compare::demand3::{word_fits, Given};
use compare::ledger::{heard, Announced, Ledger};
use model::words::{NOT_ENOUGH_MEMORY, SUCCESS};

use Announced::{Deletes, Makes, Neither};

/// A root of 1,000; in it a directory of 300 in slot 1, an EF of 10; in the
/// directory another of 100 in slot 3 with an EF of 5.
fn nested() -> Ledger {
    Ledger::opened(1000)
        .entered(Makes(0x7F10, 300, true), 0, 1)
        .entered(Neither, 1, 0)
        .entered(Makes(0x6F01, 10, false), 0, 0)
        .entered(Makes(0x7F20, 100, true), 1, 3)
        .entered(Makes(0x6F02, 5, false), 3, 3)
}

#[test]
fn only_the_direct_parent_pays() {
    let ledger = nested();
    let rooms: Vec<u64> = ledger.directories().map(|d| ledger.room_in(d)).collect();
    assert_eq!(ledger.directories().collect::<Vec<_>>(), [0, 3, 1]);
    assert_eq!(rooms, [1000 - 364 - 74, 100 - 69, 300 - 164]);
}

#[test]
fn a_directory_goes_with_all_beneath_it() {
    let ledger = nested();
    assert!(ledger.strikes(Deletes(0x7F10), 0, 1) && ledger.strikes(Deletes(0x7F10), 0, 3));
    assert!(!ledger.strikes(Deletes(0x7F10), 0, 0) && !ledger.strikes(Deletes(0x6F01), 0, 1));
    let left = ledger.entered(Deletes(0x7F10), 0, 0);
    assert_eq!(left.files.len(), 1);
    assert_eq!((left.room_in(0), left.lives_in(1), left.lives_in(3)), (1000 - 74, false, false));
}

#[test]
fn an_identifier_that_comes_back_is_charged_anew() {
    let once = Ledger::opened(1000).entered(Makes(0x6F01, 10, false), 0, 0);
    let back = once.entered(Deletes(0x6F01), 0, 0).entered(Makes(0x6F01, 400, false), 0, 0);
    assert_eq!((once.room_in(0), back.room_in(0)), (1000 - 74, 1000 - 464));
}

#[test]
fn a_slot_that_is_given_out_again_begins_with_its_whole_total() {
    let again = nested().entered(Deletes(0x7F10), 0, 0).entered(Makes(0x7F10, 200, true), 0, 1);
    assert_eq!((again.total_in(1), again.room_in(1)), (200, 200));
}

#[test]
fn only_what_was_answered_9000_is_heard() {
    let delete = [0, 0xE4, 0, 0, 2, 0x6F, 0x01];
    assert_eq!(heard(&delete, SUCCESS), Deletes(0x6F01));
    assert_eq!(heard(&delete, 0x6A82), Neither);
    assert_eq!(heard(&delete[..6], SUCCESS), Neither);
    assert_eq!(heard(&[], SUCCESS), Neither);
    assert_eq!(heard(&[0, 0xE0, 0, 0, 1, 0x62], SUCCESS), Neither);
}

/// An EF of FFFFFFFF bytes, as CREATE sends it.
const LARGEST: [u8; 28] = [
    0, 0xE0, 0, 0, 23, 0x62, 21, 0x82, 2, 0x41, 0x21, 0x83, 2, 0x6F, 7, 0x8A, 1, 5, 0x8C, 2, 1, 0,
    0x80, 4, 0xFF, 0xFF, 0xFF, 0xFF,
];

#[test]
fn a_size_that_would_wrap_is_refused() {
    let ledger = Ledger::opened(1000);
    assert!(word_fits(&ledger, 0, &LARGEST, NOT_ENOUGH_MEMORY));
    assert!(!word_fits(&ledger, 0, &LARGEST, SUCCESS));
    assert!(word_fits(&ledger, 0, &LARGEST, 0x6982), "other words are not judged");
}

/// What is said of a command on a fresh card of 8 slots whose root has 448.
fn said(next: &Ledger, told: Announced) -> Option<String> {
    let ledger = Ledger::opened(448);
    let mut image = vec![0; 16 + 64 * 8];
    let made = model::maker::make(&mut image, 1, 448, 0, &[0x7F, 0, 0, 0, 0, 0, 0, 0]);
    assert_eq!(made, 0);
    Given { ledger: &ledger, next, told, before: 0, after: 0 }.complaint(&image)
}

#[test]
fn wrong_entries_are_found_out() {
    let opened = Ledger::opened(448);
    assert_eq!(said(&opened, Neither), None);
    let charged = opened.entered(Makes(0x6F01, 10, false), 0, 0);
    let found = [
        (said(&charged, Makes(0x6F01, 10, false)), "rooms"),
        (said(&charged, Neither), "took room"),
        (said(&opened.entered(Makes(0x7F10, 1, true), 0, 5), Makes(0x7F10, 1, true)), "rooms"),
        (said(&Ledger::opened(512), Neither), "took room"),
    ];
    for (complaint, expected) in found {
        assert!(complaint.as_deref().is_some_and(|c| c.contains(expected)), "{complaint:?}");
    }
}
