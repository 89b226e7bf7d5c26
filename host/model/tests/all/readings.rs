//! The readings that a case can show: A1 to A33 of the base, A36 of Ticket 1,
//! which docs/DECISIONS.md has in words. Those on soundness are in
//! soundness.rs, on CREATE's data in create_data.rs, on the order in order.rs,
//! on replay in scope.rs, on Ticket 2 (A35, A37 to A41) in fcp.rs, on Ticket 3
//! (A42 to A50) in expanded.rs and version_two.rs, on Ticket 4 (A51 to A60) in
//! bodies.rs, pool.rs, reading.rs and read_order.rs, on Ticket 6 (A61, A62) in
//! decisions.rs and security.rs, on Ticket 7 (A63 to A71) in deciding.rs,
//! padding.rs and referred.rs.

use crate::common::*;
use model::edition::Edition;
use model::words::*;
use model::{make, report, sound, State, Word};

/// Current DF and EF slots as the header shows them.
fn current(image: &[u8]) -> (u16, u16) {
    let number = |at: usize| u16::from_be_bytes([image[at], image[at + 1]]);
    (number(7), number(9))
}

#[track_caller]
fn expect(image: &mut [u8], text: &str, wanted: Word) {
    let word = run(image, text);
    assert_eq!(format!("{word:04X}"), format!("{wanted:04X}"), "{text}");
}

/// 3F00 { 7F10 { 7F20 { 6F01 }, 6F02 }, 7F11, 6F03 }, root current, no EF.
/// Slots in this order: 7F10 1, 7F20 2, 6F01 3, 6F02 4, 7F11 5, 6F03 6.
fn tree() -> Vec<u8> {
    let mut image = roomy(32);
    for text in [
        create_df("7F10", 600, OPEN),
        create_df("7F20", 200, OPEN),
        create_ef("6F01", 10, OPEN),
        select("7F10"),
        create_ef("6F02", 10, OPEN),
        select("3F00"),
        create_df("7F11", 100, OPEN),
        select("3F00"),
        create_ef("6F03", 10, OPEN),
        select("3F00"),
    ] {
        expect(&mut image, &text, SUCCESS);
    }
    image
}

#[test]
fn a1_terminating_the_card_changes_one_byte() {
    let mut image = tree();
    expect(&mut image, &select("7F10"), SUCCESS);
    expect(&mut image, &select("6F02"), SUCCESS);
    let mut wanted = image.clone();
    wanted[16 + 2] = 0x0C;
    expect(&mut image, TERMINATE_CARD, SUCCESS);
    assert_eq!(image, wanted);
    for text in [select("3F00"), delete("6F02"), ACTIVATE.into(), TERMINATE_CARD.into()] {
        expect(&mut image, &text, CONDITIONS_NOT_SATISFIED);
    }
    assert_eq!(report(&image).0, 0, "A32: the report works on a terminated card");
}

#[test]
fn a3_names_differ_in_length() {
    let mut image = roomy(16);
    expect(&mut image, &create_named("7F10", "A0", 300), SUCCESS);
    expect(&mut image, &create_named("7F11", "A000", 10), SUCCESS);
    expect(&mut image, &select("3F00"), SUCCESS);
    expect(&mut image, &create_named("7F12", "A0", 10), NAME_TAKEN);
    expect(&mut image, &create_named("7F12", "A000", 10), NAME_TAKEN);
}

#[test]
fn a16_the_root_is_refused_after_security() {
    let mut open = roomy(4);
    expect(&mut open, TERMINATE_DF, CONDITIONS_NOT_SATISFIED);
    let mut closed = fresh(4, 192, "00");
    expect(&mut closed, TERMINATE_DF, SECURITY_NOT_SATISFIED);
}

#[test]
fn a18_select_regards_only_the_file_itself() {
    let mut image = tree();
    expect(&mut image, &select("7F10"), SUCCESS);
    expect(&mut image, TERMINATE_DF, SUCCESS);
    expect(&mut image, &select("7F20"), SUCCESS);
    expect(&mut image, &select("6F01"), SUCCESS);
    expect(&mut image, &select("7F10"), SELECTED_TERMINATED);
    assert_eq!(current(&image), (1, 0xFFFF));
    expect(&mut image, ACTIVATE, CONDITIONS_NOT_SATISFIED);
    expect(&mut image, &select("7F20"), SUCCESS);
    for text in [ACTIVATE, DEACTIVATE, TERMINATE_DF] {
        expect(&mut image, text, CONDITIONS_NOT_SATISFIED);
    }
    expect(&mut image, &create_ef("6F09", 9, OPEN), CONDITIONS_NOT_SATISFIED);
    expect(&mut image, &delete("6F01"), SUCCESS);
}

#[test]
fn a_directory_terminated_far_above_counts() {
    let mut image = tree();
    for text in [
        select("7F10"),
        select("7F20"),
        create_df("7F30", 60, OPEN),
        select("7F20"),
        select("7F10"),
        TERMINATE_DF.into(),
        select("7F20"),
        select("7F30"),
    ] {
        expect(&mut image, &text, SUCCESS);
    }
    for text in [ACTIVATE, DEACTIVATE, TERMINATE_DF] {
        expect(&mut image, text, CONDITIONS_NOT_SATISFIED);
    }
    expect(&mut image, &create_ef("6F09", 9, OPEN), CONDITIONS_NOT_SATISFIED);
}

#[test]
fn a19_a20_the_tries_of_select() {
    let mut image = tree();
    expect(&mut image, &select("6F03"), SUCCESS);
    assert_eq!(current(&image), (0, 6));
    expect(&mut image, &select("3F00"), SUCCESS);
    assert_eq!(current(&image), (0, 0xFFFF), "selecting the current DF drops the EF");
    expect(&mut image, &select("7F20"), FILE_NOT_FOUND);
    expect(&mut image, &select("7F10"), SUCCESS);
    expect(&mut image, &select("6F03"), FILE_NOT_FOUND);
    expect(&mut image, &select("7F11"), SUCCESS);
    assert_eq!(current(&image), (5, 0xFFFF), "a DF beside the current one");
    expect(&mut image, &select("7F10"), SUCCESS);
    expect(&mut image, &select("7F20"), SUCCESS);
    expect(&mut image, &select("7F11"), FILE_NOT_FOUND);
    expect(&mut image, &select("6F02"), FILE_NOT_FOUND);
    expect(&mut image, &select("7F10"), SUCCESS);
    assert_eq!(current(&image), (1, 0xFFFF), "the parent");
    expect(&mut image, &create_ef("7F11", 9, OPEN), SUCCESS);
    expect(&mut image, &select("7F10"), SUCCESS);
    expect(&mut image, &select("7F11"), SUCCESS);
    assert_eq!(current(&image), (1, 7), "a child wins over a DF beside");
}

#[test]
fn a27_which_directories_take_files() {
    for (byte, wanted) in [
        (0x01, SUCCESS),
        (0x03, SUCCESS),
        (0x05, SUCCESS),
        (0x07, SUCCESS),
        (0x04, CONDITIONS_NOT_SATISFIED),
        (0x06, CONDITIONS_NOT_SATISFIED),
        (0x0C, CONDITIONS_NOT_SATISFIED),
    ] {
        let mut image = tree();
        expect(&mut image, &select("7F10"), SUCCESS);
        image[16 + 64 + 2] = byte;
        expect(&mut image, &create_ef("6F09", 9, OPEN), wanted);
    }
    for deactivated_above in [0x04, 0x06] {
        let mut image = tree();
        image[16 + 64 + 2] = deactivated_above;
        expect(&mut image, &select("7F10"), SELECTED_DEACTIVATED);
        expect(&mut image, &select("7F20"), SUCCESS);
        expect(&mut image, &create_ef("6F09", 9, OPEN), SUCCESS);
    }
}

#[test]
fn a28_delete_needs_a_child_and_one_of_two_rules() {
    let mut image = tree();
    expect(&mut image, &delete("3F00"), FILE_NOT_FOUND);
    expect(&mut image, &delete("7F20"), FILE_NOT_FOUND);
    for (own, directory, wanted) in [
        ("4000", "0100", SUCCESS),
        ("40FF", "0100", SUCCESS),
        ("4000", "01FF", SUCCESS),
        ("40FF", "01FF", SECURITY_NOT_SATISFIED),
        ("00", "00", SECURITY_NOT_SATISFIED),
    ] {
        let mut image = fresh(8, 448, &format!("0600000000{directory}"));
        expect(&mut image, &create_df("7F10", 100, own), SUCCESS);
        expect(&mut image, &delete("7F10"), FILE_NOT_FOUND);
        expect(&mut image, &select("3F00"), SUCCESS);
        expect(&mut image, &delete("7F10"), wanted);
    }
}

#[test]
fn deleting_a_directory_frees_all_beneath() {
    let mut image = tree();
    let wanted_free = [1, 2, 3, 4];
    expect(&mut image, &select("6F03"), SUCCESS);
    expect(&mut image, &delete("7F10"), SUCCESS);
    assert_eq!(current(&image), (0, 6), "another current EF stays");
    for slot in 0..32 {
        let record = &image[16 + 64 * slot..16 + 64 * slot + 64];
        let free = record.iter().all(|&b| b == 0);
        assert_eq!(free, wanted_free.contains(&slot) || slot > 6, "slot {slot}");
    }
    assert_eq!(report(&image), (0, [31 * 64, 31 * 64 - 164 - 74, 2, 2]));
    expect(&mut image, &delete("6F03"), SUCCESS);
    assert_eq!(current(&image), (0, 0xFFFF), "a deleted current EF becomes none");
    expect(&mut image, &create_ef("6F05", 9, OPEN), SUCCESS);
    assert_eq!(current(&image), (0, 1), "the lowest free slot");
}

#[test]
fn a29_activate_and_deactivate_for_every_state() {
    for (byte, activated, deactivated) in [
        (0x01, Some(0x05), None),
        (0x03, Some(0x05), None),
        (0x04, Some(0x05), None),
        (0x05, None, Some(0x04)),
        (0x06, Some(0x05), None),
        (0x07, None, Some(0x04)),
        (0x0C, None, None),
    ] {
        for (text, wanted) in [(ACTIVATE, activated), (DEACTIVATE, deactivated)] {
            let mut image = tree();
            expect(&mut image, &select("7F11"), SUCCESS);
            image[16 + 64 * 5 + 2] = byte;
            let word = wanted.map_or(CONDITIONS_NOT_SATISFIED, |_| SUCCESS);
            expect(&mut image, text, word);
            assert_eq!(image[16 + 64 * 5 + 2], wanted.unwrap_or(byte));
        }
    }
    let mut root = roomy(4);
    expect(&mut root, DEACTIVATE, SUCCESS);
    expect(&mut root, &select("3F00"), SELECTED_DEACTIVATED);
    expect(&mut root, ACTIVATE, SUCCESS);
}

#[test]
fn a30_terminating_a_directory_keeps_the_current_ef() {
    let mut image = tree();
    expect(&mut image, &select("7F10"), SUCCESS);
    expect(&mut image, &select("6F02"), SUCCESS);
    expect(&mut image, TERMINATE_DF, SUCCESS);
    assert_eq!(current(&image), (1, 4));
    expect(&mut image, TERMINATE_EF, CONDITIONS_NOT_SATISFIED);
    expect(&mut image, TERMINATE_DF, CONDITIONS_NOT_SATISFIED);
}

#[test]
fn a32_children_and_all_beneath() {
    let mut image = tree();
    assert_eq!(report(&image), (0, [31 * 64, 31 * 64 - 664 - 164 - 74, 3, 6]));
    expect(&mut image, &select("7F10"), SUCCESS);
    assert_eq!(report(&image), (0, [600, 600 - 264 - 74, 2, 3]));
}

/// A card with nothing but its root looks alike in every version but for the
/// version's own number.
#[test]
fn a36_the_root_of_any_version_may_hold_06_and_07() {
    let known = |version: &u16| Edition::from_header(*version, 0).is_some();
    let versions: Vec<u16> = (0..=u16::MAX).filter(known).collect();
    assert!(!versions.is_empty());
    for (version, byte) in versions.into_iter().flat_map(|version| [(version, 6), (version, 7)]) {
        let mut image = roomy(4);
        image[3..5].copy_from_slice(&version.to_be_bytes());
        image[16 + 2] = byte;
        assert!(sound(&image), "version {version}, root {byte:02X}");
        assert_eq!(report(&image), (0, [192, 192, 0, 0]));
        let mut wanted = image.clone();
        wanted[16 + 2] = 0x0C;
        expect(&mut image, TERMINATE_CARD, SUCCESS);
        assert_eq!(image, wanted, "version {version}, root {byte:02X}");
    }
}

#[test]
fn the_maker_checks_2_then_3_then_4() {
    let answer = |length: usize, total: u32, rule: &str| {
        let mut buffer = vec![0x5A; length];
        let answer = make(&mut buffer, 1, total, 0, &bytes(rule));
        assert_eq!(answer != 0, buffer.iter().all(|&b| b == 0x5A), "left as it came");
        answer
    };
    for length in [0, 15, 16, 80, 143, 145, 16 + 64 * 1024] {
        assert_eq!(answer(length, 0, "80"), 2, "length {length}");
    }
    for total in [0, 65, u32::MAX] {
        assert_eq!(answer(144, total, "80"), 3, "total {total}");
    }
    for rule in ["-", "80", "7F", "0000000000000000000000000000000000"] {
        assert_eq!(answer(144, 64, rule), 4, "rule {rule}");
    }
    assert_eq!(answer(144, 1, "00"), 0);
    assert_eq!(answer(144, 64, "00000000000000000000000000000000"), 0);
    assert_eq!(answer(16 + 64 * 1023, 65_408, OPEN), 0);
    assert_eq!(answer(16 + 64 * 1023, 65_409, OPEN), 3);
}

#[test]
fn sc_bytes_are_read_from_b7_downwards() {
    // AM 06: first the SC of b3 (create DF), then that of b2 (create EF).
    let state = State { user: 2, ..State::EMPTY };
    let mut image = fresh(8, 448, "061112");
    assert_eq!(run_under(&mut image, &create_ef("6F07", 9, OPEN), &state), SECURITY_NOT_SATISFIED);
    assert_eq!(run_under(&mut image, &create_df("7F10", 9, OPEN), &state), SUCCESS);
}
