//! 02, Ticket 2: SELECT that answers with the file's template, and the
//! response buffer. All of P1 P2 is in order.rs, unsound images in
//! soundness.rs.

use crate::common::*;
use model::lines::hex;
use model::words::*;
use model::{command, fcp, replay, sound, Card, Outcome, State};

/// 3F00 { 7F10 with a name { 6F01 linear fixed }, 6F02 cyclic, 6F03
/// transparent }, slots in this order; root current, no EF.
fn card() -> Vec<u8> {
    let mut image = roomy(32);
    for text in [
        create("82027833 83027F10 8402A0A1 8A0105 8C03060011 810400000258 C603112233"),
        create("82044233000A 83026F01 8A0107 8C0100 80040000003C"),
        select("3F00"),
        create("8204462100FF 83026F02 8A0101 8C0240FF 800200FF 8500"),
        create("82020199 83026F03 8A0103 8C087F00000000000000 80030000FF A50112"),
        select("3F00"),
    ] {
        assert_eq!(run(&mut image, &text), SUCCESS, "{text}");
    }
    image
}

const ROOT: &str = "6219 82023821 83023F00 8A0105 8C087F00000000000000 810207C0";
const NAMED: &str = "6218 82027821 83027F10 8402A0A1 8A0105 8C03060011 81020258";
const LINEAR: &str = "6214 82044221000A 83026F01 8A0107 8C0100 8002003C";
const CYCLIC: &str = "6215 8204462100FF 83026F02 8A0101 8C0240FF 800200FF";
const TRANSPARENT: &str = "6219 82020121 83026F03 8A0103 8C087F00000000000000 800200FF";

/// Each file: its slot, the way to it, its template.
const FILES: [(usize, &[&str], &str); 5] = [
    (0, &["3F00"], ROOT),
    (1, &["7F10"], NAMED),
    (2, &["7F10", "6F01"], LINEAR),
    (3, &["6F02"], CYCLIC),
    (4, &["6F03"], TRANSPARENT),
];

/// Where the life-cycle byte of a slot stands.
fn life_cycle_at(slot: usize) -> usize {
    16 + 64 * slot + 2
}

/// The card when all but the last step of the way to a file is gone, and the
/// identifier of that step.
fn before_last(image: &[u8], way: &[&str]) -> (Vec<u8>, String) {
    let (last, above) = way.split_last().expect("a way has a step");
    let mut image = image.to_vec();
    for identifier in above {
        run(&mut image, &select(identifier));
    }
    (image, last.to_string())
}

#[test]
fn the_template_of_every_kind_of_file() {
    for (slot, way, wanted) in FILES {
        let (mut image, last) = before_last(&card(), way);
        let (word, data) = ask_under(&mut image, &select_fcp(&last), &State::EMPTY);
        assert_eq!((word, hex(&data)), (SUCCESS, wanted.replace(' ', "")), "slot {slot}");
    }
}

#[test]
fn it_selects_as_0c_does() {
    for (slot, way, _) in FILES {
        for byte in [0x01, 0x03, 0x04, 0x05, 0x06, 0x07, 0x0C] {
            let mut image = card();
            image[life_cycle_at(slot)] = byte;
            let (mut with, last) = before_last(&image, way);
            let mut without = with.clone();
            let state = State { channels: 0xFF, ..State::EMPTY };
            let (word, data) = ask_under(&mut with, &select_fcp(&last), &state);
            assert_eq!(run_under(&mut without, &select(&last), &state), word);
            assert_eq!(with, without, "slot {slot}, {byte:02X}");
            assert_eq!(data.is_empty(), word == CONDITIONS_NOT_SATISFIED, "a terminated root");
        }
    }
}

/// A39: the stored byte, and the warnings come with the template.
#[test]
fn the_life_cycle_is_the_stored_byte() {
    for (byte, word) in [
        (0x01, SUCCESS),
        (0x03, SUCCESS),
        (0x04, SELECTED_DEACTIVATED),
        (0x05, SUCCESS),
        (0x06, SELECTED_DEACTIVATED),
        (0x07, SUCCESS),
        (0x0C, SELECTED_TERMINATED),
    ] {
        let mut image = card();
        image[life_cycle_at(4)] = byte;
        let wanted = TRANSPARENT.replace("8A0103", &format!("8A01{byte:02X}")).replace(' ', "");
        let (given, data) = ask_under(&mut image, &select_fcp("6F03"), &State::FULL);
        assert_eq!((given, hex(&data)), (word, wanted));
    }
}

/// A40: the root's name, if it has one, and its largest total.
#[test]
fn the_root_with_a_name_and_the_largest_total() {
    let mut image = roomy(1023);
    image[16 + 16..16 + 19].copy_from_slice(&bytes("02B0B1"));
    assert!(sound(&image));
    let (word, data) = ask_under(&mut image, &select_fcp("3F00"), &State::FULL);
    let wanted = "621D 82023821 83023F00 8402B0B1 8A0105 8C087F00000000000000 8102FF80";
    assert_eq!((word, hex(&data)), (SUCCESS, wanted.replace(' ', "")));
}

#[test]
fn the_longest_template() {
    let mut image = roomy(32);
    let name = "11".repeat(16);
    let rule = "00".repeat(16);
    let objects = format!("82023821 83027F10 8410{name} 8A0105 8C10{rule} 81020001");
    assert_eq!(run(&mut image, &create(&format!("{objects} C60100"))), SUCCESS);
    let (_, data) = ask_under(&mut image, &select_fcp("7F10"), &State::FULL);
    assert_eq!(hex(&data), format!("6233{objects}").replace(' ', ""));
    assert!(data.len() <= fcp::MOST_BYTES);
}

/// Runs a SELECT with a buffer of this length; gives the outcome, the image
/// and the buffer.
fn ask_with(image: &[u8], text: &str, length: usize) -> (Outcome, Vec<u8>, Vec<u8>) {
    let (mut image, mut response) = (image.to_vec(), vec![MARK; length]);
    let outcome = command(&mut image, &mut [], &bytes(text), &mut response, &State::FULL);
    (outcome, image, response)
}

#[test]
fn a_short_buffer_is_answer_5_and_leaves_everything() {
    for (slot, way, template) in FILES {
        let template = bytes(template);
        for (byte, word) in [(0x05, SUCCESS), (0x06, SELECTED_DEACTIVATED)] {
            let mut image = card();
            image[life_cycle_at(slot)] = byte;
            let (image, last) = before_last(&image, way);
            for length in 0..template.len() {
                let (outcome, after, response) = ask_with(&image, &select_fcp(&last), length);
                assert_eq!(
                    outcome,
                    Outcome { answer: 5, word: 0, data: 0, security: 0 },
                    "{length} bytes"
                );
                assert_eq!(after, image, "nothing is selected");
                assert_eq!(response, vec![MARK; length]);
            }
            for length in [template.len(), template.len() + 1, 300] {
                let (outcome, after, response) = ask_with(&image, &select_fcp(&last), length);
                assert_eq!(outcome, Outcome { answer: 0, word, data: template.len(), security: 0 });
                assert_eq!(after == image, slot == 0, "selected");
                assert_eq!(response[template.len()..], vec![MARK; length - template.len()]);
            }
        }
    }
    let mut terminated = card();
    terminated[life_cycle_at(4)] = 0x0C;
    let (outcome, after, _) = ask_with(&terminated, &select_fcp("6F03"), 26);
    assert_eq!((outcome.answer, outcome.word), (5, 0), "a warning does not come with answer 5");
    assert_eq!(after, terminated);
}

/// A37: every word wins over a short buffer.
#[test]
fn a_short_buffer_is_found_last() {
    let mut terminated = card();
    terminated[life_cycle_at(0)] = 0x0C;
    for (image, text, word) in [
        (&card(), "00A400", WRONG_LENGTH),
        (&card(), "01A40004023F0000", CONDITIONS_NOT_SATISFIED),
        (&card(), "80A40004023F0000", UNKNOWN_CLASS),
        (&card(), "00A50004023F0000", UNKNOWN_INSTRUCTION),
        (&terminated, "00A40004023F0000", CONDITIONS_NOT_SATISFIED),
        (&card(), "00A40005023F0000", WRONG_PARAMETERS),
        (&card(), "00A40004023F0001", WRONG_LENGTH),
        (&card(), "00A40004026F0100", FILE_NOT_FOUND),
    ] {
        let (outcome, after, _) = ask_with(image, text, 0);
        assert_eq!(outcome, Outcome { answer: 0, word, data: 0, security: 0 }, "{text}");
        assert_eq!(&after, image);
    }
}

/// A38 and the ticket's "other Le 6700".
#[test]
fn step_g_goes_by_p2() {
    for le in 0..=255u8 {
        let wanted = if le == 0 { SUCCESS } else { WRONG_LENGTH };
        for length in [0, 64] {
            let (outcome, _, _) = ask_with(&card(), &format!("00A40004026F03{le:02X}"), length);
            let answer = if le == 0 && length == 0 { 5 } else { 0 };
            assert_eq!(outcome.answer, answer);
            assert_eq!(outcome.word, if answer == 5 { 0 } else { wanted }, "Le {le:02X}");
        }
        let (outcome, after, _) = ask_with(&card(), &format!("00A4000C026F03{le:02X}"), 64);
        assert_eq!((outcome.word, after), (WRONG_LENGTH, card()), "0C and Le {le:02X}");
    }
    let (outcome, after, response) = ask_with(&card(), "00A40004026F03", 64);
    assert_eq!((outcome.word, after), (WRONG_LENGTH, card()), "04 without Le");
    assert_eq!(response, [MARK; 64]);
}

/// No other command looks at the buffer: 0C and CREATE work with none.
#[test]
fn other_commands_need_no_buffer() {
    for (text, word) in [
        (select("6F03"), SUCCESS),
        (create_ef("6F09", 9, OPEN), SUCCESS),
        (delete("6F03"), SUCCESS),
        (DEACTIVATE.into(), SUCCESS),
        (TERMINATE_CARD.into(), SUCCESS),
        (TERMINATE_EF.into(), NO_CURRENT_EF),
    ] {
        let (without, one, _) = ask_with(&card(), &text, 0);
        let (with, other, response) = ask_with(&card(), &text, 256);
        assert_eq!(without, Outcome { answer: 0, word, data: 0, security: 0 }, "{text}");
        assert_eq!((without, one), (with, other), "{text}");
        assert_eq!(response, [MARK; 256], "{text}");
    }
}

/// Makes a file again on another card by its template, in a directory of
/// another slot and level; gives the two records' bytes.
fn made_again(slot: usize, way: &[&str]) -> [Vec<u8>; 2] {
    let (mut old, last) = before_last(&card(), way);
    let (_, template) = ask_under(&mut old, &select_fcp(&last), &State::FULL);
    let pin_status = if old[16 + 64 * slot] == 1 { "C60155" } else { "" };
    let objects = format!("{}{pin_status}", hex(&template[2..]));
    let mut new = roomy(64);
    for text in [create_df("7F77", 2000, OPEN), create_df("7F78", 1900, OPEN), create(&objects)] {
        assert_eq!(run(&mut new, &text), SUCCESS, "{text}");
    }
    let record = |image: &[u8], slot: usize| image[16 + 64 * slot..80 + 64 * slot].to_vec();
    [record(&old, slot), record(&new, 3)]
}

#[test]
fn a_template_makes_the_same_record_again() {
    for (slot, way, _) in &FILES[1..] {
        let [old, mut new] = made_again(*slot, way);
        assert_eq!(new[6..10], bytes("0002 0003"), "parent and level");
        new[6..10].copy_from_slice(&old[6..10]);
        assert_eq!(hex(&old), hex(&new), "slot {slot}");
    }
}

/// The template alone does not tell a DF's C6, so CREATE wants it added.
#[test]
fn a_directory_needs_a_c6_to_be_made_again() {
    for (template, word) in [(NAMED, WRONG_DATA), (LINEAR, SUCCESS), (TRANSPARENT, SUCCESS)] {
        let objects = &template.replace(' ', "")[4..];
        assert_eq!(run(&mut roomy(32), &create(objects)), word);
    }
}

/// The ticket speaks of life cycles that CREATE takes; 0C is none.
#[test]
fn a_terminated_file_is_not_made_again() {
    let objects = LINEAR.replace("8A0107", "8A010C").replace(' ', "");
    assert_eq!(run(&mut roomy(32), &create(&objects[4..])), WRONG_DATA);
}

/// A35: replay lends a buffer that is long enough.
#[test]
fn replay_never_says_0000() {
    let name = "11".repeat(16);
    let rule = "00".repeat(16);
    let longest =
        create(&format!("82023821 83027F10 8410{name} 8A0104 8C10{rule} 81020001 C60100"));
    let mut input = bytes("554653 0001 0008 000001C0");
    for text in
        [longest, select_fcp("7F10"), select_fcp("3F00"), select_fcp("6F01"), select("3F00")]
    {
        let command = bytes(&text);
        input.extend((command.len() as u16).to_be_bytes());
        input.extend(command);
    }
    let words = "9000\n6283\n9000\n6A82\n9000\n";
    assert_eq!(String::from_utf8_lossy(&replay(&input)), words);
}

/// The template itself, for every record length and size that two bytes hold.
#[test]
fn numbers_of_two_bytes_high_byte_first() {
    let image = card();
    let file = Card::decode(&image).expect("a sound card").record(2).clone();
    for number in 0..=u16::MAX {
        let changed = model::Record { record_length: number, size: number.into(), ..file.clone() };
        let template = fcp::template(&changed);
        assert_eq!(template[6..8], number.to_be_bytes());
        assert_eq!(template[20..22], number.to_be_bytes());
    }
}
