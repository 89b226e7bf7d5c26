//! Every near-miss in turn: the good commands work, and each near-miss is
//! refused with the word of the step that it misses.

use std::collections::BTreeMap;

use cases::near::{
    card, card_of_version_two, card_with_body, create_expanded, every_near_miss, good_commands,
    good_for_body, near_misses_of, near_misses_of_the_rule, RESPONSE,
};
use cases::{editions, near_kept, Case, Lent};
use model::command::Instruction;
use model::deciding::{deciding, Place};
use model::edition::Edition;
use model::lines::Case as Line;
use model::{command, sound, words, State, Word};

/// The word of a command on the card of the near-misses.
fn word(bytes: &[u8]) -> Word {
    word_on(card(), bytes)
}

fn word_on(mut image: Vec<u8>, bytes: &[u8]) -> Word {
    let outcome = command(&mut image, &mut [], bytes, &mut RESPONSE.clone(), &State::FULL);
    assert_eq!(outcome.answer, 0);
    outcome.word
}

#[test]
fn the_good_commands_pass_the_steps_a_to_j() {
    assert!(sound(&card()));
    let given: Vec<_> = good_commands().iter().map(|good| word(good)).collect();
    // ACTIVATE finds the EF activated already.
    let mut wanted = [words::SUCCESS; 9];
    wanted[4] = words::CONDITIONS_NOT_SATISFIED;
    assert_eq!(given, wanted);
}

/// The INS bytes that cards of an edition know.
fn known(edition: Edition) -> impl Iterator<Item = u8> {
    let of_edition = move |(_, one): &(u8, Instruction)| one.is_known(edition);
    Instruction::ALL.into_iter().filter(of_edition).map(|(ins, _)| ins)
}

fn tells(lc: u8, command: &[u8]) -> bool {
    lc > 0 && command.len() == 5 + usize::from(lc)
}

/// The word of a near-miss, from the first thing in which it differs.
fn expected(good: &[u8], miss: &[u8]) -> Option<Word> {
    if miss.len() < 4 {
        return Some(words::WRONG_LENGTH);
    }
    match (0..good.len().min(miss.len())).find(|&place| good[place] != miss[place]) {
        Some(0) if miss[0] <= 3 => Some(words::CONDITIONS_NOT_SATISFIED),
        Some(0) => Some(words::UNKNOWN_CLASS),
        Some(1) if known(Edition::BASE).all(|ins| ins != miss[1]) => {
            Some(words::UNKNOWN_INSTRUCTION)
        }
        // Another instruction: it has its own parameters and lengths.
        Some(1) => None,
        // The other P2 of SELECT, with which the length does not fit.
        Some(3) if good[1] == 0xA4 && [0x04, 0x0C].contains(&miss[3]) => Some(words::WRONG_LENGTH),
        Some(2 | 3) => Some(words::WRONG_PARAMETERS),
        // A CREATE whose Lc tells the longer length fails in its data.
        _ if good[1] == 0xE0 && miss.get(4).is_some_and(|&lc| tells(lc, miss)) => {
            Some(words::WRONG_DATA)
        }
        _ => Some(words::WRONG_LENGTH),
    }
}

#[test]
fn each_near_miss_is_refused_at_its_step() {
    let (mut judged, mut other) = (0, 0);
    for good in good_commands() {
        for miss in near_misses_of(&good) {
            match expected(&good, &miss) {
                Some(wanted) => {
                    assert_eq!(word(&miss), wanted, "{miss:02X?}");
                    judged += 1;
                }
                None => other += 1,
            }
        }
    }
    assert!(judged > 8000, "{judged} judged");
    assert_eq!(other, 9 * 7, "each command turned into the seven other instructions");
}

/// The rule's good bytes work on version 2. What may stand in their place: any
/// SC byte, AM bytes without b8, 97 for 90 and AF for A0 and the other way, 9E
/// for the second 80, and a length by which the last condition of a template
/// stands behind it.
#[test]
fn near_misses_of_the_rule_are_refused_as_data() {
    assert_eq!(word_on(card_of_version_two(), &create_expanded()), words::SUCCESS);
    assert_eq!(word(&create_expanded()), words::WRONG_DATA);
    let given = near_misses_of_the_rule();
    let given = given.iter().map(|miss| word_on(card_of_version_two(), miss));
    let (done, refused): (Vec<_>, Vec<_>) = given.partition(|&word| word == words::SUCCESS);
    assert!(refused.iter().all(|&word| word == words::WRONG_DATA));
    let (sc_bytes, am_bytes, tags, lengths) = (2 * 255, 2 * 127, 5 + 3 + 1, 1);
    assert_eq!(done.len(), sc_bytes + am_bytes + tags + lengths);
    assert_eq!(refused.len(), 30 * 255 - done.len());
}

/// The word of a near-miss of a READ or an UPDATE, from the first thing in which
/// it differs; the EF has 9 bytes or 3 records of 3.
fn expected_of_body(good: &[u8], miss: &[u8], records: bool) -> Option<Word> {
    let place = (0..good.len().min(miss.len())).find(|&place| good[place] != miss[place]);
    let start = u16::from_be_bytes([*miss.get(2).unwrap_or(&0), *miss.get(3).unwrap_or(&0)]);
    let reads = good.len() == 5;
    Some(match (place, records) {
        _ if miss.len() < 4 => words::WRONG_LENGTH,
        (Some(0), _) if miss[0] <= 3 => words::CONDITIONS_NOT_SATISFIED,
        (Some(0), _) => words::UNKNOWN_CLASS,
        (Some(1), _) if known(editions::NEWEST).all(|ins| ins != miss[1]) => {
            words::UNKNOWN_INSTRUCTION
        }
        (Some(1), _) => return None,
        (Some(2), true) if (1..=3).contains(&miss[2]) => words::SUCCESS,
        (Some(2), true) => words::RECORD_NOT_FOUND,
        (Some(3), true) => words::WRONG_PARAMETERS,
        (Some(2 | 3), false) if start >= 9 => words::WRONG_PARAMETERS,
        (Some(2 | 3), false) if start + 4 > 9 => words::WRONG_LENGTH,
        (Some(2 | 3), false) => words::SUCCESS,
        // Le of a READ that the body has; an UPDATE of 5 to 7 bytes from 2 on.
        (Some(4), false) if reads && miss.len() == 5 && (1..=7).contains(&miss[4]) => {
            words::SUCCESS
        }
        (Some(4), false) if !reads && tells(miss[4], miss) && miss[4] <= 7 => words::SUCCESS,
        _ => words::WRONG_LENGTH,
    })
}

#[test]
fn each_near_miss_of_read_and_update_gives_its_word() {
    let mut counts = BTreeMap::new();
    for records in [false, true] {
        let lent = card_with_body(records);
        assert!(sound(&lent.image));
        for good in good_for_body(records) {
            let word = |bytes: &[u8]| {
                let (mut lent, mut response) = (lent.clone(), RESPONSE);
                let Lent { image, pool } = &mut lent;
                command(image, pool, bytes, &mut response, &State::FULL).word
            };
            assert_eq!(word(&good), words::SUCCESS);
            for miss in near_misses_of(&good) {
                let expected = expected_of_body(&good, &miss, records);
                *counts.entry(expected).or_insert(0) += 1;
                assert_eq!(word(&miss), expected.unwrap_or(word(&miss)), "{miss:02X?}");
            }
        }
    }
    assert_eq!(counts[&None], 4 * 11, "each turned into the eleven other instructions");
    assert!(counts[&Some(words::SUCCESS)] > 20 && counts.len() == 8, "{counts:04X?}");
}

#[test]
fn they_are_all_given_as_cases() {
    let misses = |good: &[Vec<u8>]| good.iter().map(|one| near_misses_of(one).len()).sum::<usize>();
    let of_bodies: usize =
        [false, true].map(|records| misses(&good_for_body(records))).iter().sum();
    let kept = near_kept::every().count();
    let all = misses(&good_commands()) + near_misses_of_the_rule().len() + of_bodies;
    assert_eq!(every_near_miss().count(), all + kept);
    let commands = |case: &Case| matches!(case, Case::OneCommand { .. });
    assert!(every_near_miss().take(all).all(|case| commands(&case)));
    let asked = |case: &Case| matches!(case, Case::Deciding { .. });
    let (asked, others): (Vec<_>, Vec<_>) = near_kept::every().partition(asked);
    assert!(others.iter().all(commands));
    assert_eq!(asked.len(), 255 * (near_kept::LENGTH + 5), "a record, and a reference's bytes");
    assert_eq!(others.len(), asked.len() + 255 * 5, "as many READs, and CREATE's 8B");
}

/// The rule kept in a file grants the READ, and still does with many another byte
/// in it; no byte of the padding may be another.
#[test]
fn near_misses_of_a_rule_kept_in_a_file() {
    let lent = near_kept::card();
    let place = near_kept::record().start;
    let rule = place..place + near_kept::RULE.len();
    let found = deciding(&lent.image, &lent.pool, near_kept::RULED_FILE);
    assert_eq!(found, Place::InPool { from: rule.start, to: rule.end });
    let mut counts = BTreeMap::new();
    for line in near_kept::every().flat_map(|case| case.lines()) {
        let (bytes, changed) = match &line {
            Line::Deciding { image, pool, .. } => (None, (image, pool)),
            Line::Command { image, pool, command, .. } => (Some(command), (image, pool)),
            _ => panic!("no other line"),
        };
        let padding = (rule.end..near_kept::record().end).any(|at| changed.1[at] != 0xFF);
        let result = line.result();
        let told = match (bytes.map(|bytes| bytes[1]), result.as_str()) {
            (None, "D none 0 -") => "nowhere",
            (None, _) if result.starts_with("D pool ") => "found",
            (None, _) => "another place",
            (Some(0xB0), _) if result.starts_with("C 0 9000") => "read",
            (Some(0xB0), _) if result.starts_with("C 0 6982") => "refused",
            (Some(0xB0), _) if result.starts_with("C 1 0000") => "unsound",
            (_, _) if result.starts_with("C 0 9000") => "made",
            (_, _) if result.starts_with("C 0 6A80") => "not made",
            _ => panic!("{result:.20}"),
        };
        assert!(!padding || ["nowhere", "refused"].contains(&told), "{told}");
        *counts.entry(told).or_insert(0) += 1;
    }
    // Of CREATE's 8B the three bytes of the value may be any.
    assert_eq!((counts["made"], counts["not made"]), (3 * 255, 2 * 255));
    assert_eq!(counts["unsound"], 2 * 255, "form and length of the reference");
    assert_eq!(counts.get("another place"), None);
    assert!(counts["read"] > 800 && counts["read"] < counts["found"], "{counts:?}");
}
