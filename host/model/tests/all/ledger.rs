//! Demand 3's ledger: it follows a card, and it finds out cards that do not
//! keep their room (the impostors of 01, "What the statements must tie down").

use crate::common::*;
use model::ledger::{announced, current_df_slot, Ledger};
use model::words::*;
use model::{command, report, State};

/// Runs commands on a card with a ledger beside it; after each the ledger's
/// total, room and children are the report's.
fn follow(image: &mut [u8], ledger: &mut Ledger, commands: &[String]) {
    let mut pool = pool_for(image);
    for text in commands {
        let bytes = bytes(text);
        let before = current_df_slot(image);
        let word = command(image, &mut pool, &bytes, &mut [], &State::FULL).word;
        assert!(ledger.agrees(&bytes, word, before), "{text} answered {word:04X}");
        let after = current_df_slot(image);
        ledger.enter(&bytes, word, before, after);
        let (_, [total, room, children, _]) = report(image);
        assert_eq!(ledger.total(after), Some(total), "{text}");
        assert_eq!(ledger.room(after), Some(u64::from(room)), "{text}");
        assert_eq!(ledger.children(after), children as usize, "{text}");
    }
}

#[test]
fn the_ledger_follows_a_card() {
    let commands = [
        create_df("7F10", 400, OPEN),
        create_df("7F20", 300, OPEN),
        create_ef("6F01", 236, OPEN),
        create_ef("6F02", 1, OPEN),
        select("7F10"),
        create_ef("6F03", 1, OPEN),
        select("3F00"),
        create_ef("6F04", 1216 - 464 - 64 + 1, OPEN),
        create_ef("6F04", 1216 - 464 - 64, OPEN),
        create_ef("6F05", u32::MAX, OPEN),
        delete("7F10"),
        create_df("7F20", 100, OPEN),
        create_ef("6F01", 36, OPEN),
        select("3F00"),
        delete("6F04"),
        create_df("7F10", 200, OPEN),
        create_ef("6F01", 137, OPEN),
        create_ef("6F01", 136, OPEN),
    ];
    for version in 1..=3 {
        let mut image = made(version, 20, 64 * 19, 0, OPEN);
        follow(&mut image, &mut Ledger::open(64 * 19), &commands);
    }
}

#[test]
fn a_card_that_always_answers_9000_is_found() {
    let mut ledger = Ledger::open(200);
    let first = bytes(&create_ef("6F01", 100, OPEN));
    assert!(ledger.agrees(&first, SUCCESS, 0));
    ledger.enter(&first, SUCCESS, 0, 0);
    let second = bytes(&create_ef("6F02", 100, OPEN));
    assert!(!ledger.agrees(&second, SUCCESS, 0));
    ledger.enter(&second, SUCCESS, 0, 0);
    assert_eq!(ledger.room(0), None, "more was charged than announced");
}

#[test]
fn a_card_that_refuses_with_room_is_found() {
    let ledger = Ledger::open(164);
    assert!(!ledger.agrees(&bytes(&create_ef("6F01", 100, OPEN)), NOT_ENOUGH_MEMORY, 0));
    assert!(ledger.agrees(&bytes(&create_ef("6F01", 101, OPEN)), NOT_ENOUGH_MEMORY, 0));
    assert!(!ledger.agrees(&bytes(&create_ef("6F01", 101, OPEN)), SUCCESS, 0));
    assert!(!ledger.agrees(&bytes(&create_ef("6F01", u32::MAX, OPEN)), SUCCESS, 0));
}

#[test]
fn refused_commands_are_not_entered() {
    let mut ledger = Ledger::open(1000);
    let fresh = ledger.clone();
    for word in ALL.into_iter().filter(|&word| word != SUCCESS) {
        ledger.enter(&bytes(&create_ef("6F01", 100, OPEN)), word, 0, 0);
        ledger.enter(&bytes(&delete("6F01")), word, 0, 0);
    }
    assert_eq!(ledger, fresh);
}

#[test]
fn striking_a_directory_strikes_all_beneath() {
    let mut ledger = Ledger::open(1000);
    ledger.enter(&bytes(&create_df("7F10", 500, OPEN)), SUCCESS, 0, 1);
    ledger.enter(&bytes(&create_df("7F20", 300, OPEN)), SUCCESS, 1, 2);
    ledger.enter(&bytes(&create_ef("6F01", 100, OPEN)), SUCCESS, 2, 2);
    assert_eq!(ledger.room(2), Some(136));
    ledger.enter(&bytes(&delete("7F10")), SUCCESS, 0, 0);
    assert_eq!(ledger.room(0), Some(1000));
    assert_eq!(ledger.total(2), None);
    // The slot is used again by another directory, which starts empty.
    ledger.enter(&bytes(&create_df("7F30", 200, OPEN)), SUCCESS, 0, 2);
    assert_eq!(ledger.room(2), Some(200));
}

#[test]
fn what_a_command_announces() {
    let df = announced(&bytes(&create_named("7F10", "A0", 70_000))).expect("a DF");
    assert_eq!((df.is_df, df.identifier, df.size), (true, 0x7F10, 70_000));
    let ef = announced(&bytes(&create_ef("6F07", u32::MAX, OPEN))).expect("an EF");
    assert_eq!((ef.is_df, ef.identifier, ef.size), (false, 0x6F07, u32::MAX));
    assert_eq!(announced(&[]), None);
}
