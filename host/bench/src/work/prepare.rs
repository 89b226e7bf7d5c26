//! The cards that commands start from: the last file current, or its directory, with
//! the rule that is to decide.

use cases::actions::{bare, select};
use cases::rules::Rule;
use cases::template::FileData;
use model::rule::Form;
use model::{Card, Record};

use super::Call;
use crate::bodied::BYTES;
use crate::referred::{Ruling, FILE_BYTES};

/// The AM byte of DEACTIVATE, and two conditions for it: user authentication 1, and
/// the one that no state opens.
const DEACTIVATES: u8 = 0x08;
pub const USER_1: u8 = 0x11;
pub const NEVER: u8 = 0xFF;
/// Groups of two bytes in the longest rule of version 1.
const GROUPS: usize = 8;

/// The last slot in use; nothing stands beneath it in any of the shapes.
pub fn last_slot(card: &Card) -> usize {
    card.used_slots().last().unwrap_or(0)
}

/// Makes the last file's directory current, and gives the SELECT of the file.
pub fn select_last(card: &mut Card) -> Vec<u8> {
    let slot = last_slot(card);
    card.make_current(card.parent(slot));
    select(card.record(slot).identifier)
}

/// A SELECT that wants the template: P2 04 and Le 00.
pub fn with_template(mut select: Vec<u8>) -> Vec<u8> {
    select.iter_mut().skip(3).take(1).for_each(|p2| *p2 = 0x04);
    select.push(0x00);
    select
}

/// Takes the last file away, and gives the CREATE of one like it.
pub fn last_file_again(card: &mut Card, descriptor: u8) -> Vec<u8> {
    let slot = last_slot(card);
    let last = card.record(slot).clone();
    card.make_current(usize::from(last.parent));
    card.put(slot, Record::FREE);
    let mut file = FileData::plain(descriptor, last.identifier, last.size);
    if file.is_df() && !last.name.is_empty() {
        file.name = Some(last.name);
    }
    file.rule = Rule { form: last.form, bytes: last.rule };
    file.command()
}

/// Makes the last file's directory current, and gives the CREATE of another file
/// of so many bytes in it.
pub fn beside_last_file(card: &mut Card, size: u32) -> Vec<u8> {
    card.make_current(card.parent(last_slot(card)));
    FileData::plain(0x41, 0x5555, size).command()
}

/// Makes the last file current, with its directory, and gives the READ or UPDATE
/// of its first bytes.
pub fn of_last_body(card: &mut Card, ins: u8, data: &[u8]) -> Vec<u8> {
    let slot = last_slot(card);
    card.make_current(card.parent(slot));
    card.make_current(slot);
    [&[0x00, ins, 0x00, 0x00, BYTES as u8], data].concat()
}

/// Makes the last file current, with its directory, in a life cycle.
pub fn on_last_file(card: &mut Card, life_cycle: u8, ins: u8) -> Call {
    let slot = last_slot(card);
    card.make_current(card.parent(slot));
    card.make_current(slot);
    card.set_life_cycle(slot, life_cycle);
    Call::Command(bare(ins))
}

/// Makes the last file current, with its directory, and refuses its DEACTIVATE by a
/// rule of so many groups as every version takes: none but the last may hold in any
/// state, so that each is looked at.
pub fn refused_by(card: &mut Card, last_condition: u8) -> Call {
    on_last_file(card, 0x05, 0x04);
    let slot = last_slot(card);
    let rule =
        [[DEACTIVATES, NEVER].repeat(GROUPS - 1), vec![DEACTIVATES, last_condition]].concat();
    let record = card.record(slot).clone();
    card.put(slot, Record { form: Form::Compact, rule, ..record });
    Call::Unauthenticated(bare(0x04))
}

/// Makes the last file current, with its directory, and gives the READ or UPDATE of
/// its one record.
pub fn of_last_record(card: &mut Card, ins: u8, data: &[u8]) -> Call {
    on_last_file(card, 0x05, ins);
    Call::Command([&[0x00, ins, 0x01, 0x04, FILE_BYTES], data].concat())
}

/// Makes the last file current, with its directory, and refuses its DEACTIVATE by
/// another record of the rule file, or by the same rule as its own.
pub fn refused_by_rule(card: &mut Card, ruling: Ruling) -> Call {
    on_last_file(card, 0x05, 0x04);
    let slot = last_slot(card);
    ruling.rules(card, slot);
    Call::Unauthenticated(bare(0x04))
}
