//! The maker of fresh images: 01, "Making and reporting"; 02, Ticket 3. It takes
//! no pool: on a fresh card no byte of one belongs to a body.

use crate::answers::{Answer, BAD_BUFFER, BAD_RULE, BAD_TOTAL, DONE};
use crate::card::{largest_total, slots_of_length, Card, ROOT, ROOT_IDENTIFIER};
use crate::edition::{Edition, Version};
use crate::life_cycle;
use crate::record::{Kind, Record};
use crate::rule::{self, Form};

/// The descriptor that the maker gives the root.
pub const ROOT_DESCRIPTOR: u8 = 0x38;

/// Makes a fresh card of this version in the buffer, the root's rule of this
/// form. Refusals are checked in the order 2, 3, 4 and leave the buffer as it
/// came.
pub fn make(buffer: &mut [u8], version: u32, total: u32, form: u32, root_rule: &[u8]) -> Answer {
    let (Some(version), Some(slots)) =
        (Version::from_number(version), slots_of_length(buffer.len()))
    else {
        return BAD_BUFFER;
    };
    let edition = Edition::of(version);
    if !(1..=largest_total(slots)).contains(&u64::from(total)) {
        return BAD_TOTAL;
    }
    let fit = |form: &Form| rule::fit(edition, *form, root_rule);
    let Some(form) = Form::from_number(form).filter(fit) else {
        return BAD_RULE;
    };
    let root = root(total, form, root_rule);
    buffer.copy_from_slice(&fresh_card(edition, slots, root).encode());
    DONE
}

/// The root current, no EF, all other slots free.
fn fresh_card(edition: Edition, slots: usize, root: Record) -> Card {
    let mut card =
        Card { edition, current_df: ROOT, current_ef: None, records: vec![Record::FREE; slots] };
    card.put(ROOT, root);
    card
}

fn root(total: u32, form: Form, rule: &[u8]) -> Record {
    Record {
        kind: Kind::Df,
        descriptor: ROOT_DESCRIPTOR,
        life_cycle: life_cycle::ACTIVATED,
        identifier: ROOT_IDENTIFIER,
        size: total,
        form,
        rule: rule.to_vec(),
        ..Record::FREE
    }
}
