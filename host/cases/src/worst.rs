//! The worst-case cards of 1,023 slots: deepest nesting, as many names as fit,
//! one identifier in every directory; an ordinary one, 900 files in 40
//! directories; and others for what came later. Each can be had with fewer slots
//! too, for measurements.

use model::edition::{Edition, Version};
use model::expanded::{tags, DEEPEST};
use model::rule::Form;
use model::{Card, Kind, Record};

use crate::compact;
use crate::expanded::{mode, object};

/// As many slots as a card can have.
pub const MOST_SLOTS: usize = 1023;

/// A card with the reason why it stands here.
#[derive(Clone, PartialEq, Eq, Debug)]
pub struct Worst {
    /// What it is the worst of.
    pub title: &'static str,
    /// Its image.
    pub image: Vec<u8>,
}

/// All worst-case cards.
pub fn cards() -> Vec<Worst> {
    cards_of(MOST_SLOTS)
}

/// The same cards with so many slots, at least 16.
pub fn cards_of(slots: usize) -> Vec<Worst> {
    let worst = |title, card: Card| Worst { title, image: card.encode() };
    vec![
        worst("deepest nesting", deepest(slots)),
        worst("all names", all_names(slots)),
        worst("one identifier in every directory", one_identifier(slots)),
        worst("900 files in 40 directories", nine_hundred_files(slots, 40)),
    ]
}

/// Cards with so many slots on which soundness takes longer than its time in
/// proportion (docs/SPEED.md); they are made on purpose, and only measured.
pub fn slow_of(slots: usize) -> Vec<Worst> {
    vec![Worst { title: "all names of one key", image: names_of_one_key(slots).encode() }]
}

/// Cards with so many slots on which a search by identifier meets hardly anything
/// but children of its directory (02, Ticket 5); they are only measured.
pub fn one_directory_of(slots: usize) -> Vec<Worst> {
    let card = nine_hundred_files(slots, 1);
    vec![Worst { title: "one directory of 900 files", image: card.encode() }]
}

/// Cards of version 2 with so many slots, all of whose rules are as long and as
/// deep as can be (02, Ticket 3).
pub fn ruled_of(slots: usize) -> Vec<Worst> {
    let mut card = nine_hundred_files(slots, 40);
    card.edition = Edition::of(Version::Two);
    for record in card.records.iter_mut().filter(|record| record.is_used()) {
        (record.form, record.rule) = (Form::Expanded, longest_rule());
    }
    vec![Worst { title: "900 files with the longest expanded rules", image: card.encode() }]
}

/// Cards of version 3 with so many slots, on which a CREATE has to move as many
/// bodies as can be (02, Ticket 4).
pub fn far_apart_of(slots: usize) -> Vec<Worst> {
    vec![Worst { title: "bodies far apart", image: bodies_far_apart(slots).encode() }]
}

/// A card of version 3 with so many slots, at least 16, and its pool, on which a
/// rule is looked for through as many directories as can be, and is as long as
/// can be (02, Ticket 7). Every directory refers to the first record of a file in
/// the root; the innermost is current.
pub fn referred_of(slots: usize) -> (Worst, Vec<u8>) {
    let mut filling = Filling::new(slots);
    filling.card.edition = Edition::of(Version::Three);
    let rule = [mode(0x7F), object(tags::NEVER, &[]).repeat(125), object(tags::ALWAYS, &[])];
    let rule = rule.concat();
    let size = rule.len() as u32;
    let record_length = rule.len() as u16;
    filling.add(0, Record { descriptor: 0x42, record_length, ..ef(0x2F06, size) });
    let (mut parent, mut total) = (0, filling.card.room(0) as u32);
    while total > 64 {
        total -= 64;
        parent = filling.add(parent, df(0x7000 + filling.next as u16, total));
    }
    for record in filling.card.records.iter_mut().filter(|record| record.is_df()) {
        (record.form, record.rule) = (Form::Referred, vec![0x2F, 0x06, 1]);
    }
    filling.card.make_current(parent);
    let mut pool = rule;
    pool.resize(largest_total(slots) as usize, 0);
    let title = "a rule looked for through every directory";
    (Worst { title, image: filling.card.encode() }, pool)
}

/// EFs in the root in half the slots, the last one's body the lowest, all with
/// the same gap below; the room is larger than any gap.
fn bodies_far_apart(slots: usize) -> Card {
    let mut filling = Filling::new(slots);
    filling.card.edition = Edition::of(Version::Three);
    let files = slots / 2;
    let gap = largest_total(slots) / (files as u32 + 1) - 4;
    for number in 0..files as u32 {
        let start = (files as u32 - number) * gap + 4 * (files as u32 - 1 - number);
        let file = ef(0x6000 + number as u16, 1 + number % 4);
        filling.add(0, Record { start: start as u16, ..file });
    }
    filling.card
}

/// Everything always in 30 bytes, by the last condition of the innermost of
/// four templates.
fn longest_rule() -> Vec<u8> {
    let never = object(tags::NEVER, &[]);
    let innermost = [never.repeat(5), object(tags::BYTE, &[0x00])].concat();
    let templates = (1..DEEPEST).fold(object(tags::ONE_OF, &innermost), |inside, _| {
        object(tags::ONE_OF, &[never.clone(), inside].concat())
    });
    [mode(0x7F), templates].concat()
}

/// A card being filled slot by slot.
struct Filling {
    card: Card,
    next: usize,
}

impl Filling {
    fn new(slots: usize) -> Filling {
        let mut card = Card {
            edition: Edition::BASE,
            current_df: 0,
            current_ef: None,
            records: vec![Record::FREE; slots],
        };
        card.put(0, df(0x3F00, largest_total(slots)));
        Filling { card, next: 1 }
    }

    /// Puts a file into the next slot and gives that slot.
    fn add(&mut self, parent: usize, record: Record) -> usize {
        let slot = self.next;
        let level = self.card.record(parent).level + 1;
        self.card.put(slot, Record { parent: parent as u16, level, ..record });
        self.next += 1;
        slot
    }
}

/// The largest total of the root of a card with so many slots.
fn largest_total(slots: usize) -> u32 {
    64 * (slots as u32 - 1)
}

/// An activated directory that allows everything.
pub fn df(identifier: u16, total: u32) -> Record {
    Record {
        kind: Kind::Df,
        descriptor: 0x38,
        life_cycle: 0x05,
        identifier,
        size: total,
        rule: compact::open(),
        ..Record::FREE
    }
}

fn ef(identifier: u16, size: u32) -> Record {
    Record { kind: Kind::Ef, descriptor: 0x41, ..df(identifier, size) }
}

/// Each directory's total is 64 less than its parent's, so 1,021 of them nest
/// in 1,023 slots before the total would be 0. The innermost is current.
fn deepest(slots: usize) -> Card {
    let mut filling = Filling::new(slots);
    let mut parent = 0;
    let mut total = largest_total(slots);
    while total > 64 {
        total -= 64;
        let identifier = 0x7000 + filling.next as u16;
        parent = filling.add(parent, df(identifier, total));
    }
    filling.card.make_current(parent);
    filling.card
}

/// As many named directories in the root as it can pay; the names differ only
/// in their last two bytes.
fn all_names(slots: usize) -> Card {
    let mut filling = Filling::new(slots);
    while filling.card.room(0) >= 65 {
        let number = filling.next as u16;
        let mut name = vec![0xA0; 14];
        name.extend(number.to_be_bytes());
        filling.add(0, Record { name, ..df(0x7000 + number, 1) });
    }
    filling.card
}

/// The same, but all names share the key by which soundness tells most names
/// apart (crates/sound_names), so that each is compared with all before it. They
/// share their last byte too, which CREATE asks first (`kinship::names::same`).
fn names_of_one_key(slots: usize) -> Card {
    let mut filling = Filling::new(slots);
    while filling.card.room(0) >= 65 {
        let number = filling.next as u32;
        // The key is 32771 c + 18 d of the last two words, below 65521, with
        // the first two held; 65521 is odd, so that some d ends in a 0 byte.
        let least = 65521 - 32771 * 18 * number % 65521;
        let ends_in_zero = |d: &u32| d % 256 == 0;
        let d = (0..256).map(|turn| least + 65521 * turn).find(ends_in_zero).unwrap_or(least);
        let (c, mut name) = (18 * 18 * number, vec![0xA0; 8]);
        name.extend(c.to_be_bytes());
        name.extend(d.to_be_bytes());
        filling.add(0, Record { name, ..df(0x7000 + number as u16, 1) });
    }
    filling.card
}

/// As many directories in the root as it can pay, each holding an EF 6F07
/// that takes its whole total.
fn one_identifier(slots: usize) -> Card {
    let mut filling = Filling::new(slots);
    while filling.card.room(0) >= 65 + 64 {
        let directory = filling.add(0, df(0x7000 + filling.next as u16, 65));
        filling.add(directory, ef(0x6F07, 1));
    }
    filling.card
}

/// Of 1,023 slots so many directories, first all of them, then 900 EFs in turn,
/// so that the children of one of several directories lie far apart; of fewer
/// slots as many in proportion. The last directory is current.
fn nine_hundred_files(slots: usize, many: usize) -> Card {
    let mut filling = Filling::new(slots);
    let share = |of_the_largest: usize| (of_the_largest * slots / MOST_SLOTS).max(1);
    let many = share(many);
    let total = largest_total(slots) / many as u32 - 64;
    // A file here takes at most 64 + 4.
    let files = share(900).min(many * (total / 68) as usize);
    let directories: Vec<_> =
        (0..many as u16).map(|number| filling.add(0, df(0x7F00 + number, total))).collect();
    for number in 0..files {
        let directory = directories[number % many];
        let identifier = 0x6000 + (number / many) as u16;
        filling.add(directory, ef(identifier, 1 + number as u32 % 4));
    }
    filling.card.make_current(directories[many - 1]);
    filling.card
}
