//! Cards whose files are ruled by records of other files (02, Ticket 7): a row
//! of directories one in another, in some of which a file of one identifier
//! stands, mostly a linear fixed EF; and files that refer to it.

use model::deciding::rule_file;
use model::rule::Form;
use model::{Card, Kind, Record, State};

use crate::choices::{free_identifier, taken_identifiers};
use crate::contents::Contents;
use crate::decided::{self, Wish};
use crate::kept::{records_of, Kept};
use crate::layouts::{lay_out, Layout};
use crate::random::Random;
use crate::rules::{self, Rule};
use crate::{editions, images, life_cycles, security};

/// Most directories one in another below the root.
const DEEPEST: usize = 3;
/// What a file costs beside its body.
const FILE: u32 = 64;
/// Record lengths: for hardly any rule, for one of few groups, for long ones.
const LENGTHS: [u32; 16] = [4, 5, 6, 8, 8, 11, 12, 16, 16, 20, 24, 28, 32, 40, 100, 255];

/// What stands under the identifier to which others refer.
#[derive(Clone, Copy, PartialEq, Eq, Debug)]
enum Sort {
    LinearFixed,
    Cyclic,
    Transparent,
    Directory,
}

/// How often each stands in the root, and below, where it may hide another above.
const IN_THE_ROOT: [(Sort, usize); 4] =
    [(Sort::LinearFixed, 20), (Sort::Cyclic, 2), (Sort::Transparent, 2), (Sort::Directory, 2)];
const BELOW: [(Sort, usize); 4] =
    [(Sort::LinearFixed, 9), (Sort::Cyclic, 2), (Sort::Transparent, 2), (Sort::Directory, 2)];

/// A command on such a card that asks a referred rule, and the state under
/// which it comes. The rule, where one is found, is made for a decision.
pub fn asked(random: &mut Random) -> (Kept, Vec<u8>, State) {
    let (card, identifier) = built(random);
    let (command, asks) = security::some_command(random, &card);
    let mut kept = Kept::of(random, card);
    let state = decided::state(random);
    for (number, (slot, right)) in asks.into_iter().enumerate() {
        // Of DELETE's two rules one may stand in its own record.
        if number == 0 || random.chance(70) {
            refer(random, &mut kept.card, slot, identifier);
        }
        let wish = Wish { right, state, decision: decided::decision(random, &state) };
        let good = random.chance(60);
        let contents = if good { Contents::good(random) } else { Contents::any(random) };
        kept.write(random, slot, contents, &wish);
    }
    (kept, command, State { channels: security::channels(random), ..state })
}

/// A card with its pool.
pub fn kept(random: &mut Random) -> Kept {
    let card = built(random).0;
    Kept::of(random, card)
}

/// A card, and the identifier to which its files refer.
fn built(random: &mut Random) -> (Card, u16) {
    let slots = random.range(10, 30) as usize;
    let mut card = images::empty_card_of(random, editions::NEWEST, slots);
    if let Some(root) = card.records.first_mut() {
        root.size = 64 * (slots as u32 - 1);
    }
    let identifier = match random.chance(80) {
        true => random.pick([0x2F06, 0x6F06]),
        false => free_identifier(random, &card, 0),
    };
    let mut path = vec![0];
    for _ in 0..random.below(DEEPEST + 1) {
        let above = path.last().copied().unwrap_or(0);
        path.extend(add_directory(random, &mut card, above, identifier));
    }
    for &df in &path {
        if random.chance(if df == 0 { 75 } else { 55 }) {
            add_named(random, &mut card, df, identifier);
        }
    }
    for _ in 0..random.range(1, 4) {
        let df = random.choose(&path).copied().unwrap_or(0);
        add_ruled(random, &mut card, df, identifier);
    }
    let used: Vec<_> = card.used_slots().collect();
    for slot in used {
        if random.chance(55) {
            refer(random, &mut card, slot, identifier);
        }
    }
    let layout = Layout::any(random);
    lay_out(random, &mut card, layout);
    choose_current(random, &mut card, identifier);
    (card, identifier)
}

/// Mostly an EF becomes current that others do not refer to, in its directory;
/// else any directory, at times with any EF.
fn choose_current(random: &mut Random, card: &mut Card, identifier: u16) {
    let ruled =
        |slot: &usize| card.record(*slot).is_ef() && card.record(*slot).identifier != identifier;
    let files: Vec<_> = card.used_slots().filter(ruled).collect();
    match random.choose(&files) {
        Some(&ef) if random.chance(70) => {
            card.make_current(card.parent(ef));
            card.make_current(ef);
        }
        _ => images::choose_current(random, card, 30),
    }
}

/// Puts a file into any free slot, if the directory can pay for it.
fn put(random: &mut Random, card: &mut Card, df: usize, file: Record) -> Option<usize> {
    let free: Vec<_> = (0..card.records.len()).filter(|&s| !card.record(s).is_used()).collect();
    let slot = *random.choose(&free)?;
    let pays = card.room(df) >= file.charge();
    let rule = rules::mostly_open(random, card.edition);
    let level = card.record(df).level + 1;
    let placed = Record { parent: df as u16, level, form: rule.form, rule: rule.bytes, ..file };
    pays.then(|| {
        card.put(slot, placed);
        slot
    })
}

/// What a directory can still pay for a body or a total.
fn most(card: &Card, df: usize) -> u32 {
    u32::try_from(card.room(df)).unwrap_or(0).saturating_sub(FILE)
}

/// A directory of about two thirds of the room; not of the identifier that
/// others refer to, as that could not stand in it.
fn add_directory(random: &mut Random, card: &mut Card, df: usize, other: u16) -> Option<usize> {
    let identifier = free_identifier(random, card, df);
    let total = most(card, df) / 3 * 2;
    if identifier == other || total == 0 {
        return None;
    }
    let life_cycle = life_cycles::of_a_record(random, 5);
    let file = Record { identifier, ..a_directory(life_cycle, total) };
    put(random, card, df, file)
}

fn a_directory(life_cycle: u8, total: u32) -> Record {
    Record { kind: Kind::Df, descriptor: 0x78, life_cycle, size: total, ..Record::FREE }
}

/// The file to which others refer, or one of another sort in its place.
fn add_named(random: &mut Random, card: &mut Card, df: usize, identifier: u16) -> Option<usize> {
    if taken_identifiers(card, df).contains(&identifier) {
        return None;
    }
    let sorts = if df == 0 { IN_THE_ROOT } else { BELOW };
    let sort = random.weighted(&sorts).unwrap_or(Sort::LinearFixed);
    let most = most(card, df);
    let life_cycle = life_cycles::of_a_record(random, 20);
    let length = random.pick(LENGTHS).min(most.max(1));
    let records = (most / length).clamp(1, 4);
    let size = length * random.range(1, records);
    let file = match sort {
        Sort::Directory => a_directory(life_cycle, random.range(1, 30)),
        Sort::Transparent => elementary(0x41, life_cycle, 0, size),
        Sort::Cyclic => elementary(random.pick([0x46, 0x0E]), life_cycle, length, size),
        Sort::LinearFixed => {
            elementary(random.pick([0x42, 0x42, 0x02, 0x0A]), life_cycle, length, size)
        }
    };
    put(random, card, df, Record { identifier, ..file })
}

fn elementary(descriptor: u8, life_cycle: u8, record_length: u32, size: u32) -> Record {
    let record_length = record_length as u16;
    Record { kind: Kind::Ef, descriptor, life_cycle, record_length, size, ..Record::FREE }
}

/// An EF that can mostly be read and written, to be ruled by another.
fn add_ruled(random: &mut Random, card: &mut Card, df: usize, other: u16) -> Option<usize> {
    let identifier = free_identifier(random, card, df);
    let (descriptor, length) = random.pick([(0x41, 0), (0x41, 0), (0x42, 4), (0x46, 4)]);
    let life_cycle = match random.chance(85) {
        true => life_cycles::of_an_activated_file(random),
        false => life_cycles::of_a_record(random, 20),
    };
    let file = elementary(descriptor, life_cycle, length, 8);
    (identifier != other).then_some(())?;
    put(random, card, df, Record { identifier, ..file })
}

/// Gives a file a reference, where the edition takes any: mostly to the
/// identifier, at times to itself, to a directory above, or to another file.
pub fn refer(random: &mut Random, card: &mut Card, slot: usize, identifier: u16) {
    let any = random.below(card.records.len());
    let identifier = match random.below(30) {
        0 => card.record(slot).identifier,
        1 => card.record(card.parent(slot)).identifier,
        2 => card.record(any).identifier,
        3 => random.number16(),
        _ => identifier,
    };
    let found = rule_file(card, slot, &identifier.to_be_bytes());
    let last = found.map_or(2, |found| records_of(card.record(found)));
    let number = match random.below(20) {
        0 => 0,
        1 => (last + 1).min(255),
        2 => 255,
        3..=8 => last,
        9..=14 => 1,
        _ => random.range(1, last),
    };
    let rule = Rule::referred(identifier, number as u8);
    if let (true, Some(file)) = (card.edition.takes(Form::Referred), card.records.get_mut(slot)) {
        (file.form, file.rule) = (rule.form, rule.bytes);
    }
}
