//! Every near-miss of a rule kept in a file (02, Ticket 7), not at random: each
//! byte of the record, of the reference, and of a CREATE's 8B, with every other
//! value.

use model::deciding::{deciding, Place};
use model::edition::{Edition, Version};
use model::State;

use crate::case::{Case, History, Lent, Step};
use crate::near::RESPONSE;
use crate::rules::{self, Rule};
use crate::template::FileData;

/// Bytes of a record of the rule file, and the number of the one that rules.
pub const LENGTH: usize = 34;
const NUMBER: u8 = 2;
const RULES: u16 = 0x2F06;
const RULED: u16 = 0x6F07;
/// The slot of the ruled file, which is current.
pub const RULED_FILE: usize = 2;

/// READ always, by conditions in three templates; the last byte is an SC byte
/// like the padding.
pub const RULE: [u8; 29] = [
    0x80, 0x01, 0x01, 0x97, 0x00, 0xAF, 0x10, 0xA0, 0x05, 0x9E, 0x01, 0x11, 0x90, 0x00, 0xA0, 0x07,
    0x97, 0x00, 0x9E, 0x01, 0x00, 0x97, 0x00, 0x80, 0x01, 0x02, 0x9E, 0x01, 0xFF,
];

/// READ of the ruled file, which its rule must grant.
pub const READ: [u8; 5] = [0x00, 0xB0, 0x00, 0x00, 0x04];

/// 3F00 { 2F06 of two records, 6F07 of 9 bytes ruled by the second }, the last
/// current.
pub fn card() -> Lent {
    let mut rule_file = FileData::plain(0x42, RULES, 2 * LENGTH as u32);
    rule_file.record_length = Some(LENGTH as u16);
    let ruled = FileData { rule: Rule::referred(RULES, NUMBER), ..FileData::plain(0x41, RULED, 9) };
    let mut record = RULE.to_vec();
    record.resize(LENGTH, 0xFF);
    let update = [vec![0x00, 0xDC, NUMBER, 0x04, LENGTH as u8], record].concat();
    let history = History {
        edition: Edition::of(Version::Three),
        slots: 6,
        total: 320,
        rule: rules::open(),
        pool: (0..320).map(|at| at as u8).collect(),
        steps: [rule_file.command(), update, ruled.command()].map(step).into(),
    };
    let mut lent = history.fresh();
    history.play(|_, _, _, after| lent = after.clone());
    lent
}

fn step(command: Vec<u8>) -> Step {
    Step { command, response: Vec::new(), state: State::FULL }
}

/// The card with each byte of these in the pool or the image replaced by every
/// other; each as a READ and as a question where the rule stands.
fn replaced(in_pool: bool, places: std::ops::Range<usize>) -> impl Iterator<Item = Case> {
    let lent = card();
    let all = places.flat_map(|place| (0..=255).map(move |byte| (place, byte)));
    all.flat_map(move |(place, byte)| {
        let Lent { mut image, mut pool } = lent.clone();
        let bytes = if in_pool { &mut pool } else { &mut image };
        let other = bytes.get(place) != Some(&byte);
        bytes.iter_mut().skip(place).take(1).for_each(|old| *old = byte);
        let slot = RULED_FILE;
        let asked = Case::Deciding { image: image.clone(), pool: pool.clone(), slot };
        let read = on(Lent { image, pool }, READ.to_vec());
        [asked, read].into_iter().filter(move |_| other)
    })
}

fn on(Lent { image, pool }: Lent, command: Vec<u8>) -> Case {
    Case::OneCommand { image, pool, command, response: RESPONSE.to_vec(), state: State::FULL }
}

/// Where the record that rules lies in the pool.
pub fn record() -> std::ops::Range<usize> {
    let Lent { image, pool } = card();
    match deciding(&image, &pool, RULED_FILE) {
        Place::InPool { from, .. } => from..from + LENGTH,
        _ => 0..0,
    }
}

/// Where the reference lies in the image: form, and length with its bytes.
pub fn reference() -> [std::ops::Range<usize>; 2] {
    let record = 16 + 64 * RULED_FILE;
    [record + 3..record + 4, record + 33..record + 37]
}

/// A CREATE with 8B with each byte of the object replaced by every other.
pub fn creations() -> Vec<Vec<u8>> {
    let rule = Rule::referred(RULES, NUMBER);
    let (tag, value) = rule.object();
    let good = FileData { rule, ..FileData::plain(0x41, 0x6F08, 9) }.command();
    let head = [tag, value.len() as u8];
    let start = good.windows(2).position(|two| two == head).unwrap_or(0);
    let places = start..start + head.len() + value.len();
    let all = places.flat_map(|place| (0..=255).map(move |byte| (place, byte)));
    let others = all.filter(|&(place, byte)| good.get(place) != Some(&byte));
    let replaced = others.map(|(place, byte)| {
        let mut command = good.clone();
        command.iter_mut().skip(place).take(1).for_each(|old| *old = byte);
        command
    });
    replaced.collect()
}

/// All of them as cases.
pub fn every() -> impl Iterator<Item = Case> {
    let in_image = reference().into_iter().flat_map(|places| replaced(false, places));
    let created = creations().into_iter().map(|command| on(card(), command));
    replaced(true, record()).chain(in_image).chain(created)
}
