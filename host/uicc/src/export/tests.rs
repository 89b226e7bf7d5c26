//! Cards with references at random: what the script does not make again is told,
//! thing by thing, and nothing else is.

use std::collections::BTreeMap;

use card::State;
use model::rule::Form;
use model::{bodies, Card as Decoded, Record};

use super::*;
use crate::hex;
use crate::rule::tests::random::Noise;
use crate::standing::tests::referring;

/// Each file by the identifiers down to it, with its record but for where it
/// stands, and what it holds.
type Tree = BTreeMap<Vec<u16>, (Record, Vec<u8>)>;

fn tree(card: &Card) -> Tree {
    let decoded = Decoded::decode(card.image()).expect("a card");
    let file = |slot: usize| {
        let mut path: Vec<_> = decoded.above(slot).into_iter().rev().collect();
        path.push(slot);
        let path = path.into_iter().map(|slot| decoded.record(slot).identifier).collect();
        let record = decoded.record(slot);
        let body = bodies::has_body(&decoded, record).then(|| bodies::body(record));
        let body = body.map_or_else(Vec::new, |body| card.pool()[body].to_vec());
        (path, (Record { parent: 0, level: 0, start: 0, ..record.clone() }, body))
    };
    decoded.used_slots().map(file).collect()
}

/// The card that the script makes on the fresh card that it asks for. No command
/// of it is refused.
fn made(card: &Card, script: &str) -> Card {
    let fresh = Source::new(card).expect("a card").fresh();
    let made = Card::make(fresh.slots, fresh.kind, fresh.total, fresh.rule.rule());
    let mut made = made.expect("a card");
    for line in script.lines().filter(|line| !line.starts_with('#')) {
        let command = hex::bytes(line).unwrap_or_else(|_| panic!("hex: {line}"));
        if command.is_empty() {
            continue;
        }
        let reply = made.command(&command, &State::FULL).expect("a sound card");
        assert!(reply.word.is_success(), "{line}: {}\n{script}", reply.word);
    }
    made
}

/// What differs: files that are missing where their directory is not, life
/// cycles, and what files hold. Anything else may not.
fn differences(old: &Tree, new: &Tree) -> usize {
    assert!(new.keys().all(|path| old.contains_key(path)), "files that were not there");
    let mut many = 0;
    for (path, (record, body)) in old {
        let Some((now, held)) = new.get(path) else {
            many += usize::from(new.contains_key(&path[..path.len() - 1]));
            continue;
        };
        let life_cycle = now.life_cycle;
        assert_eq!(Record { life_cycle, ..record.clone() }, *now, "{path:04X?}");
        many += usize::from(record.life_cycle != life_cycle);
        many += usize::from(body != held);
    }
    many
}

/// A card on which commands may have worked: most files that can keep rules may
/// be updated by anybody, most others hold nothing, and some files are no longer
/// activated.
fn worked_on(noise: &mut Noise) -> Option<Card> {
    let (mut card, mut pool) = referring(noise)?;
    for slot in 1..card.records.len() {
        let mut record = card.record(slot).clone();
        if record.is_ef() && record.descriptor == 0x42 && noise.below(8) > 0 {
            (record.form, record.rule) = (Form::Compact, card::Rule::OPEN.bytes.to_vec());
        } else if record.is_ef() && noise.below(8) > 0 {
            pool[bodies::body(&record)].fill(0xFF);
        }
        if record.is_used() && noise.below(8) == 0 {
            record.life_cycle = [0x04, 0x0C, 0x07, 0x06, 0x01][noise.below(5) as usize];
        }
        card.put(slot, record);
    }
    Card::from_parts(card.encode(), pool).ok()
}

#[test]
fn what_is_not_made_again_is_told() {
    let mut noise = Noise::new(9);
    let (mut whole, mut opened, mut part) = (0, 0, 0);
    for number in 0..6000 {
        let Some(card) = worked_on(&mut noise) else { continue };
        let Export { script, lost } = export(&card).expect("a card");
        let new = made(&card, &script);
        assert_eq!(differences(&tree(&card), &tree(&new)), lost.len(), "{number}: {script}");
        let told: Vec<_> =
            script.lines().filter_map(|line| line.strip_prefix("# LOST: ")).collect();
        assert_eq!(told, lost);
        opened += usize::from(script.contains("# Records that keep rules allow everything"));
        match lost.len() {
            0 => whole += 1,
            _ => part += 1,
        }
    }
    assert!(whole > 100 && opened > 100 && part > 100, "{whole} {opened} {part}");
}
