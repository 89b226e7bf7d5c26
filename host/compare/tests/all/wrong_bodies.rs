//! Cards that READ and UPDATE wrongly (02, Ticket 4) are found, and told in a
//! small form.

use crate::impostor::{found_small_in, word, Came, Left, Spoil};
use cases::Kind;
use compare::Told;
use model::bodies::body;
use model::deciding::decide;
use model::rule::{Form, Right};
use model::soundness::sound_card;
use model::{Card, Record};

/// A READ or UPDATE on a file: INS, P1 and P2 as a number, how many bytes.
struct Asked {
    card: Card,
    ef: usize,
    binary: bool,
    update: bool,
    parameters: usize,
    length: usize,
}

/// What is asked for, where an EF is current and steps A to G hold.
fn asked(came: &Came) -> Option<Asked> {
    let &[0, ins, p1, p2, length, ref data @ ..] = came.command else { return None };
    let card = sound_card(came.image).filter(|card| card.edition.has_bodies())?;
    let (binary, update) = (matches!(ins, 0xB0 | 0xD6), matches!(ins, 0xD6 | 0xDC));
    let fits = if update { data.len() == length.into() && length > 0 } else { data.is_empty() };
    let good = matches!(ins, 0xB0 | 0xB2 | 0xD6 | 0xDC) && fits && (p2 == 4 || binary);
    let length = if length == 0 { 256 } else { length.into() };
    let parameters = usize::from(u16::from_be_bytes([p1, p2]));
    let ef = card.current_ef.filter(|_| good && (!binary || p1 < 0x80))?;
    Some(Asked { card, ef, binary, update, parameters, length })
}

impl Asked {
    fn file(&self) -> &Record {
        self.card.record(self.ef)
    }

    /// The record number.
    fn number(&self) -> usize {
        self.parameters / 256
    }
}

/// What the right card gives where something is changed on the card; the image
/// stays as it is.
fn on_another(came: &Came, left: &mut Left, change: impl Fn(&mut Card, usize)) -> Option<Told> {
    let asked = asked(came)?;
    let mut card = asked.card;
    change(&mut card, asked.ef);
    let told = left.replace(&came.given_on(&card.encode(), came.command));
    left.image.copy_from_slice(came.image);
    Some(told)
}

/// The same where the right card gave this word.
fn instead(came: &Came, left: &mut Left, told: Told, of: u16, change: fn(&mut Record)) -> Told {
    let changed = |card: &mut Card, ef| {
        let mut file = card.record(ef).clone();
        change(&mut file);
        card.put(ef, file);
    };
    let other = (told.word == of).then(|| on_another(came, left, changed)).flatten();
    other.unwrap_or(told)
}

/// Another word for a refusal of a READ or UPDATE.
fn reworded(came: &Came, told: Told, from: u16, to: u16, when: fn(&Asked) -> bool) -> Told {
    match asked(came).filter(|asked| told.word == from && when(asked)) {
        Some(_) => word(to),
        None => told,
    }
}

/// A refusal of what is good.
fn refused(came: &Came, left: &mut Left, told: Told, to: u16, when: fn(&Asked) -> bool) -> Told {
    match asked(came).filter(|asked| told.word == 0x9000 && when(asked)) {
        Some(_) => {
            left.restore(came);
            word(to)
        }
        None => told,
    }
}

/// The command with another P1 and another byte behind P2.
fn respelled(came: &Came, left: &mut Left, p1: u8, length: u8) -> Told {
    let mut command = came.command.to_vec();
    (command[2], command[4]) = (p1, length);
    left.replace(&came.given(&command))
}

/// Cards that READ and UPDATE wrongly.
const BODIES: [(&str, Spoil); 17] = [
    ("the last record is refused", |came, left, told| {
        let last = |asked: &Asked| {
            let records = asked.file().size / u32::from(asked.file().record_length.max(1));
            !asked.binary && asked.number() == records as usize
        };
        refused(came, left, told, 0x6A83, last)
    }),
    ("record 0 is record 1", |came, left, told| match asked(came) {
        Some(asked) if told.word == 0x6A83 && asked.number() == 0 => {
            respelled(came, left, 1, came.command[4])
        }
        _ => told,
    }),
    ("the start may be the end", |came, _, told| {
        let at_end = |asked: &Asked| asked.parameters == asked.file().size as usize;
        reworded(came, told, 0x6B00, 0x6700, at_end)
    }),
    ("a deactivated file is updated", |came, left, told| match came.command {
        [_, 0xD6 | 0xDC, ..] => instead(came, left, told, 0x6985, |file| {
            file.life_cycle |= u8::from(matches!(file.life_cycle, 4 | 6));
        }),
        _ => told,
    }),
    ("a file that is being made is read", |came, left, told| {
        instead(came, left, told, 0x6985, |file| {
            file.life_cycle = if file.life_cycle < 4 { 5 } else { file.life_cycle };
        })
    }),
    ("07 is not activated", |came, left, told| {
        refused(came, left, told, 0x6985, |asked| asked.file().life_cycle == 7)
    }),
    ("a directory above may be terminated", |came, left, told| {
        if told.word != 0x6985 {
            return told;
        }
        let revive = |card: &mut Card, ef: usize| {
            card.above(ef).into_iter().for_each(|df| card.set_life_cycle(df, 5));
        };
        on_another(came, left, revive).unwrap_or(told)
    }),
    ("b1 and b2 are swapped", |came, left, told| {
        let swap = |card: &mut Card, ef| {
            let mut file = card.record(ef).clone();
            let granted = |right| decide(card, came.pool, ef, right, came.state).is_granted();
            let byte = |right| if granted(right) { 0x00 } else { 0xFF };
            let rule = [0x03, byte(Right::READ), byte(Right::UPDATE)];
            (file.form, file.rule) = (Form::Compact, rule.to_vec());
            card.put(ef, file);
        };
        on_another(came, left, swap).unwrap_or(told)
    }),
    ("records are read as bytes", |came, left, told| match came.command {
        [_, 0xB0 | 0xD6, ..] => instead(came, left, told, 0x6981, |file| {
            (file.descriptor, file.record_length) = (0x41, 0);
        }),
        _ => told,
    }),
    ("bytes are read as one record", |came, left, told| match came.command {
        [_, 0xB2 | 0xDC, ..] => instead(came, left, told, 0x6981, |file| {
            if let length @ 1..=255 = file.size {
                (file.descriptor, file.record_length) = (0x42, length as u16);
            }
        }),
        _ => told,
    }),
    ("Le 00 gives what is there", |came, left, told| match (asked(came), came.command) {
        (Some(asked), [_, 0xB0, p1, _, 0]) if told.word == 0x6700 => {
            let there = asked.file().size as usize - asked.parameters;
            respelled(came, left, *p1, there as u8)
        }
        _ => told,
    }),
    ("Le 00 of a record is its length", |came, left, told| match (asked(came), came.command) {
        (Some(asked), [_, 0xB2, p1, _, 0]) if told.word == 0x6700 => {
            respelled(came, left, *p1, asked.file().record_length as u8)
        }
        _ => told,
    }),
    ("the start before the structure", |came, _, told| {
        let past = |asked: &Asked| asked.binary && asked.parameters >= asked.file().size as usize;
        reworded(came, told, 0x6981, 0x6B00, past)
    }),
    ("a record's length before its number", |came, _, told| {
        let other = |asked: &Asked| asked.length != usize::from(asked.file().record_length);
        reworded(came, told, 0x6A83, 0x6700, other)
    }),
    ("a READ may pass the body's end", |came, left, told| {
        let Some(asked) = asked(came).filter(|asked| told.word == 0x6700 && asked.binary) else {
            return told;
        };
        let start = body(asked.file()).start + asked.parameters;
        match (came.pool.get(start..start + asked.length), asked.update) {
            (Some(read), false) if read.len() <= left.response.len() => {
                left.response[..read.len()].copy_from_slice(read);
                Told { numbers: [read.len() as u32, 0, 0], ..word(0x9000) }
            }
            _ => told,
        }
    }),
    ("an UPDATE wants no other channel", |came, left, told| match came.state.channels & 0x0E {
        0 => told,
        _ => refused(came, left, told, 0x6985, |asked| asked.update),
    }),
    ("a cyclic file turns", |came, left, told| {
        let cyclic = |asked: &Asked| asked.update && asked.file().descriptor & 7 == 6;
        if let Some(asked) = asked(came).filter(|asked| told.word == 0x9000 && cyclic(asked)) {
            let turned = &mut left.pool[body(asked.file())];
            turned.rotate_right(asked.file().record_length.into());
        }
        told
    }),
];

#[test]
fn every_wrong_read_and_update_is_found() {
    for (title, command) in BODIES {
        found_small_in(title, command, Kind::Bodies, 8);
    }
}

/// Rights are asked of every rule, too.
#[test]
fn swapped_rights_are_found_by_rules() {
    let (title, command) = BODIES[7];
    assert!(title.starts_with("b1 and b2"), "{title}");
    found_small_in(title, command, Kind::Rule, 8);
}
