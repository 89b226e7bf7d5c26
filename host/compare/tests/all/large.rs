//! Bodies on the largest cards (02, Ticket 4): starts from 8000 on, parts far from
//! the start, moves of nearly the whole pool, sums past FFFF. Generated cards are
//! mostly small.

use crate::say;
use cases::layouts::{lay_out, wrong_start, Layout};
use cases::worst::df;
use cases::{bodied, bodies as reads, pools, states, Random};
use compare::shrink::smallest;
use compare::{check_line, Outcome, Pair, Tally};
use model::bodies;
use model::edition::{Edition, Version};
use model::lines::Case as Line;
use model::{Card, Kind, Record};

const CARDS: u64 = 250;
const COMMANDS: usize = 6;
const SLOTS: usize = 1023;

/// A card with few EFs in its root, as large as can be, in any slots.
fn card(random: &mut Random) -> Card {
    let records = vec![Record::FREE; SLOTS];
    let edition = Edition::of(Version::Three);
    let mut card = Card { edition, current_df: 0, current_ef: None, records };
    card.put(0, df(0x3F00, 64 * (SLOTS as u32 - 1)));
    for number in 0..random.range(1, 5) as u16 {
        let Some(most) = card.room(0).checked_sub(65).map(|room| room as u32 + 1) else { break };
        let (record_length, size) = match random.below(8) {
            0 => (0, most),
            1 => (0, most.min(0x8000)),
            2 | 3 => (0, random.range(most / 2, most).max(1)),
            4 | 5 => (255, 255 * random.pick([254, 253, 200]).min(most / 255)),
            _ => (0, random.range(1, 300).min(most)),
        };
        let slot = random.pick([1, 2, 255, 256, 257, 1021, 1022]);
        if card.record(slot).is_used() || size == 0 {
            continue;
        }
        let descriptor = if record_length > 0 { random.pick([0x42, 0x46]) } else { 0x41 };
        let file = df(0x6F00 + number, size);
        let file = Record { kind: Kind::Ef, descriptor, level: 1, record_length, ..file };
        card.put(slot, file);
    }
    let layout = Layout::any(random);
    lay_out(random, &mut card, layout);
    let files = bodies::in_order(&card);
    card.current_ef = random.choose(&files).copied();
    card
}

/// What the commands reached, all with effect.
#[derive(Default, Debug)]
struct Reached {
    starts_from_8000: usize,
    parts_from_4000: usize,
    last_records: usize,
}

impl Reached {
    fn count(&mut self, card: &Card, command: &[u8]) {
        let (Some(ef), &[_, ins, p1, ..]) = (card.current_ef, command) else { return };
        let start = card.record(ef).start;
        match ins {
            0xB0 | 0xD6 => self.parts_from_4000 += usize::from(p1 >= 0x40),
            0xB2 | 0xDC => self.last_records += usize::from(p1 >= 253),
            _ => return,
        }
        self.starts_from_8000 += usize::from(start >= 0x8000);
    }
}

/// Both give the same.
fn same(line: &Line, tally: &mut Tally) -> Option<Outcome> {
    let found = check_line(Pair::PROVED, line, tally);
    found.unwrap_or_else(|found| panic!("{}", smallest(Pair::PROVED, found)))
}

#[test]
fn large_bodies_agree() {
    let (mut tally, mut reached) = (Tally::default(), Reached::default());
    for number in 0..CARDS {
        let mut random = Random::for_case(20_261_118, number);
        let card = card(&mut random);
        let image = card.encode();
        let pool = pools::right(&mut random, &image);
        for _ in 0..COMMANDS {
            let command = match random.chance(60) {
                true => reads::read_or_update(&mut random, &card),
                false => bodied::command(&mut random, &card),
            };
            let state = states::mostly_full(&mut random);
            let line = Line::command(&image, &pool, &command, &[0x5A; 256], state);
            if let Some(Outcome::Command { told, .. }) = same(&line, &mut tally) {
                (told.word == 0x9000).then(|| reached.count(&card, &command));
            }
        }
    }
    say(&format!("large bodies: {tally}: {reached:?}"));
    assert!(tally.reads > 100 && tally.updates > 100 && tally.packings > 10, "{tally}");
    let Reached { starts_from_8000, parts_from_4000, last_records } = reached;
    assert!(starts_from_8000 > 30 && parts_from_4000 > 30 && last_records > 10, "{reached:?}");
}

/// Starts that are wrong, among them such as make a sum of more than FFFF.
#[test]
fn large_wrong_starts_agree() {
    let (mut tally, mut past_ffff) = (Tally::default(), 0);
    for number in 0..CARDS {
        let mut random = Random::for_case(20_261_119, number);
        let mut card = card(&mut random);
        let (slot, start) = wrong_start(&mut random, &card);
        let start = if random.chance(30) { random.pick([0xFFFF, 0xFF81, 0xFF80]) } else { start };
        card.set_start(slot, start);
        past_ffff += usize::from(u32::from(start) + card.record(slot).size > 0xFFFF);
        same(&Line::Report { image: card.encode() }, &mut tally);
    }
    assert!(tally.reports == CARDS && past_ffff > 50, "{past_ffff}");
}
