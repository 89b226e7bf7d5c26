//! Cards of version 3 whose files' rules stand in one file (02, Ticket 7), each
//! beside the same card whose files have the same rules in their own records: what
//! a command takes longer is what looking for the rule costs.

use cases::worst::{self, df, MOST_SLOTS};
use cases::Lent;
use model::deciding::PADDING;
use model::rule::Form;
use model::{bodies, Card, Kind, Record};

use crate::bodied::{add, empty, FILE_COST};
use crate::shapes::Shape;
use crate::work::Task;

/// The rule file, its records: one that allows everything, and two that refuse
/// DEACTIVATE, as long as one in a file's own record may be.
const RULES: u16 = 0x2F06;
const RECORD_LENGTH: usize = 28;
const OPEN: [u8; 5] = [0x80, 0x01, 0x7F, 0x90, 0x00];
/// Groups that name DEACTIVATE and never hold.
const NEVER: [u8; 5] = [0x80, 0x01, 0x08, 0x97, 0x00];
/// One that holds with user authentication 1.
const USER_1: [u8; 6] = [0x80, 0x01, 0x08, 0x9E, 0x01, 0x11];
const GROUPS_BEFORE: usize = 4;
/// Records of the files that are ruled, one each.
pub const FILE_BYTES: u8 = 4;

/// Which record of the rule file rules.
#[derive(Clone, Copy, PartialEq, Eq, Debug)]
pub enum Ruling {
    Open,
    Lacking,
    Closed,
}

impl Ruling {
    const ALL: [Ruling; 3] = [Ruling::Open, Ruling::Lacking, Ruling::Closed];

    fn number(self) -> u8 {
        match self {
            Ruling::Open => 1,
            Ruling::Lacking => 2,
            Ruling::Closed => 3,
        }
    }

    fn rule(self) -> Vec<u8> {
        match self {
            Ruling::Open => OPEN.to_vec(),
            Ruling::Lacking => [&NEVER.repeat(GROUPS_BEFORE)[..], &USER_1].concat(),
            Ruling::Closed => NEVER.repeat(GROUPS_BEFORE + 1),
        }
    }

    /// Has a file ruled so: by its reference, or by the rule in its own record.
    pub fn rules(self, card: &mut Card, slot: usize) {
        let file = card.record(slot).clone();
        let rule = match file.form {
            Form::Referred => reference(self.number()),
            _ => self.rule(),
        };
        card.put(slot, Record { rule, ..file });
    }
}

fn reference(number: u8) -> Vec<u8> {
    let [high, low] = RULES.to_be_bytes();
    vec![high, low, number]
}

/// The cards of a size.
pub fn shapes(slots: usize) -> Vec<Shape> {
    let card = one_rule_file(slots);
    let pool = pool_of(&card);
    let (worst, longest) = worst::referred_of(slots);
    let shape = |title, tasks, image: Vec<u8>, pool: Vec<u8>| {
        let start = Lent { image, pool };
        let own = own_rules(&start);
        Shape { title, start, wanted: None, tasks, own }
    };
    // The last file of the second is the innermost directory, which is full.
    let (far, up) = ("version 3: a rule looked for through every directory", &Task::FAR_UP[..]);
    vec![
        shape("version 3: 900 files ruled by one file", &Task::REFERRED, card.encode(), pool),
        shape(far, up, worst.image, longest),
    ]
}

/// The same card whose files have open rules in their own records.
fn own_rules(start: &Lent) -> Option<Lent> {
    let mut card = Card::decode(&start.image)?;
    for file in card.records.iter_mut().filter(|file| file.form == Form::Referred) {
        (file.form, file.rule) = (Form::Expanded, OPEN.to_vec());
    }
    Some(Lent { image: card.encode(), pool: start.pool.clone() })
}

/// A linear fixed EF.
fn with_records(identifier: u16, length: usize, records: usize) -> Record {
    let size = (length * records) as u32;
    let record_length = length as u16;
    Record { kind: Kind::Ef, descriptor: 0x42, record_length, ..df(identifier, size) }
}

/// What a ruled file costs its directory, and the rule file the root.
const EACH: u32 = FILE_COST + FILE_BYTES as u32;
const RULES_COST: u32 = FILE_COST + (RECORD_LENGTH * Ruling::ALL.len()) as u32;

/// Of 1,023 slots 40 directories and in them, in turn, 860 EFs, all ruled by one
/// file in the root, which stands behind all but the last of them: there it is
/// found last. Of fewer slots as many in proportion, if there is room. The last
/// EF's directory has room for one more like it.
fn one_rule_file(slots: usize) -> Card {
    let share = |of_the_largest: usize| (of_the_largest * slots / MOST_SLOTS).max(1);
    let mut card = empty(slots);
    let directories = share(40);
    let left = card.record(0).size - RULES_COST - FILE_COST * directories as u32;
    let most = (left / EACH) as usize / directories;
    let files = share(860).min(most.saturating_sub(1) * directories);
    let ruled = |file: Record| Record { form: Form::Referred, rule: reference(1), ..file };
    let total = EACH * (files.div_ceil(directories) as u32 + 1);
    let parents: Vec<_> = (0..directories)
        .map(|number| add(&mut card, 0, ruled(df(0x7F00 + number as u16, total))))
        .collect();
    for number in 0..files {
        if number + 1 == files {
            add(&mut card, 0, with_records(RULES, RECORD_LENGTH, Ruling::ALL.len()));
        }
        let parent = parents.get(number % directories).copied().unwrap_or(0);
        let file = with_records(0x6000 + (number / directories) as u16, FILE_BYTES.into(), 1);
        add(&mut card, parent, ruled(file));
    }
    let mut start = 0;
    for slot in bodies::in_order(&card) {
        card.set_start(slot, start);
        start += card.record(slot).size as u16;
    }
    card
}

/// The pool: rules in the rule file, zeros elsewhere.
fn pool_of(card: &Card) -> Vec<u8> {
    let mut pool = vec![0; bodies::pool_length(card).unwrap_or(0)];
    let is_it = |slot: &usize| card.record(*slot).identifier == RULES;
    let place = card.used_slots().find(is_it).map(|slot| bodies::body(card.record(slot)));
    let rules = Ruling::ALL.map(|ruling| {
        let mut record = ruling.rule();
        record.resize(RECORD_LENGTH, PADDING);
        record
    });
    let body = place.and_then(|place| pool.get_mut(place));
    body.into_iter().for_each(|body| body.copy_from_slice(&rules.concat()));
    pool
}

#[cfg(test)]
mod tests {
    use super::*;
    use card::lent::rule_place;
    use card::Place;
    use model::Decision;

    #[test]
    fn nine_hundred_files_are_ruled_by_one() {
        let card = one_rule_file(MOST_SLOTS);
        let referred = card.records.iter().filter(|file| file.form == Form::Referred).count();
        assert_eq!((card.used_slots().count(), referred), (1 + 1 + 900, 900));
        assert_eq!(card.record(900).identifier, RULES);
        let last = card.used_slots().last().expect("files");
        assert_eq!(card.room(card.parent(last)), u64::from(EACH));
    }

    /// On each card of each size, every reference leads to a rule in the pool, and
    /// the other card has it in its own record.
    #[test]
    fn both_cards_are_sound_and_have_the_same_rules() {
        for slots in [16, 64, 128, 256, MOST_SLOTS] {
            for Shape { title, start, own, .. } in shapes(slots) {
                let own = own.expect("another card");
                assert!(model::sound(&start.image) && model::sound(&own.image), "{slots}: {title}");
                assert_eq!(start.pool, own.pool);
                let card = Card::decode(&start.image).expect("a card");
                let last = card.used_slots().last().expect("files");
                let place = rule_place(&start.image, &start.pool, last);
                assert!(matches!(place, Ok(Place::InPool { .. })), "{slots}: {title}");
                let place = rule_place(&own.image, &own.pool, last);
                assert!(matches!(place, Ok(Place::InImage { .. })), "{slots}: {title}");
            }
        }
    }

    #[test]
    fn rulings_decide_as_they_say() {
        for (ruling, decision) in [
            (Ruling::Open, Decision::Granted),
            (Ruling::Lacking, Decision::Lacking),
            (Ruling::Closed, Decision::Closed),
        ] {
            let rule = ruling.rule();
            assert!(rule.len() <= RECORD_LENGTH);
            let right = model::rule::Right::Deactivate;
            let decided = model::rule::decide(Form::Expanded, &rule, right, &model::State::EMPTY);
            assert_eq!(decided, decision, "{ruling:?}");
        }
    }
}
