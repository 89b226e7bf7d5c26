//! A reader of expanded rules (02, Ticket 3) that can be made to get one thing
//! wrong, and cards that read their rules by it. A decision is one of three
//! (Ticket 6), here too.

use crate::impostor::{Came, Left, Object};
use cases::template::{create_command, template};
use compare::Told;
use model::deciding::rule_of;
use model::edition::{Edition, Version};
use model::rule::{Condition, Form, Group, Right};
use model::security::condition;
use model::soundness::sound_card;
use model::{compact, objects, Card, Decision, Record, State};

/// What is taken for a well-formed rule, and how it decides.
#[derive(Clone, Copy)]
pub struct Quirks {
    /// Most templates inside one another.
    pub deepest: usize,
    /// Fewest conditions in a template.
    pub fewest: usize,
    /// Fewest SC_DOs behind an AM_DO.
    pub fewest_of_a_row: usize,
    /// So many bytes more than the version allows may a rule have.
    pub more_bytes: usize,
    /// Whether an object may end behind the template that it is in.
    pub past_the_end: bool,
    /// Whether 90 and 97 may have a value.
    pub any_value: bool,
    /// Whether AM may have b8.
    pub b8: bool,
    /// Whether version 1 takes AB too.
    pub on_version_1: bool,
    /// Whether all of a row must hold.
    pub all_of_a_row: bool,
    /// Whether one of AF suffices.
    pub all_as_one: bool,
    /// Whether all of A0 must hold.
    pub one_as_all: bool,
    /// Whether 97 holds.
    pub never_holds: bool,
    /// Whether only the first group counts that names the right.
    pub first_group: bool,
}

/// Nothing wrong.
pub const RIGHT: Quirks = Quirks {
    deepest: 4,
    fewest: 2,
    fewest_of_a_row: 1,
    more_bytes: 0,
    past_the_end: false,
    any_value: false,
    b8: false,
    on_version_1: false,
    all_of_a_row: false,
    all_as_one: false,
    one_as_all: false,
    never_holds: false,
    first_group: false,
};

impl Quirks {
    /// Whether the rule is fit for a record.
    pub fn fits(&self, version: Version, rule: &[u8]) -> bool {
        let known = self.on_version_1 || version != Version::One;
        let longest = Edition::of(version).longest_rule() + self.more_bytes;
        known && (1..=longest).contains(&rule.len()) && self.groups(rule).is_some()
    }

    /// The groups of a rule.
    pub fn groups(&self, rule: &[u8]) -> Option<Vec<Group>> {
        let (mut at, mut groups) = (0, Vec::new());
        while at < rule.len() {
            let (0x80, 1, &[am]) = (*rule.get(at)?, *rule.get(at + 1)?, rule.get(at + 2..at + 3)?)
            else {
                return None;
            };
            at += 3;
            let mut conditions = Vec::new();
            while at < rule.len() && rule[at] != 0x80 {
                conditions.push(self.condition(rule, &mut at, rule.len(), self.deepest)?);
            }
            let good = conditions.len() >= self.fewest_of_a_row && (self.b8 || am < 0x80);
            good.then(|| groups.push(Group { rights: am & 0x7F, conditions }))?;
        }
        (!groups.is_empty()).then_some(groups)
    }

    /// The condition at a place, which is moved behind it.
    fn condition(&self, rule: &[u8], at: &mut usize, end: usize, deep: usize) -> Option<Condition> {
        let (tag, length) = (*rule.get(*at)?, usize::from(*rule.get(*at + 1)?));
        let (start, stop) = (*at + 2, *at + 2 + length);
        let limit = if self.past_the_end { rule.len() } else { end };
        let none = length == 0 || self.any_value;
        if length > 0x7F || stop > limit {
            return None;
        }
        *at = stop;
        match tag {
            0x90 if none => Some(Condition::Always),
            0x97 if none => Some(Condition::Never),
            0x9E if length == 1 => Some(Condition::Byte(rule[start])),
            0xA0 | 0xAF => {
                *at = start;
                let mut inside = Vec::new();
                while *at < stop {
                    inside.push(self.condition(rule, at, stop, deep.checked_sub(1)?)?);
                }
                let good = deep > 0 && inside.len() >= self.fewest;
                let made = if tag == 0xA0 { Condition::OneOf } else { Condition::AllOf };
                good.then(|| made(inside))
            }
            _ => None,
        }
    }

    /// What a condition decides.
    fn judge(&self, condition: &Condition, state: &State) -> Decision {
        let one = |inside: &[Condition]| one_of(inside.iter().map(|c| self.judge(c, state)));
        let all = |inside: &[Condition]| all_of(inside.iter().map(|c| self.judge(c, state)));
        match condition {
            Condition::Never if self.never_holds => Decision::Granted,
            Condition::Always | Condition::Never | Condition::Byte(_) => condition.decide(state),
            Condition::OneOf(inside) if self.one_as_all => all(inside),
            Condition::OneOf(inside) => one(inside),
            Condition::AllOf(inside) if self.all_as_one => one(inside),
            Condition::AllOf(inside) => all(inside),
        }
    }

    /// What the rule decides on a right.
    pub fn decides(&self, rule: &[u8], right: Right, state: &State) -> Decision {
        let groups = self.groups(rule).unwrap_or_default();
        let named = groups.iter().filter(|group| group.rights & right.bit() != 0);
        let counting = named.take(if self.first_group { 1 } else { usize::MAX });
        one_of(counting.map(|group| {
            let row = group.conditions.iter().map(|c| self.judge(c, state));
            if self.all_of_a_row {
                all_of(row)
            } else {
                one_of(row)
            }
        }))
    }
}

/// The objects of a CREATE whose lengths are all good.
pub fn objects_sent(command: &[u8]) -> Option<Vec<Object>> {
    let [0x00, 0xE0, 0x00, 0x00, _, 0x62, _, inside @ ..] = command else { return None };
    let sent = objects::all(inside)?;
    let sent: Vec<_> = sent.iter().map(|object| (object.tag, object.value.to_vec())).collect();
    (create_command(&template(&sent)) == command).then_some(sent)
}

/// A card that takes some rules too many for a new file.
pub fn lenient(came: &Came, left: &mut Left, told: Told, quirks: &Quirks) -> Told {
    let taken = || {
        let card = sound_card(came.image).filter(|_| told.word == 0x6A80)?;
        let mut sent = objects_sent(came.command)?;
        let rule = sent.iter_mut().find(|(tag, _)| *tag == 0xAB)?;
        let wrong = std::mem::replace(rule, (0x8C, cases::compact::open())).1;
        let slot = card.lowest_free_slot().filter(|_| quirks.fits(card.edition.version, &wrong))?;
        let mut given = came.given(&create_command(&template(&sent)));
        let record = given.image.get_mut(16 + 64 * slot..80 + 64 * slot)?;
        if given.told.word == 0x9000 {
            record[3] = 1;
            record[33] = wrong.len() as u8;
            record[34..].iter_mut().zip(wrong).for_each(|(place, byte)| *place = byte);
        }
        Some(given).filter(|given| given.told.word != 0x6A80)
    };
    taken().map_or(told, |given| left.replace(&given))
}

/// What opens if one of these does; nothing opens what is none.
fn one_of(all: impl Iterator<Item = Decision>) -> Decision {
    all.fold(Decision::Closed, |so_far, one| match (so_far, one) {
        (Decision::Granted, _) | (_, Decision::Granted) => Decision::Granted,
        (Decision::Lacking, _) | (_, Decision::Lacking) => Decision::Lacking,
        _ => Decision::Closed,
    })
}

/// What opens if each of these does.
fn all_of(all: impl Iterator<Item = Decision>) -> Decision {
    all.fold(Decision::Granted, |so_far, one| match (so_far, one) {
        (Decision::Closed, _) | (_, Decision::Closed) => Decision::Closed,
        (Decision::Lacking, _) | (_, Decision::Lacking) => Decision::Lacking,
        _ => Decision::Granted,
    })
}

/// An SC byte that decides so under a state.
fn byte_for(decision: Decision, state: &State) -> u8 {
    match decision {
        Decision::Granted => 0x00,
        Decision::Closed => 0xFF,
        Decision::Lacking => (0x10..=0x7F)
            .find(|&sc| condition(sc, state) == Decision::Lacking)
            .expect("a rule that lacks something names what this state has not"),
    }
}

/// A card on which the expanded rules decide by these quirks, wherever they stand.
pub fn deciding(came: &Came, left: &mut Left, told: Told, quirks: &Quirks) -> Told {
    decided_by(came, left, told, |card, slot| {
        let found = rule_of(card, came.pool, slot).ok();
        let rule = found.filter(|found| found.form == Form::Expanded)?.rule;
        Some(Right::ALL.map(|right| quirks.decides(rule, right, came.state)))
    })
}

/// A card on which the rules of files decide as this tells of their slots: on each
/// right in turn, or where it tells nothing as they do. Only slots are looked at
/// that a command can ask.
pub fn decided_by(
    came: &Came,
    left: &mut Left,
    told: Told,
    decides: impl Fn(&Card, usize) -> Option<[Decision; 7]>,
) -> Told {
    let Some(card) = sound_card(came.image).filter(|_| came.command.get(1) != Some(&0xA4)) else {
        return told;
    };
    let may_be_asked = |slot: &usize| {
        let current = [0, card.current_df, card.current_ef.unwrap_or(0)];
        current.contains(slot) || card.parent(*slot) == card.current_df
    };
    let slots = card.used_slots().filter(may_be_asked);
    let decided: Vec<_> = slots.filter_map(|slot| Some((slot, decides(&card, slot)?))).collect();
    let mut read = card.clone();
    for (slot, decisions) in &decided {
        let bytes = decisions.map(|decision| byte_for(decision, came.state));
        let (form, rule) = (Form::Compact, [&[0x7F][..], &bytes].concat());
        assert!(compact::groups(&rule).is_some());
        read.put(*slot, Record { form, rule, ..read.record(*slot).clone() });
    }
    let given = came.given_on(&read.encode(), came.command);
    let told = left.replace(&given);
    let Some(mut after) = Card::decode(&given.image) else { return told };
    for (slot, _) in decided {
        if after.record(slot).is_used() {
            let Record { form, rule, .. } = card.record(slot).clone();
            after.put(slot, Record { form, rule, ..after.record(slot).clone() });
        }
    }
    left.image.copy_from_slice(&after.encode());
    told
}
