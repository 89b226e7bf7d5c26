//! A judge of what a refusal lacks (02, Ticket 6) that can be made to get one
//! thing wrong, and cards that tell their number by it.

use crate::impostor::Came;
use compare::Told;
use model::deciding::rule_of;
use model::descriptor::Class;
use model::rule::{groups, Condition, Right};
use model::soundness::sound_card;
use model::{template, Card, Decision, State};

/// How decisions are made, and how several of them become one.
#[derive(Clone, Copy)]
pub struct Judge {
    /// A condition without others in it.
    pub leaf: fn(&Condition, &State) -> Decision,
    /// Those of an A0.
    pub one_of: fn(&[Decision]) -> Decision,
    /// Those of an AF.
    pub all_of: fn(&[Decision]) -> Decision,
    /// Those of a group.
    pub row: fn(&[Decision]) -> Decision,
    /// Those of the groups that name the right.
    pub groups: fn(&[Decision]) -> Decision,
    /// The child's rule and the directory's, for DELETE.
    pub deletion: fn(Decision, Decision) -> Decision,
}

/// Nothing wrong.
pub const RIGHT: Judge = Judge {
    leaf: |condition, state| condition.decide(state),
    one_of: most_open,
    all_of: |all| all.iter().copied().max().unwrap_or(Decision::Granted),
    row: most_open,
    groups: most_open,
    deletion: |own, by_directory| own.min(by_directory),
};

fn most_open(all: &[Decision]) -> Decision {
    all.iter().copied().min().unwrap_or(Decision::Closed)
}

impl Judge {
    fn condition(&self, condition: &Condition, state: &State) -> Decision {
        let each = |inside: &[Condition]| -> Vec<Decision> {
            inside.iter().map(|one| self.condition(one, state)).collect()
        };
        match condition {
            Condition::OneOf(inside) => (self.one_of)(&each(inside)),
            Condition::AllOf(inside) => (self.all_of)(&each(inside)),
            leaf => (self.leaf)(leaf, state),
        }
    }

    /// What the rule decides on a right that decides on a file, wherever it stands.
    fn rule(&self, card: &Card, slot: usize, right: Right, came: &Came) -> Decision {
        let Ok(deciding) = rule_of(card, came.pool, slot) else { return Decision::Closed };
        let state = came.state;
        let groups = groups(deciding.form, deciding.rule).unwrap_or_default();
        let named = groups.iter().filter(|group| group.rights & right.bit() != 0);
        let decided = named.map(|group| {
            let row = group.conditions.iter().map(|one| self.condition(one, state));
            (self.row)(&row.collect::<Vec<_>>())
        });
        (self.groups)(&decided.collect::<Vec<_>>())
    }

    /// What the rules decide that the command asks.
    pub fn command(&self, came: &Came) -> Option<Decision> {
        let (card, asked) = asked(came)?;
        let decided = asked.iter().map(|(slot, right)| self.rule(&card, *slot, *right, came));
        decided.reduce(self.deletion)
    }
}

/// The card and the slots whose rules a command asks, with the right, on a sound
/// image: for DELETE the child before the directory. Only the instruction is looked
/// at and what names the rule; an earlier step may refuse the command.
pub fn asked(came: &Came) -> Option<(Card, Vec<(usize, Right)>)> {
    let card = sound_card(came.image)?;
    let (df, ef) = (card.current_df, card.current_ef);
    let asks = match came.command {
        [_, 0x44, ..] => vec![(ef.unwrap_or(df), Right::Activate)],
        [_, 0x04, ..] => vec![(ef.unwrap_or(df), Right::Deactivate)],
        [_, 0xE8, ..] => vec![(ef?, Right::Terminate)],
        [_, 0xE6, ..] => vec![(df, Right::Terminate)],
        [_, 0xFE, ..] => vec![(0, Right::Terminate)],
        [_, 0xB0 | 0xB2, ..] => vec![(ef?, Right::READ)],
        [_, 0xD6 | 0xDC, ..] => vec![(ef?, Right::UPDATE)],
        [_, 0xE0, _, _, _, data @ ..] => match template::read(data, card.edition)?.class {
            Class::Df => vec![(df, Right::CreateDf)],
            _ => vec![(df, Right::CreateEf)],
        },
        [_, 0xE4, _, _, _, high, low, ..] => {
            let identifier = u16::from_be_bytes([*high, *low]);
            let named = |slot: &usize| card.record(*slot).identifier == identifier;
            vec![(card.children(df).find(named)?, Right::DeleteSelf), (df, Right::DeleteChild)]
        }
        _ => return None,
    };
    Some((card, asks))
}

/// The same with another number for security.
pub fn numbered(told: Told, security: u32) -> Told {
    let [data, _, later] = told.numbers;
    Told { numbers: [data, security, later], ..told }
}

/// A card that tells the number of each security refusal by this judge.
pub fn telling(came: &Came, told: Told, judge: &Judge) -> Told {
    let decided = judge.command(came).filter(|_| told.word == 0x6982);
    decided.map_or(told, |decision| numbered(told, decision.number().into()))
}
