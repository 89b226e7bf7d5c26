//! What a history is about: each theme mixes the actions in its own way.

use crate::actions::Action;
use crate::random::Random;

/// The subject of a history.
#[derive(Clone, Copy, PartialEq, Eq, Debug)]
pub enum Theme {
    /// A little of everything.
    Mixed,
    /// Sizes at the exact room, one above, and near FFFFFFFF.
    Sizes,
    /// One identifier deleted and created again.
    Recreated,
    /// Directories in directories.
    Deep,
    /// Names, taken and free.
    Names,
    /// Rules with many groups under all sorts of states.
    Rules,
    /// Rights that some states open, under such and under others that lack
    /// something.
    Locked,
    /// All life cycles.
    LifeCycles,
    /// Terminated trees and what still works in them.
    Terminated,
    /// Bodies read and written, deleted, and made in gaps.
    Bodies,
}

impl Theme {
    /// The themes of any history; those of locked files are a kind of cases by
    /// themselves.
    pub const ALL: [Theme; 9] = [
        Theme::Mixed,
        Theme::Sizes,
        Theme::Recreated,
        Theme::Deep,
        Theme::Names,
        Theme::Rules,
        Theme::LifeCycles,
        Theme::Terminated,
        Theme::Bodies,
    ];

    /// The next action: mostly of the theme, else any.
    pub fn action(self, random: &mut Random) -> Action {
        if random.chance(20) {
            return Action::any(random);
        }
        let own = random.weighted(self.weights());
        own.unwrap_or_else(|| Action::any(random))
    }

    /// The theme's own actions and their weights.
    fn weights(self) -> &'static [(Action, usize)] {
        match self {
            Theme::Mixed => &[],
            Theme::Sizes => &SIZES,
            Theme::Recreated => &RECREATED,
            Theme::Deep => &DEEP,
            Theme::Names => &NAMES,
            Theme::Rules => &RULES,
            Theme::Locked => &LOCKED,
            Theme::LifeCycles => &LIFE_CYCLES,
            Theme::Terminated => &TERMINATED,
            Theme::Bodies => &BODIES,
        }
    }
}

const SIZES: [(Action, usize); 7] = [
    (Action::CreateEf, 4),
    (Action::CreateDf, 3),
    (Action::CreateExact, 3),
    (Action::CreateOneAbove, 2),
    (Action::CreateHuge, 1),
    (Action::DeleteChild, 4),
    (Action::SelectUp, 2),
];

const RECREATED: [(Action, usize); 6] = [
    (Action::DeleteChild, 6),
    (Action::DeleteCurrentEf, 4),
    (Action::CreateLastDeleted, 8),
    (Action::CreateEf, 3),
    (Action::CreateDf, 1),
    (Action::SelectUp, 2),
];

const DEEP: [(Action, usize); 5] = [
    (Action::CreateDeep, 12),
    (Action::CreateEf, 1),
    (Action::SelectUp, 2),
    (Action::SelectBeside, 1),
    (Action::DeleteChild, 1),
];

const NAMES: [(Action, usize); 4] = [
    (Action::CreateNamed, 8),
    (Action::CreateTakenName, 2),
    (Action::SelectUp, 4),
    (Action::DeleteChild, 2),
];

const RULES: [(Action, usize); 6] = [
    (Action::CreateRuled, 6),
    (Action::DeleteChild, 3),
    (Action::SelectChild, 3),
    (Action::Activate, 2),
    (Action::Deactivate, 2),
    (Action::SelectUp, 2),
];

const LOCKED: [(Action, usize); 9] = [
    (Action::CreateLocked, 9),
    (Action::SelectChild, 4),
    (Action::SelectUp, 4),
    (Action::DeleteChild, 3),
    (Action::Activate, 3),
    (Action::Deactivate, 3),
    (Action::TerminateEf, 1),
    (Action::TerminateDf, 1),
    (Action::ReadOrUpdate, 5),
];

const LIFE_CYCLES: [(Action, usize); 7] = [
    (Action::CreateInState, 8),
    (Action::Activate, 4),
    (Action::Deactivate, 4),
    (Action::TerminateEf, 2),
    (Action::TerminateDf, 2),
    (Action::SelectChild, 4),
    (Action::SelectUp, 6),
];

const TERMINATED: [(Action, usize); 8] = [
    (Action::CreateDf, 4),
    (Action::CreateEf, 4),
    (Action::CreateInState, 8),
    (Action::TerminateEf, 3),
    (Action::TerminateDf, 3),
    (Action::SelectUp, 6),
    (Action::SelectChild, 3),
    (Action::DeleteChild, 2),
];

const BODIES: [(Action, usize); 9] = [
    (Action::CreateEf, 4),
    (Action::CreateLarge, 5),
    (Action::CreateByGaps, 8),
    (Action::CreateDf, 1),
    (Action::ReadOrUpdate, 12),
    (Action::DeleteChild, 7),
    (Action::SelectChild, 4),
    (Action::SelectUp, 2),
    (Action::Activate, 1),
];
