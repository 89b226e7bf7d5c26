//! Histories on fresh cards that mostly succeed. The model runs along, so
//! that each command fits the card as it is by then.

use model::edition::Edition;
use model::soundness::sound_card;
use model::{command, words, Card, State};

use crate::actions::{bare, command_for, delete, select_by, Action};
use crate::case::{History, Lent, Step};
use crate::images::slot_count;
use crate::random::Random;
use crate::rules::{self, Rule};
use crate::themes::Theme;
use crate::{decided, editions, pools, responses, states};

/// How often another action is tried where the card gives no occasion.
const TRIES: usize = 6;
/// How many commands it takes at most to leave a gap.
const STEPS_OF_A_GAP: usize = 4;

/// A history being written.
pub(crate) struct Writer {
    pub(crate) history: History,
    lent: Lent,
    /// The identifier last deleted, to be created again.
    deleted: Option<u16>,
}

impl Writer {
    /// A fresh card with a root of this total and this rule.
    pub(crate) fn new(
        random: &mut Random,
        edition: Edition,
        slots: usize,
        total: u32,
        rule: Rule,
    ) -> Writer {
        let pool = Vec::new();
        let mut history = History { edition, slots, total, rule, pool, steps: Vec::new() };
        history.pool = pools::right(random, &history.fresh_image());
        let lent = history.fresh();
        Writer { history, lent, deleted: None }
    }

    fn card(&self) -> Option<Card> {
        sound_card(&self.lent.image)
    }

    /// Appends a command and runs it.
    pub(crate) fn push(&mut self, random: &mut Random, bytes: Vec<u8>, state: State) {
        let Lent { image, pool } = &mut self.lent;
        let response = responses::lent(random, image, pool, &bytes);
        let outcome = command(image, pool, &bytes, &mut response.clone(), &state);
        let deletes = bytes.get(1) == Some(&0xE4) && outcome.word == words::SUCCESS;
        if let (true, Some(&[high, low])) = (deletes, bytes.last_chunk::<2>()) {
            self.deleted = Some(u16::from_be_bytes([high, low]));
        }
        self.history.steps.push(Step { command: bytes, response, state });
    }

    /// Runs the command of an action, if the card gives occasion for it; gives
    /// the identifier of the EF that is current then.
    fn act(&mut self, random: &mut Random, action: Action) -> Option<u16> {
        let command = command_for(action, random, &self.card()?, self.deleted)?;
        self.push(random, command, State::FULL);
        let card = self.card()?;
        Some(card.record(card.current_ef?).identifier)
    }

    /// A large file below a small one is deleted, so that the next may find no
    /// gap.
    fn leave_a_gap(&mut self, random: &mut Random) {
        let large = self.act(random, Action::CreateLarge);
        self.act(random, Action::CreateEf);
        if let Some(large) = large {
            self.push(random, delete(large), State::FULL);
        }
        self.act(random, Action::CreateByGaps);
    }

    /// One more step of the theme.
    fn step(&mut self, random: &mut Random, theme: Theme) {
        let card = self.card();
        let fitting = (0..TRIES).find_map(|_| {
            let action = theme.action(random);
            command_for(action, random, card.as_ref()?, self.deleted)
        });
        let state = match theme {
            Theme::Rules if random.chance(40) => states::any(random),
            Theme::Locked if random.chance(45) => decided::state(random),
            _ => states::mostly_full(random),
        };
        let bytes = fitting.unwrap_or_else(|| select_by(random, 0x3F00));
        self.push(random, bytes, state);
    }
}

/// A history of any theme.
pub fn history(random: &mut Random) -> History {
    let theme = if random.chance(15) { Theme::Bodies } else { random.pick(Theme::ALL) };
    history_with(random, theme)
}

/// A history of a theme on a card of any measures.
pub fn history_with(random: &mut Random, theme: Theme) -> History {
    let slots = slot_count(random);
    // Large cards make long lines, so they get few commands.
    let steps = if slots > 200 { 6 } else { random.range(5, 40) as usize };
    history_of(random, theme, slots, steps)
}

/// A history of a theme on a card of so many slots, of any edition.
pub fn history_of(random: &mut Random, theme: Theme, slots: usize, steps: usize) -> History {
    let edition = match theme {
        Theme::Bodies if random.chance(85) => editions::NEWEST,
        Theme::Locked if random.chance(50) => editions::NEWEST,
        _ => editions::any(random),
    };
    history_on(random, edition, theme, slots, steps)
}

/// The same on a card of this edition; one in eight ends with the termination
/// of the card and a few commands after it.
pub fn history_on(
    random: &mut Random,
    edition: Edition,
    theme: Theme,
    slots: usize,
    steps: usize,
) -> History {
    let slots = slots.max(2);
    let most = 64 * (slots as u32 - 1);
    let total = if random.chance(70) { most } else { random.range(1, most) };
    let rule = match theme {
        Theme::Rules => rules::well_formed(random, edition),
        Theme::Locked => decided::locked(random, edition),
        _ => rules::mostly_open(random, edition),
    };
    let mut writer = Writer::new(random, edition, slots, total, rule);
    while writer.history.steps.len() < steps {
        let left = steps - writer.history.steps.len();
        if theme == Theme::Bodies && left > STEPS_OF_A_GAP && random.chance(15) {
            writer.leave_a_gap(random);
        }
        writer.step(random, theme);
    }
    if random.chance(12) {
        writer.push(random, bare(0xFE), State::FULL);
        for _ in 0..3 {
            writer.step(random, Theme::Mixed);
        }
    }
    writer.history
}

/// A command that fits a card, of any action.
pub fn fitting_command(random: &mut Random, card: &Card) -> Vec<u8> {
    let found = (0..TRIES).find_map(|_| {
        let action = match random.below(40) {
            0 => Action::TerminateCard,
            1 => Action::TerminateEf,
            2 => Action::TerminateDf,
            _ => Action::any(random),
        };
        command_for(action, random, card, None)
    });
    found.unwrap_or_else(|| select_by(random, 0x3F00))
}
