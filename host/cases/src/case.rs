//! The cases that are made, and their lines in the format of the vectors.

use model::edition::{Edition, Version};
use model::lines::Case as Line;
use model::{command, Outcome, State};

use crate::again::{by_model, Again};
use crate::editions;
use crate::rules::{self, Rule};
use crate::template::create_command;

/// One command of a history with the lent response buffer and the caller's
/// state.
#[derive(Clone, PartialEq, Eq, Debug)]
pub struct Step {
    /// The command.
    pub command: Vec<u8>,
    /// The response buffer.
    pub response: Vec<u8>,
    /// The state given with it.
    pub state: State,
}

/// What is lent with a command to be changed by it.
#[derive(Clone, PartialEq, Eq, Debug)]
pub struct Lent {
    /// The image.
    pub image: Vec<u8>,
    /// The pool.
    pub pool: Vec<u8>,
}

/// A fresh card and the commands it is given, one after the other.
#[derive(Clone, PartialEq, Eq, Debug)]
pub struct History {
    /// Version and variant of the card.
    pub edition: Edition,
    /// Slots of the card.
    pub slots: usize,
    /// The root's total.
    pub total: u32,
    /// The root's rule, fit for a record of the edition.
    pub rule: Rule,
    /// The pool as it is before the first command, of a right length.
    pub pool: Vec<u8>,
    /// The commands.
    pub steps: Vec<Step>,
}

impl History {
    /// The maker's call.
    pub fn make(&self) -> Line {
        Line::Make {
            buffer: vec![0; 16 + 64 * self.slots],
            version: u32::from(self.edition.version_number()),
            total: self.total,
            form: self.rule.form_number(),
            rule: self.rule.bytes.clone(),
        }
    }

    /// The fresh card by the model. Every generated history asks for one
    /// that the maker grants.
    pub fn fresh_image(&self) -> Vec<u8> {
        by_model(&self.make()).image
    }

    /// The fresh card with its pool.
    pub fn fresh(&self) -> Lent {
        Lent { image: self.fresh_image(), pool: self.pool.clone() }
    }

    /// Runs the history by the model; `see` gets, for each step, image and pool
    /// before, the step, the outcome, image and pool after.
    pub fn play(&self, mut see: impl FnMut(&Lent, &Step, Outcome, &Lent)) {
        let mut lent = self.fresh();
        for step in &self.steps {
            let before = lent.clone();
            let mut response = step.response.clone();
            let Lent { image, pool } = &mut lent;
            let outcome = command(image, pool, &step.command, &mut response, &step.state);
            see(&before, step, outcome, &lent);
        }
    }
}

/// A case of any kind.
#[derive(Clone, PartialEq, Eq, Debug)]
pub enum Case {
    /// A fresh card and many commands.
    History(History),
    /// One command on an image.
    OneCommand {
        /// The image.
        image: Vec<u8>,
        /// The pool.
        pool: Vec<u8>,
        /// The command.
        command: Vec<u8>,
        /// The lent response buffer.
        response: Vec<u8>,
        /// The state given with it.
        state: State,
    },
    /// A report.
    Report {
        /// The image.
        image: Vec<u8>,
    },
    /// A call of the maker.
    Make {
        /// The lent buffer.
        buffer: Vec<u8>,
        /// The number of the image version, known or not.
        version: u32,
        /// The total.
        total: u32,
        /// The number of the rule's form, known or not.
        form: u32,
        /// The root's rule.
        rule: Vec<u8>,
    },
    /// A run of replay.
    Replay {
        /// Standard input.
        input: Vec<u8>,
    },
    /// CREATE's data, good or broken, at most 255 bytes. The line shows it on
    /// a fresh card with much room.
    Template {
        /// Version and variant of the card.
        edition: Edition,
        /// What follows Lc.
        data: Vec<u8>,
    },
    /// A rule of any length under a state.
    Rule {
        /// The rule, with its form.
        rule: Rule,
        /// The state.
        state: State,
    },
    /// Files made again on another card by their templates.
    Again(Again),
    /// Which rule decides on a file.
    Deciding {
        /// The image.
        image: Vec<u8>,
        /// The pool.
        pool: Vec<u8>,
        /// The file's slot.
        slot: usize,
    },
}

/// The card on which the line of a template is run.
pub const TEMPLATE_CARD: (usize, u32) = (24, 64 * 23);

/// The response buffer that is lent there, and that CREATE leaves.
const TEMPLATE_BUFFER: [u8; 4] = [0x5A; 4];
/// What the pool holds there before.
const TEMPLATE_POOL: u8 = 0xC3;

impl Case {
    /// The case as lines of the vectors: a history is the maker's line and
    /// one line for each command on the image that the model has by then.
    pub fn lines(&self) -> Vec<Line> {
        match self {
            Case::History(history) => history_lines(history),
            Case::OneCommand { image, pool, command, response, state } => {
                vec![Line::command(image, pool, command, response, *state)]
            }
            Case::Report { image } => vec![Line::Report { image: image.clone() }],
            Case::Make { buffer, version, total, form, rule } => vec![Line::Make {
                buffer: buffer.clone(),
                version: *version,
                total: *total,
                form: *form,
                rule: rule.clone(),
            }],
            Case::Replay { input } => vec![Line::Replay { input: input.clone() }],
            Case::Template { edition, data } => vec![template_line(*edition, data)],
            Case::Rule { rule, state } => rule_lines(rule, *state),
            Case::Again(again) => again.lines(),
            Case::Deciding { image, pool, slot } => {
                vec![Line::Deciding { image: image.clone(), pool: pool.clone(), slot: *slot }]
            }
        }
    }
}

fn history_lines(history: &History) -> Vec<Line> {
    let mut lines = vec![history.make()];
    history.play(|before, step, _, _| {
        let Lent { image, pool } = before;
        lines.push(Line::command(image, pool, &step.command, &step.response, step.state));
    });
    lines
}

fn template_line(edition: Edition, data: &[u8]) -> Line {
    let (slots, total) = TEMPLATE_CARD;
    let pool = if edition.has_bodies() { vec![TEMPLATE_POOL; total as usize] } else { Vec::new() };
    let card = History { edition, slots, total, rule: rules::open(), pool, steps: Vec::new() };
    let Lent { image, pool } = card.fresh();
    Line::command(&image, &pool, &create_command(data), &TEMPLATE_BUFFER, State::FULL)
}

/// Whether the rule is fit for a record of each version, and what it decides.
fn rule_lines(rule: &Rule, state: State) -> Vec<Line> {
    let form = rule.form_number();
    let fit = |version: Version| {
        let version = u32::from(version.number());
        Line::Fit { version, form, rule: rule.bytes.clone() }
    };
    let mut lines: Vec<_> = editions::all().into_iter().map(fit).collect();
    let state = State { channels: 0, ..state };
    lines.push(Line::Decide { form, rule: rule.bytes.clone(), state });
    lines
}
