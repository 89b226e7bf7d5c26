//! What can be refused apart from a command, and what to do about it.

use std::error::Error;
use std::fmt;

use crate::kind::{Form, Kind, Rule};
use crate::{image_length, FEWEST_SLOTS, LONGEST_RESPONSE, MOST_SLOTS};

/// Why the maker refused. The buffer is as it came.
#[derive(Clone, Copy, PartialEq, Eq, Debug)]
pub enum MakeError {
    /// Answer 2: the length of the buffer fits no number of slots.
    Length,
    /// Answer 2: there is no card of this version.
    Version(u16),
    /// Answer 3: the root's total is 0 or more than the slots allow.
    Total,
    /// Answer 4: a card of this version takes no rule of this form.
    Form(u16, Form),
    /// Answer 4: the root's rule is empty, or longer than so many bytes.
    RuleLength(usize),
    /// Answer 4: the root's rule, which is of this form, is malformed.
    Rule(Form),
    /// An answer that this version does not know.
    Unknown(u32),
}

impl MakeError {
    /// Why answer 2 was given.
    pub(crate) fn of_length_or_kind(length: usize, kind: Kind) -> MakeError {
        let fits = (FEWEST_SLOTS..=MOST_SLOTS).any(|slots| image_length(slots) == length);
        if fits {
            MakeError::Version(kind.version)
        } else {
            MakeError::Length
        }
    }

    /// Why answer 4 was given.
    pub(crate) fn of_rule(kind: Kind, rule: Rule) -> MakeError {
        match (kind.longest_rule(rule.form), rule.form) {
            (None, form) => MakeError::Form(kind.version, form),
            // Its length is all that can be wrong with it.
            (Some(_), Form::Referred) => MakeError::Rule(Form::Referred),
            (Some(longest), _) if !(1..=longest).contains(&rule.bytes.len()) => {
                MakeError::RuleLength(longest)
            }
            (Some(_), form) => MakeError::Rule(form),
        }
    }

    /// The library's number for it.
    pub fn answer(self) -> u32 {
        match self {
            MakeError::Length | MakeError::Version(_) => 2,
            MakeError::Total => 3,
            MakeError::Form(..) | MakeError::RuleLength(_) | MakeError::Rule(_) => 4,
            MakeError::Unknown(answer) => answer,
        }
    }
}

impl fmt::Display for MakeError {
    fn fmt(&self, f: &mut fmt::Formatter<'_>) -> fmt::Result {
        match self {
            MakeError::Length => f.write_str("a card has 2 to 1,023 slots, and this is no such"),
            MakeError::Version(version) => {
                write!(f, "there is no card of version {version}: choose 1, 2 or 3")
            }
            MakeError::Total => f.write_str(
                "the root's total does not fit the slots: choose from 1 up to 64 bytes for each \
                 slot but the root's",
            ),
            MakeError::Form(version, form) => write!(
                f,
                "a card of version {version} takes no rule of tag {:02X}: version 1 takes 8C, \
                 version 2 also AB, version 3 also 8B",
                form.tag()
            ),
            MakeError::RuleLength(longest) => {
                write!(f, "the root's access rule must have 1 to {longest} bytes on such a card")
            }
            MakeError::Rule(form) => {
                write!(f, "the root's access rule is malformed: give {}", well_formed(*form))
            }
            MakeError::Unknown(answer) => unknown(*answer, f),
        }
    }
}

impl Error for MakeError {}

/// What a rule of a form must be.
fn well_formed(form: Form) -> &'static str {
    match form {
        Form::Compact => {
            "groups of an AM byte below 80 and one SC byte for each of its bits \
             (7F00000000000000 allows all)"
        }
        Form::Expanded => {
            "groups of 80 01 AM, with AM below 80, and conditions: 90 00, 97 00, 9E 01 SC, A0 or \
             AF with a length and two conditions or more, four deep at most (80017F9000 allows \
             all)"
        }
        Form::Referred => {
            "three bytes, the identifier of a file and the number of a record (6F0602 is record 2 \
             of 6F06)"
        }
    }
}

/// The image is not sound, so that nothing was done with it.
#[derive(Clone, Copy, PartialEq, Eq, Debug)]
pub struct Damaged;

impl fmt::Display for Damaged {
    fn fmt(&self, f: &mut fmt::Formatter<'_>) -> fmt::Result {
        f.write_str(
            "the card image is damaged: it was left as it is; take an older copy of it, or make \
             a new card",
        )
    }
}

impl Error for Damaged {}

/// Why a command has no word.
#[derive(Clone, Copy, PartialEq, Eq, Debug)]
pub enum CommandError {
    /// Answer 1: the image is not sound. All buffers are as they came.
    Damaged,
    /// Answer 5: the response is shorter than the data. Nothing is selected; all
    /// buffers are as they came.
    ShortResponse,
    /// Answer 6: the image has bodies, and the pool is not as long as its root's
    /// total. All buffers are as they came.
    WrongPool {
        /// How many bytes the pool must have.
        wanted: usize,
        /// How many it has.
        given: usize,
    },
    /// An answer that this version does not know, or data that is longer than
    /// the response; what became of the buffers is not known.
    Unknown(u32),
    /// Answer 0 with a number that this version does not know where the library
    /// tells what a security refusal lacks; whether the command had its effect
    /// is not known.
    UnknownSecurity(u32),
}

impl CommandError {
    /// The library's number for it.
    pub fn answer(self) -> u32 {
        match self {
            CommandError::Damaged => 1,
            CommandError::ShortResponse => 5,
            CommandError::WrongPool { .. } => 6,
            CommandError::Unknown(answer) => answer,
            CommandError::UnknownSecurity(_) => 0,
        }
    }
}

impl fmt::Display for CommandError {
    fn fmt(&self, f: &mut fmt::Formatter<'_>) -> fmt::Result {
        match self {
            CommandError::Damaged => Damaged.fmt(f),
            CommandError::ShortResponse => write!(
                f,
                "the response buffer is too short for the data: {LONGEST_RESPONSE} bytes are \
                 enough for every command"
            ),
            CommandError::WrongPool { wanted, given } => write!(
                f,
                "the pool has {given} bytes, and this card's has {wanted}, the root's total: \
                 give the pool that was kept with this image"
            ),
            CommandError::Unknown(answer) => unknown(*answer, f),
            CommandError::UnknownSecurity(number) => write!(
                f,
                "the card library told of a security refusal by the unknown number {number}: build \
                 both anew"
            ),
        }
    }
}

impl Error for CommandError {}

/// Why nothing is told of where a rule stands.
#[derive(Clone, Copy, PartialEq, Eq, Debug)]
pub enum PlaceError {
    /// Answer 1: the image is not sound.
    Damaged,
    /// Answer 6: the image has bodies, and the pool is not as long as its root's
    /// total.
    WrongPool {
        /// How many bytes the pool must have.
        wanted: usize,
        /// How many it has.
        given: usize,
    },
    /// An answer that this version does not know.
    Unknown(u32),
    /// Answer 0 with numbers that tell of no place in these buffers.
    UnknownPlace([u32; 3]),
}

impl PlaceError {
    /// The library's number for it.
    pub fn answer(self) -> u32 {
        match self {
            PlaceError::Damaged => 1,
            PlaceError::WrongPool { .. } => 6,
            PlaceError::Unknown(answer) => answer,
            PlaceError::UnknownPlace(_) => 0,
        }
    }
}

impl fmt::Display for PlaceError {
    fn fmt(&self, f: &mut fmt::Formatter<'_>) -> fmt::Result {
        match self {
            PlaceError::Damaged => Damaged.fmt(f),
            PlaceError::WrongPool { wanted, given } => {
                CommandError::WrongPool { wanted: *wanted, given: *given }.fmt(f)
            }
            PlaceError::Unknown(answer) => unknown(*answer, f),
            PlaceError::UnknownPlace(numbers) => write!(
                f,
                "the card library told where a rule stands by the unknown numbers {numbers:?}: \
                 build both anew"
            ),
        }
    }
}

impl Error for PlaceError {}

fn unknown(answer: u32, f: &mut fmt::Formatter<'_>) -> fmt::Result {
    write!(f, "the card library gave the unknown answer {answer}: build both anew")
}

/// An image and a pool that a [`crate::Card`] was not made of, because the image
/// is damaged or the pool has the wrong length. Both can be had back.
#[derive(Clone, PartialEq, Eq)]
pub struct RefusedParts {
    reason: CommandError,
    image: Vec<u8>,
    pool: Vec<u8>,
}

impl RefusedParts {
    pub(crate) fn new(reason: CommandError, image: Vec<u8>, pool: Vec<u8>) -> RefusedParts {
        RefusedParts { reason, image, pool }
    }

    /// What a command on them answers.
    pub fn reason(&self) -> CommandError {
        self.reason
    }

    /// The bytes of image and pool as they came.
    pub fn into_parts(self) -> (Vec<u8>, Vec<u8>) {
        (self.image, self.pool)
    }
}

/// Tells the lengths only; an image may have 65,488 bytes.
impl fmt::Debug for RefusedParts {
    fn fmt(&self, f: &mut fmt::Formatter<'_>) -> fmt::Result {
        let (image, pool) = (self.image.len(), self.pool.len());
        write!(f, "RefusedParts of {image} and {pool} bytes: {:?}", self.reason)
    }
}

impl fmt::Display for RefusedParts {
    fn fmt(&self, f: &mut fmt::Formatter<'_>) -> fmt::Result {
        self.reason.fmt(f)
    }
}

impl Error for RefusedParts {}
