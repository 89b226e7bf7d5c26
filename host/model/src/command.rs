//! One command on an image: 01, "The order in which a command is judged".
//! Steps A to G are here and common to all; steps H to L stand, in their
//! order, in the module of each command. The response buffer is looked at last
//! of all (02, Ticket 2), the pool's length before the command (Ticket 4). A
//! refusal for security has a number beside its word (Ticket 6); the rule that
//! refuses may stand in the pool (Ticket 7), so every judge is lent it.

use crate::answers::{Answer, DONE, SHORT_BUFFER, UNSOUND, WRONG_POOL};
use crate::bodies;
use crate::bytes::{byte, number16, rest};
use crate::card::{Card, ROOT};
use crate::commands::read_update::{self, Unit};
use crate::commands::{change, create, delete, select};
use crate::edition::Edition;
use crate::refusal::{refuse_if, Refusal};
use crate::security::State;
use crate::soundness::sound_card;
use crate::words::{
    Word, CONDITIONS_NOT_SATISFIED, NO_WORD, UNKNOWN_CLASS, UNKNOWN_INSTRUCTION, WRONG_LENGTH,
    WRONG_PARAMETERS,
};

/// P1 and P2 of a SELECT that wants no data.
const SELECT_WITHOUT_DATA: u16 = 0x000C;
/// P1 and P2 of a SELECT that wants the file's template.
const SELECT_WITH_FCP: u16 = 0x0004;
/// The Le of such a SELECT, which asks for all data there are.
const LE_ALL: u8 = 0x00;
/// A start in P1 P2 lies below.
const NO_START: u16 = 0x8000;
/// P2 of a command that has a record number in P1.
const RECORD_IN_P1: u8 = 0x04;
/// The number of a call in which no rule refused.
const NO_SECURITY_REFUSAL: u8 = 0;

/// What a command call gives back beside image, pool and response buffer.
#[derive(Clone, Copy, PartialEq, Eq, Debug)]
pub struct Outcome {
    /// 0, 1, 5 or 6.
    pub answer: Answer,
    /// The status word; 0000 with any answer but 0.
    pub word: Word,
    /// How many bytes of data stand at the start of the response buffer now.
    pub data: usize,
    /// 0 for no security refusal; with word 6982, and only then, 1 if some
    /// security state would have been granted it, 2 if none is.
    pub security: u8,
}

impl Outcome {
    /// An answer other than 0: no word, no data, and security refused nothing.
    fn wordless(answer: Answer) -> Outcome {
        Outcome { answer, word: NO_WORD, data: 0, security: NO_SECURITY_REFUSAL }
    }

    /// A command that is not done.
    fn refused(refusal: Refusal) -> Outcome {
        let Refusal { word, decision } = refusal;
        Outcome { answer: DONE, word, data: 0, security: decision.number() }
    }

    /// A command that is done.
    fn done(told: &Told) -> Outcome {
        let data = told.data.len();
        Outcome { answer: DONE, word: told.word, data, security: NO_SECURITY_REFUSAL }
    }
}

/// What a command tells that has its effect.
#[derive(Clone, PartialEq, Eq, Debug)]
pub struct Told {
    /// 9000, or a warning.
    pub word: Word,
    /// What the response buffer should take.
    pub data: Vec<u8>,
}

impl Told {
    /// A word alone.
    fn word(word: Word) -> Told {
        Told { word, data: Vec::new() }
    }
}

/// The instructions.
#[derive(Clone, Copy, PartialEq, Eq, Debug)]
pub enum Instruction {
    /// SELECT by identifier.
    Select,
    /// CREATE FILE.
    Create,
    /// DELETE FILE.
    Delete,
    /// ACTIVATE FILE.
    Activate,
    /// DEACTIVATE FILE.
    Deactivate,
    /// TERMINATE EF.
    TerminateEf,
    /// TERMINATE DF.
    TerminateDf,
    /// TERMINATE CARD USAGE.
    TerminateCard,
    /// READ BINARY or READ RECORD.
    Read(Unit),
    /// UPDATE BINARY or UPDATE RECORD.
    Update(Unit),
}

impl Instruction {
    /// All with their INS bytes.
    pub const ALL: [(u8, Instruction); 12] = [
        (0xA4, Instruction::Select),
        (0xE0, Instruction::Create),
        (0xE4, Instruction::Delete),
        (0x44, Instruction::Activate),
        (0x04, Instruction::Deactivate),
        (0xE8, Instruction::TerminateEf),
        (0xE6, Instruction::TerminateDf),
        (0xFE, Instruction::TerminateCard),
        (0xB0, Instruction::Read(Unit::Bytes)),
        (0xD6, Instruction::Update(Unit::Bytes)),
        (0xB2, Instruction::Read(Unit::Record)),
        (0xDC, Instruction::Update(Unit::Record)),
    ];

    /// Whether cards of this edition know it: only those with bodies know the
    /// ones that read and write them.
    pub fn is_known(self, edition: Edition) -> bool {
        match self {
            Instruction::Read(_) | Instruction::Update(_) => edition.has_bodies(),
            _ => true,
        }
    }
}

/// Runs one command. An unsound image is found before any look at the
/// command, and after it a pool of a wrong length; a refusal leaves image, pool
/// and response buffer as they came, and so does a buffer too short for the
/// data, which is found last.
pub fn command(
    image: &mut [u8],
    pool: &mut [u8],
    command: &[u8],
    response: &mut [u8],
    state: &State,
) -> Outcome {
    let Some(mut card) = sound_card(image) else {
        return Outcome::wordless(UNSOUND);
    };
    if bodies::pool_length(&card).is_some_and(|length| length != pool.len()) {
        return Outcome::wordless(WRONG_POOL);
    }
    let mut pool_after = pool.to_vec();
    let told = match judge(&mut card, &mut pool_after, command, state) {
        Ok(told) => told,
        Err(refusal) => return Outcome::refused(refusal),
    };
    let Some(place) = response.get_mut(..told.data.len()) else {
        return Outcome::wordless(SHORT_BUFFER);
    };
    place.copy_from_slice(&told.data);
    image.copy_from_slice(&card.encode());
    pool.copy_from_slice(&pool_after);
    Outcome::done(&told)
}

/// Steps A to L. `Ok` means that card and pool now have the command's effect;
/// after `Err` they are not looked at again.
fn judge(card: &mut Card, pool: &mut [u8], command: &[u8], state: &State) -> Result<Told, Refusal> {
    step_a_four_bytes(command)?;
    step_b_class(byte(command, 0))?;
    let instruction = step_c_instruction(card.edition, byte(command, 1))?;
    step_d_card_in_use(card)?;
    step_e_channels(instruction, state)?;
    step_f_parameters(instruction, number16(command, 2))?;
    step_g_length(instruction, command)?;
    let data = rest(command, 5);
    let word = match instruction {
        Instruction::Select => {
            return Ok(select::run(card, number16(data, 0), wants_data(command))?)
        }
        Instruction::Read(unit) => return read_update::read(card, pool, command, unit, state),
        Instruction::Update(unit) => read_update::update(card, pool, command, unit, state),
        Instruction::Create => create::run(card, pool, data, state),
        Instruction::Delete => delete::run(card, pool, number16(data, 0), state),
        Instruction::Activate => change::activate(card, pool, state),
        Instruction::Deactivate => change::deactivate(card, pool, state),
        Instruction::TerminateEf => change::terminate_ef(card, pool, state),
        Instruction::TerminateDf => change::terminate_df(card, pool, state),
        Instruction::TerminateCard => change::terminate_card(card, pool, state),
    };
    word.map(Told::word)
}

fn step_a_four_bytes(command: &[u8]) -> Result<(), Word> {
    refuse_if(command.len() < 4, WRONG_LENGTH)
}

fn step_b_class(class: u8) -> Result<(), Word> {
    match class {
        0x00 => Ok(()),
        0x01..=0x03 => Err(CONDITIONS_NOT_SATISFIED),
        _ => Err(UNKNOWN_CLASS),
    }
}

fn step_c_instruction(edition: Edition, ins: u8) -> Result<Instruction, Word> {
    Instruction::ALL
        .into_iter()
        .find(|(byte, instruction)| *byte == ins && instruction.is_known(edition))
        .map(|(_, instruction)| instruction)
        .ok_or(UNKNOWN_INSTRUCTION)
}

fn step_d_card_in_use(card: &Card) -> Result<(), Word> {
    refuse_if(card.is_terminated(ROOT), CONDITIONS_NOT_SATISFIED)
}

/// CREATE, DELETE and all three TERMINATE commands want no other channel.
fn step_e_channels(instruction: Instruction, state: &State) -> Result<(), Word> {
    let alone = match instruction {
        Instruction::Create
        | Instruction::Delete
        | Instruction::TerminateEf
        | Instruction::TerminateDf
        | Instruction::TerminateCard => true,
        Instruction::Select | Instruction::Activate | Instruction::Deactivate => false,
        Instruction::Read(_) | Instruction::Update(_) => false,
    };
    refuse_if(alone && state.another_channel_open(), CONDITIONS_NOT_SATISFIED)
}

fn step_f_parameters(instruction: Instruction, parameters: u16) -> Result<(), Word> {
    let [_, p2] = parameters.to_be_bytes();
    let good = match instruction {
        Instruction::Select => [SELECT_WITHOUT_DATA, SELECT_WITH_FCP].contains(&parameters),
        Instruction::Read(Unit::Bytes) | Instruction::Update(Unit::Bytes) => parameters < NO_START,
        Instruction::Read(Unit::Record) | Instruction::Update(Unit::Record) => p2 == RECORD_IN_P1,
        _ => parameters == 0x0000,
    };
    refuse_if(!good, WRONG_PARAMETERS)
}

/// The length of SELECT goes by P2: where data are wanted, Le follows.
fn step_g_length(instruction: Instruction, command: &[u8]) -> Result<(), Word> {
    let lc = byte(command, 4);
    let good = match instruction {
        Instruction::Create | Instruction::Update(_) => {
            lc >= 1 && command.len() == 5 + usize::from(lc)
        }
        Instruction::Read(_) => command.len() == 5,
        Instruction::Select if wants_data(command) => {
            lc == 2 && command.len() == 8 && byte(command, 7) == LE_ALL
        }
        Instruction::Select | Instruction::Delete => lc == 2 && command.len() == 7,
        _ => command.len() == 4,
    };
    refuse_if(!good, WRONG_LENGTH)
}

/// Whether a SELECT, by its P2, wants the selected file's template.
fn wants_data(command: &[u8]) -> bool {
    number16(command, 2) == SELECT_WITH_FCP
}
