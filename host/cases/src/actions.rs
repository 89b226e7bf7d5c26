//! Commands that fit a card at hand: the generator reads the card by the
//! model to know its room, its current directory and its files.

use model::Card;

use crate::choices::{a_child, beside, some_identifier, upwards};
use crate::random::Random;
use crate::template::create_command;
use crate::{bodies, breach, creations, raw};

/// Something that a history can do next.
#[derive(Clone, Copy, PartialEq, Eq, Debug)]
pub enum Action {
    /// An EF that fits.
    CreateEf,
    /// A DF that fits.
    CreateDf,
    /// A file that takes exactly the room.
    CreateExact,
    /// A file that takes one byte more than the room.
    CreateOneAbove,
    /// A size near FFFFFFFF, where 32-bit sums would wrap.
    CreateHuge,
    /// A DF that takes nearly all the room, to nest in.
    CreateDeep,
    /// A DF with a name of its own.
    CreateNamed,
    /// A file with a rule of many groups.
    CreateRuled,
    /// A file all of whose rights some states open, and not every one.
    CreateLocked,
    /// A file in any life cycle that CREATE takes.
    CreateInState,
    /// An EF of a large part of the room, which leaves a large gap when it is
    /// deleted.
    CreateLarge,
    /// An EF whose body fits a gap exactly, lacks a byte in it, or fits none.
    CreateByGaps,
    /// An identifier of a sibling, the current DF or one above.
    CreateTakenIdentifier,
    /// A name that is on the card.
    CreateTakenName,
    /// An identifier that was deleted before, by the history's memory.
    CreateLastDeleted,
    /// Data with a breach.
    CreateBroken,
    /// DELETE of a child.
    DeleteChild,
    /// DELETE of the current EF.
    DeleteCurrentEf,
    /// DELETE of what is no child.
    DeleteOther,
    /// SELECT of a child.
    SelectChild,
    /// SELECT of the parent or the root.
    SelectUp,
    /// SELECT of a DF beside the current one.
    SelectBeside,
    /// SELECT of some identifier.
    SelectAny,
    /// ACTIVATE FILE.
    Activate,
    /// DEACTIVATE FILE.
    Deactivate,
    /// TERMINATE EF.
    TerminateEf,
    /// TERMINATE DF.
    TerminateDf,
    /// TERMINATE CARD USAGE.
    TerminateCard,
    /// READ or UPDATE of the current EF, mostly good.
    ReadOrUpdate,
    /// Another action's command with one thing wrong.
    NearMiss,
}

/// The mix of all actions, those that succeed more often.
const MIX: [(Action, usize); 27] = [
    (Action::CreateEf, 12),
    (Action::CreateDf, 8),
    (Action::CreateExact, 3),
    (Action::CreateOneAbove, 3),
    (Action::CreateHuge, 1),
    (Action::CreateDeep, 2),
    (Action::CreateNamed, 3),
    (Action::CreateRuled, 2),
    (Action::CreateInState, 4),
    (Action::CreateLarge, 2),
    (Action::CreateByGaps, 4),
    (Action::CreateTakenIdentifier, 2),
    (Action::CreateTakenName, 1),
    (Action::CreateBroken, 2),
    (Action::DeleteChild, 6),
    (Action::DeleteCurrentEf, 2),
    (Action::DeleteOther, 1),
    (Action::SelectChild, 9),
    (Action::SelectUp, 9),
    (Action::SelectBeside, 4),
    (Action::SelectAny, 2),
    (Action::Activate, 3),
    (Action::Deactivate, 4),
    (Action::TerminateEf, 1),
    (Action::TerminateDf, 1),
    (Action::ReadOrUpdate, 12),
    (Action::NearMiss, 3),
];

impl Action {
    /// Any action by the mix.
    pub fn any(random: &mut Random) -> Action {
        random.weighted(&MIX).unwrap_or(Action::SelectUp)
    }
}

/// The command of an action on a card, or nothing where the card gives no
/// occasion for it. `remembered` is an identifier deleted before.
pub fn command_for(
    action: Action,
    random: &mut Random,
    card: &Card,
    remembered: Option<u16>,
) -> Option<Vec<u8>> {
    match action {
        Action::DeleteChild => Some(delete(a_child(random, card)?)),
        Action::DeleteCurrentEf => Some(delete(card.record(card.current_ef?).identifier)),
        Action::DeleteOther => Some(delete(some_identifier(random, card))),
        Action::SelectChild | Action::SelectUp | Action::SelectBeside | Action::SelectAny => {
            let identifier = selected(action, random, card)?;
            Some(select_by(random, identifier))
        }
        Action::Activate => Some(bare(0x44)),
        Action::Deactivate => Some(bare(0x04)),
        Action::TerminateEf => Some(bare(0xE8)),
        Action::TerminateDf => Some(bare(0xE6)),
        Action::TerminateCard => Some(bare(0xFE)),
        Action::ReadOrUpdate => read_or_update(random, card),
        Action::NearMiss => Some(raw::near_miss(random, card)),
        Action::CreateBroken => Some(create_command(&breach::any(random, card.edition))),
        _ => Some(creations::data_for(action, random, card, remembered)?.command()),
    }
}

/// A READ or UPDATE; where there are no bodies, or no EF is current, only now and
/// then.
fn read_or_update(random: &mut Random, card: &Card) -> Option<Vec<u8>> {
    let good = card.edition.has_bodies() && card.current_ef.is_some();
    (good || random.chance(12)).then(|| bodies::read_or_update(random, card))
}

/// What an action selects.
fn selected(action: Action, random: &mut Random, card: &Card) -> Option<u16> {
    match action {
        Action::SelectChild => a_child(random, card),
        Action::SelectUp => Some(upwards(random, card)),
        Action::SelectBeside => beside(random, card),
        _ => Some(some_identifier(random, card)),
    }
}

/// SELECT by identifier that wants no data.
pub fn select(identifier: u16) -> Vec<u8> {
    with_identifier([0x00, 0xA4, 0x00, 0x0C], identifier)
}

/// SELECT by identifier that wants the file's template (02, Ticket 2).
pub fn select_fcp(identifier: u16) -> Vec<u8> {
    let mut command = with_identifier([0x00, 0xA4, 0x00, 0x04], identifier);
    command.push(0x00);
    command
}

/// SELECT by identifier, with or without data.
pub fn select_by(random: &mut Random, identifier: u16) -> Vec<u8> {
    if random.chance(50) {
        select_fcp(identifier)
    } else {
        select(identifier)
    }
}

/// DELETE FILE.
pub fn delete(identifier: u16) -> Vec<u8> {
    with_identifier([0x00, 0xE4, 0x00, 0x00], identifier)
}

fn with_identifier(head: [u8; 4], identifier: u16) -> Vec<u8> {
    let mut command = head.to_vec();
    command.push(2);
    command.extend(identifier.to_be_bytes());
    command
}

/// A command of four bytes.
pub fn bare(ins: u8) -> Vec<u8> {
    vec![0x00, ins, 0x00, 0x00]
}
