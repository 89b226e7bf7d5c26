//! What is measured: each call and each kind of command, on a card prepared so
//! that the command has its effect wherever the card's shape allows it.

mod prepare;

use cases::actions::{bare, delete, select};
use cases::Lent;
use model::Card;

use crate::bodied::BYTES;
use crate::referred::{Ruling, FILE_BYTES};
use prepare::{
    beside_last_file, last_file_again, last_slot, of_last_body, of_last_record, on_last_file,
    refused_by, refused_by_rule, select_last, with_template, NEVER, USER_1,
};

/// A body of so many bytes finds a gap on every card with bodies.
const FEW_BYTES: u32 = 40;

/// A call with its command.
#[derive(Clone, PartialEq, Eq, Debug)]
pub enum Call {
    Sound,
    Report,
    /// Where the rule of the file in a slot stands.
    Rule(usize),
    /// Every condition holds that can hold.
    Command(Vec<u8>),
    /// No condition holds but those that always do.
    Unauthenticated(Vec<u8>),
}

/// A kind of work.
#[derive(Clone, Copy, PartialEq, Eq, Debug)]
pub enum Task {
    Sound,
    Report,
    UnknownInstruction,
    SelectRoot,
    SelectRootTemplate,
    SelectFile,
    SelectFileTemplate,
    SelectNothing,
    Read,
    Update,
    CreateDf,
    CreateEf,
    CreateInGap,
    CreateMoving,
    DeleteFile,
    DeleteTree,
    Activate,
    Deactivate,
    TerminateEf,
    TerminateDf,
    TerminateCard,
    Lacking,
    Closed,
    RulePlace,
    ReadRecord,
    UpdateRecord,
    CreateRuled,
    RuledLacking,
    RuledClosed,
}

impl Task {
    /// What is measured on a card without bodies.
    pub const ALL: [Task; 19] = [
        Task::Sound,
        Task::Report,
        Task::UnknownInstruction,
        Task::SelectRoot,
        Task::SelectRootTemplate,
        Task::SelectFile,
        Task::SelectFileTemplate,
        Task::SelectNothing,
        Task::CreateDf,
        Task::CreateEf,
        Task::DeleteFile,
        Task::DeleteTree,
        Task::Activate,
        Task::Deactivate,
        Task::TerminateEf,
        Task::TerminateDf,
        Task::TerminateCard,
        Task::Lacking,
        Task::Closed,
    ];

    /// What is measured on a card with bodies.
    pub const BODIED: [Task; 15] = [
        Task::Sound,
        Task::Report,
        Task::UnknownInstruction,
        Task::SelectRoot,
        Task::SelectFile,
        Task::SelectFileTemplate,
        Task::Read,
        Task::Update,
        Task::CreateInGap,
        Task::CreateMoving,
        Task::DeleteFile,
        Task::DeleteTree,
        Task::Activate,
        Task::Lacking,
        Task::Closed,
    ];

    /// What is measured on a card whose files' rules stand in one file.
    pub const REFERRED: [Task; 12] = [
        Task::Sound,
        Task::SelectFile,
        Task::SelectFileTemplate,
        Task::RulePlace,
        Task::Activate,
        Task::Deactivate,
        Task::RuledLacking,
        Task::RuledClosed,
        Task::ReadRecord,
        Task::UpdateRecord,
        Task::CreateRuled,
        Task::DeleteFile,
    ];

    /// What is measured where such a rule is farthest.
    pub const FAR_UP: [Task; 6] = [
        Task::Sound,
        Task::SelectFile,
        Task::RulePlace,
        Task::Activate,
        Task::Deactivate,
        Task::TerminateDf,
    ];

    /// Each SELECT with the one that answers the template, and what both select.
    pub const TEMPLATES: [(&'static str, Task, Task); 2] = [
        ("the root", Task::SelectRoot, Task::SelectRootTemplate),
        ("last file", Task::SelectFile, Task::SelectFileTemplate),
    ];

    /// SELECT with each command about a body.
    pub const AGAINST_SELECT: [(&'static str, Task, Task); 5] = [
        ("READ, 200 bytes", Task::SelectFile, Task::Read),
        ("UPDATE, 200 bytes", Task::SelectFile, Task::Update),
        ("CREATE, a gap fits", Task::SelectFile, Task::CreateInGap),
        ("CREATE, all moved", Task::SelectFile, Task::CreateMoving),
        ("DELETE, last file", Task::SelectFile, Task::DeleteFile),
    ];

    pub fn title(self) -> &'static str {
        match self {
            Task::Sound => "soundness alone",
            Task::Report => "report",
            Task::UnknownInstruction => "unknown instruction",
            Task::SelectRoot => "SELECT, the root",
            Task::SelectRootTemplate => ".. with its template",
            Task::SelectFile => "SELECT, last file",
            Task::SelectFileTemplate => ".. with its template",
            Task::SelectNothing => "SELECT, no such file",
            Task::Read => "READ, 200 bytes",
            Task::Update => "UPDATE, 200 bytes",
            Task::CreateDf => "CREATE, a DF",
            Task::CreateEf => "CREATE, an EF",
            Task::CreateInGap => "CREATE, a gap fits",
            Task::CreateMoving => "CREATE, all moved",
            Task::DeleteFile => "DELETE, last file",
            Task::DeleteTree => "DELETE, first in root",
            Task::Activate => "ACTIVATE",
            Task::Deactivate => "DEACTIVATE",
            Task::TerminateEf => "TERMINATE EF",
            Task::TerminateDf => "TERMINATE DF",
            Task::TerminateCard => "TERMINATE CARD USAGE",
            Task::Lacking | Task::RuledLacking => "DEACTIVATE, lacking",
            Task::Closed | Task::RuledClosed => "DEACTIVATE, closed",
            Task::RulePlace => "where the rule stands",
            Task::ReadRecord => "READ RECORD",
            Task::UpdateRecord => "UPDATE RECORD",
            Task::CreateRuled => "CREATE in a ruled DF",
        }
    }

    /// The card from which the work starts, and the call.
    pub fn prepared(self, start: &Lent) -> (Lent, Call) {
        let Some(mut card) = Card::decode(&start.image) else {
            return (start.clone(), Call::Sound);
        };
        let call = match self {
            Task::Sound => Call::Sound,
            Task::Report => Call::Report,
            Task::UnknownInstruction => Call::Command(bare(0xB1)),
            Task::SelectRoot => Call::Command(select(0x3F00)),
            Task::SelectRootTemplate => Call::Command(with_template(select(0x3F00))),
            Task::SelectFile => Call::Command(select_last(&mut card)),
            Task::SelectFileTemplate => Call::Command(with_template(select_last(&mut card))),
            Task::SelectNothing => Call::Command(select(0x5555)),
            Task::Read => Call::Command(of_last_body(&mut card, 0xB0, &[])),
            Task::Update => Call::Command(of_last_body(&mut card, 0xD6, &[0x5A; BYTES as usize])),
            Task::CreateInGap => Call::Command(beside_last_file(&mut card, FEW_BYTES)),
            Task::CreateMoving => Call::Command(beside_last_file(&mut card, BYTES)),
            Task::CreateDf => Call::Command(last_file_again(&mut card, 0x78)),
            Task::CreateEf => Call::Command(last_file_again(&mut card, 0x41)),
            Task::DeleteFile => {
                let slot = last_slot(&card);
                card.make_current(card.parent(slot));
                Call::Command(delete(card.record(slot).identifier))
            }
            Task::DeleteTree => {
                card.make_current(0);
                Call::Command(delete(card.record(1).identifier))
            }
            Task::Activate => on_last_file(&mut card, 0x04, 0x44),
            Task::Deactivate => on_last_file(&mut card, 0x05, 0x04),
            Task::TerminateEf => on_last_file(&mut card, 0x05, 0xE8),
            Task::TerminateDf => on_last_file(&mut card, 0x05, 0xE6),
            Task::TerminateCard => Call::Command(bare(0xFE)),
            Task::Lacking => refused_by(&mut card, USER_1),
            Task::Closed => refused_by(&mut card, NEVER),
            Task::RulePlace => Call::Rule(last_slot(&card)),
            Task::ReadRecord => of_last_record(&mut card, 0xB2, &[]),
            Task::UpdateRecord => of_last_record(&mut card, 0xDC, &[0x5A; FILE_BYTES as usize]),
            Task::CreateRuled => Call::Command(beside_last_file(&mut card, u32::from(FILE_BYTES))),
            Task::RuledLacking => refused_by_rule(&mut card, Ruling::Lacking),
            Task::RuledClosed => refused_by_rule(&mut card, Ruling::Closed),
        };
        (Lent { image: card.encode(), pool: start.pool.clone() }, call)
    }
}

#[cfg(test)]
mod tests;
