//! The status words of 01, "The order in which a command is judged", under
//! names that say what they mean. The memory-retry and fault words of the
//! status tables are never given, so they have no name here.

/// A status word: SW1 and SW2 as one number.
pub type Word = u16;

/// What stands beside an answer other than 0: no word at all.
pub const NO_WORD: Word = 0x0000;

/// Done.
pub const SUCCESS: Word = 0x9000;
/// Selected, and the selected file is deactivated.
pub const SELECTED_DEACTIVATED: Word = 0x6283;
/// Selected, and the selected file is terminated.
pub const SELECTED_TERMINATED: Word = 0x6285;

/// Steps A and G: the command has the wrong length. After step K: what it would
/// read or write ends behind the body, or is not a whole record.
pub const WRONG_LENGTH: Word = 0x6700;
/// After step K: the file's structure is not the one that the command is for.
pub const WRONG_STRUCTURE: Word = 0x6981;
/// Step J: no rule grants this command under the caller's security state.
pub const SECURITY_NOT_SATISFIED: Word = 0x6982;
/// Steps B, D, E and K: the conditions of use are not met (a class of another
/// channel, a terminated card, another open channel, a life cycle).
pub const CONDITIONS_NOT_SATISFIED: Word = 0x6985;
/// Step I: a command for the current EF without one.
pub const NO_CURRENT_EF: Word = 0x6986;
/// Step H: the data of CREATE break a rule.
pub const WRONG_DATA: Word = 0x6A80;
/// Step I: no such file.
pub const FILE_NOT_FOUND: Word = 0x6A82;
/// After step K: no such record.
pub const RECORD_NOT_FOUND: Word = 0x6A83;
/// Step L: no memory for the new file.
pub const NOT_ENOUGH_MEMORY: Word = 0x6A84;
/// Step L: the identifier is taken.
pub const IDENTIFIER_TAKEN: Word = 0x6A89;
/// Step L: the name is taken.
pub const NAME_TAKEN: Word = 0x6A8A;
/// Step F: wrong P1 or P2. After step K: the body ends before they start.
pub const WRONG_PARAMETERS: Word = 0x6B00;
/// Step C: unknown instruction.
pub const UNKNOWN_INSTRUCTION: Word = 0x6D00;
/// Step B: unknown class.
pub const UNKNOWN_CLASS: Word = 0x6E00;

/// Every word that a command can give on a sound image.
pub const ALL: [Word; 17] = [
    SUCCESS,
    SELECTED_DEACTIVATED,
    SELECTED_TERMINATED,
    WRONG_LENGTH,
    WRONG_STRUCTURE,
    SECURITY_NOT_SATISFIED,
    CONDITIONS_NOT_SATISFIED,
    NO_CURRENT_EF,
    WRONG_DATA,
    FILE_NOT_FOUND,
    RECORD_NOT_FOUND,
    NOT_ENOUGH_MEMORY,
    IDENTIFIER_TAKEN,
    NAME_TAKEN,
    WRONG_PARAMETERS,
    UNKNOWN_INSTRUCTION,
    UNKNOWN_CLASS,
];

/// Whether the word tells that the command had its effect.
pub fn is_success(word: Word) -> bool {
    matches!(word, SUCCESS | SELECTED_DEACTIVATED | SELECTED_TERMINATED)
}
