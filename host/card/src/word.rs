//! Status words, and what each says in English.

use std::fmt;

/// The status word of a command, SW1 and SW2 as one number.
#[derive(Clone, Copy, PartialEq, Eq, PartialOrd, Ord, Hash, Debug)]
pub struct Word(pub u16);

/// Every word that a command can give, with its meaning.
const MEANINGS: [(u16, &str); 17] = [
    (0x9000, "done"),
    (0x6283, "selected; the file is deactivated"),
    (0x6285, "selected; the file is terminated"),
    (0x6700, "wrong length"),
    (0x6981, "wrong structure: BINARY is for transparent files, RECORD for those with records"),
    (0x6982, "security status not satisfied: no access rule allows this"),
    (0x6985, "conditions of use not satisfied: life cycle or open channels forbid this"),
    (0x6986, "no current EF"),
    (0x6A80, "wrong data: the file cannot be described like this"),
    (0x6A82, "file not found"),
    (0x6A83, "record not found"),
    (0x6A84, "not enough memory in the current directory"),
    (0x6A89, "a file with this identifier exists already"),
    (0x6A8A, "a directory with this name exists already"),
    (0x6B00, "wrong parameters P1 P2"),
    (0x6D00, "unknown instruction"),
    (0x6E00, "unknown class"),
];

impl Word {
    /// The command had its effect, and there is nothing to add.
    pub const DONE: Word = Word(0x9000);
    /// Security refused the command; [`crate::Security`] tells whether anything
    /// opens it.
    pub const SECURITY: Word = Word(0x6982);

    /// Every word that a command can give.
    pub fn all() -> impl Iterator<Item = Word> {
        MEANINGS.iter().map(|(word, _)| Word(*word))
    }

    /// What the word says, in English.
    pub fn meaning(self) -> &'static str {
        let found = MEANINGS.iter().find(|(word, _)| *word == self.0);
        found.map_or("a word that this card never gives", |(_, meaning)| meaning)
    }

    /// Whether the command had its effect: 9000, or a SELECT that warns. Any
    /// other word is a refusal, after which image and pool are as they were.
    pub fn is_success(self) -> bool {
        matches!(self.0, 0x9000 | 0x6283 | 0x6285)
    }
}

/// Four capital hex digits.
impl fmt::Display for Word {
    fn fmt(&self, f: &mut fmt::Formatter<'_>) -> fmt::Result {
        write!(f, "{:04X}", self.0)
    }
}
