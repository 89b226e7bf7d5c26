//! What card the maker makes, and in which form a rule is written.

use std::ops::Range;

/// Where the version stands in an image, 16 bits.
const VERSION_AT: Range<usize> = 3..5;

/// What card it is: today the version of its image. What else will tell cards
/// apart joins it, so that a caller hands one value on.
#[derive(Clone, Copy, PartialEq, Eq, Hash, Debug)]
#[non_exhaustive]
pub struct Kind {
    /// The version of the image. The maker refuses one that it does not know.
    pub version: u16,
}

impl Kind {
    /// Compact rules alone, of 1 to 16 bytes.
    pub const VERSION_1: Kind = Kind::of_version(1);
    /// Compact and expanded rules, of 1 to 30 bytes.
    pub const VERSION_2: Kind = Kind::of_version(2);
    /// Compact and expanded rules, of 1 to 28 bytes, and referred ones; files
    /// have bodies, which lie in a pool.
    pub const VERSION_3: Kind = Kind::of_version(3);
    /// Every kind of card that there is.
    pub const ALL: [Kind; 3] = [Kind::VERSION_1, Kind::VERSION_2, Kind::VERSION_3];

    /// The card of a version, known or not.
    pub const fn of_version(version: u16) -> Kind {
        Kind { version }
    }

    /// What the header of an image tells, sound or not; version 0, which no
    /// card has, where there is no header.
    pub fn of_image(image: &[u8]) -> Kind {
        let bytes = image.get(VERSION_AT).and_then(|bytes| bytes.try_into().ok());
        Kind::of_version(bytes.map_or(0, u16::from_be_bytes))
    }

    /// The library's number for it.
    pub fn number(self) -> u32 {
        u32::from(self.version)
    }

    /// The most bytes that a rule of a form may have; none where there is no
    /// such card, or it takes no rule of this form. A referred rule always has
    /// as many.
    pub fn longest_rule(self, form: Form) -> Option<usize> {
        match (self.version, form) {
            (1, Form::Compact) => Some(16),
            (2, Form::Compact | Form::Expanded) => Some(30),
            (3, Form::Compact | Form::Expanded) => Some(28),
            (3, Form::Referred) => Some(REFERENCE_BYTES),
            _ => None,
        }
    }

    /// Whether its files have bodies, so that a pool belongs to its image.
    pub fn has_bodies(self) -> bool {
        self.version == 3
    }
}

/// The card that is made where nothing is said.
impl Default for Kind {
    fn default() -> Kind {
        Kind::VERSION_1
    }
}

/// Bytes of a referred rule.
pub const REFERENCE_BYTES: usize = 3;

/// How an access rule is written.
#[derive(Clone, Copy, PartialEq, Eq, Hash, Debug)]
pub enum Form {
    /// Groups of an AM byte and SC bytes.
    Compact,
    /// Groups of an AM object and objects that are conditions.
    Expanded,
    /// The identifier of a file and the number of a record of it, which holds an
    /// expanded rule.
    Referred,
}

impl Form {
    /// Every form that there is.
    pub const ALL: [Form; 3] = [Form::Compact, Form::Expanded, Form::Referred];

    /// The library's number for it.
    pub fn number(self) -> u32 {
        match self {
            Form::Compact => 0,
            Form::Expanded => 1,
            Form::Referred => 2,
        }
    }

    /// The tag of the object that holds such a rule.
    pub fn tag(self) -> u8 {
        match self {
            Form::Compact => 0x8C,
            Form::Expanded => 0xAB,
            Form::Referred => 0x8B,
        }
    }
}

/// An access rule, without tag and length. It may be malformed: the library
/// finds out.
#[derive(Clone, Copy, PartialEq, Eq, Hash, Debug)]
pub struct Rule<'a> {
    /// How the bytes are to be read.
    pub form: Form,
    /// The rule itself.
    pub bytes: &'a [u8],
}

impl<'a> Rule<'a> {
    /// The rule that allows everything always; every kind of card takes it.
    pub const OPEN: Rule<'static> = Rule::compact(&[0x7F, 0, 0, 0, 0, 0, 0, 0]);

    /// A compact rule, the value of an object 8C.
    pub const fn compact(bytes: &'a [u8]) -> Rule<'a> {
        Rule { form: Form::Compact, bytes }
    }

    /// An expanded rule, the value of an object AB.
    pub const fn expanded(bytes: &'a [u8]) -> Rule<'a> {
        Rule { form: Form::Expanded, bytes }
    }

    /// A rule that a record of a file keeps, the value of an object 8B.
    pub const fn referred(bytes: &'a [u8]) -> Rule<'a> {
        Rule { form: Form::Referred, bytes }
    }
}
