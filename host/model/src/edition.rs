//! The one place for what differs between cards: the level (how many tickets
//! of document 02 have landed), the image version and the variant. 01, "Image"
//! (version 1, header bytes 11 to 15 zero); 02, Ticket 3 (version 2), Ticket 4
//! (version 3) and Ticket 7 (rules kept in a file).

use crate::rule::Form;

/// How many tickets the model contains; names the vectors it is tested with.
pub const LEVEL: u8 = 7;

/// The image version, header bytes 3 and 4.
#[derive(Clone, Copy, PartialEq, Eq, Debug)]
pub enum Version {
    /// Compact rules of up to 16 bytes, no bodies.
    One,
    /// Compact and expanded rules of up to 30 bytes, no bodies.
    Two,
    /// Rules of all three forms, of up to 28 bytes, bodies in a pool.
    Three,
}

impl Version {
    /// All versions.
    pub const ALL: [Version; 3] = [Version::One, Version::Two, Version::Three];

    /// The number in the header, in the maker's call and in the vectors.
    pub fn number(self) -> u16 {
        match self {
            Version::One => 1,
            Version::Two => 2,
            Version::Three => 3,
        }
    }

    /// The version of a number.
    pub fn from_number(number: u32) -> Option<Version> {
        Version::ALL.into_iter().find(|version| u32::from(version.number()) == number)
    }
}

/// Which directory pays for a file, header byte 11.
#[derive(Clone, Copy, PartialEq, Eq, Debug)]
pub enum Variant {
    /// Each directory pays for its direct children.
    Static,
}

/// Version and variant of one card.
#[derive(Clone, Copy, PartialEq, Eq, Debug)]
pub struct Edition {
    /// The image version.
    pub version: Version,
    /// The variant.
    pub variant: Variant,
}

impl Edition {
    /// The card of 01.
    pub const BASE: Edition = Edition::of(Version::One);

    /// A card of this version in which each directory pays.
    pub const fn of(version: Version) -> Edition {
        Edition { version, variant: Variant::Static }
    }

    /// What header bytes 3, 4 and 11 say, or nothing if the model's level
    /// does not know them.
    pub fn from_header(version: u16, variant: u8) -> Option<Edition> {
        let version = Version::from_number(u32::from(version))?;
        let variant = match variant {
            0 => Variant::Static,
            _ => return None,
        };
        Some(Edition { version, variant })
    }

    /// The number in header bytes 3 and 4.
    pub fn version_number(self) -> u16 {
        self.version.number()
    }

    /// The number in header byte 11.
    pub fn variant_number(self) -> u8 {
        match self.variant {
            Variant::Static => 0,
        }
    }

    /// How many bytes a rule may have in a record, of whichever form; as many
    /// are set aside for it from record byte 34 on.
    pub fn longest_rule(self) -> usize {
        match self.version {
            Version::One => 16,
            Version::Two => 30,
            Version::Three => 28,
        }
    }

    /// Whether rules of this form stand in its records.
    pub fn takes(self, form: Form) -> bool {
        match self.version {
            Version::One => form == Form::Compact,
            Version::Two => form != Form::Referred,
            Version::Three => true,
        }
    }

    /// Whether its EFs have bodies, which lie in a pool.
    pub fn has_bodies(self) -> bool {
        match self.version {
            Version::One | Version::Two => false,
            Version::Three => true,
        }
    }
}
