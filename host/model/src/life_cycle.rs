//! The life-cycle byte: 01, "Image" (which bytes a record may hold), "CREATE"
//! (which a new file may have) and "ACTIVATE, DEACTIVATE" (what follows what);
//! 02, Ticket 1 (b2 is free where a file is activated or deactivated).
//!
//! [`class`] alone looks at the byte. Everything else, here and in the other
//! modules, goes by the class.

/// The byte of a file being made.
pub const CREATION: u8 = 0x01;
/// The byte of a file being initialised.
pub const INITIALISATION: u8 = 0x03;
/// The byte that DEACTIVATE writes.
pub const DEACTIVATED: u8 = 0x04;
/// The byte that ACTIVATE and the maker write.
pub const ACTIVATED: u8 = 0x05;
/// The byte that the TERMINATE commands write.
pub const TERMINATED: u8 = 0x0C;

/// Bit b2, which tells nothing in the two states of use. CREATE may bring it
/// in and it then stays as given; no transition writes it.
const B2: u8 = 0x02;
const DEACTIVATED_WITH_B2: u8 = DEACTIVATED | B2;
const ACTIVATED_WITH_B2: u8 = ACTIVATED | B2;

/// The state that a life-cycle byte stands for.
#[derive(Clone, Copy, PartialEq, Eq, Debug)]
pub enum Class {
    /// 01 or 03.
    BeforeUse,
    /// 04 or 06.
    Deactivated,
    /// 05 or 07.
    Activated,
    /// 0C; with its lowest bits set, 0D to 0F, it is no byte of a record.
    Terminated,
}

/// The class of a byte; none for a byte that no record may hold.
pub fn class(byte: u8) -> Option<Class> {
    match byte {
        CREATION | INITIALISATION => Some(Class::BeforeUse),
        DEACTIVATED | DEACTIVATED_WITH_B2 => Some(Class::Deactivated),
        ACTIVATED | ACTIVATED_WITH_B2 => Some(Class::Activated),
        TERMINATED => Some(Class::Terminated),
        _ => None,
    }
}

/// Whether a record may hold this byte.
pub fn known(byte: u8) -> bool {
    class(byte).is_some()
}

/// Whether CREATE takes this byte.
pub fn creatable(byte: u8) -> bool {
    known(byte) && !is_terminated(byte)
}

/// Whether the file is terminated.
pub fn is_terminated(byte: u8) -> bool {
    class(byte) == Some(Class::Terminated)
}

/// Whether the file is activated.
pub fn is_activated(byte: u8) -> bool {
    class(byte) == Some(Class::Activated)
}

/// Whether the file is deactivated.
pub fn is_deactivated(byte: u8) -> bool {
    class(byte) == Some(Class::Deactivated)
}

/// The byte after ACTIVATE, always 05, or nothing where the state forbids it.
pub fn after_activate(byte: u8) -> Option<u8> {
    match class(byte)? {
        Class::BeforeUse | Class::Deactivated => Some(ACTIVATED),
        Class::Activated | Class::Terminated => None,
    }
}

/// The byte after DEACTIVATE, always 04, or nothing where the state forbids
/// it.
pub fn after_deactivate(byte: u8) -> Option<u8> {
    match class(byte)? {
        Class::Activated => Some(DEACTIVATED),
        Class::BeforeUse | Class::Deactivated | Class::Terminated => None,
    }
}

/// The byte after TERMINATE EF or TERMINATE DF ("any state but 0C to 0C").
pub fn after_terminate(byte: u8) -> Option<u8> {
    match class(byte)? {
        Class::Terminated => None,
        Class::BeforeUse | Class::Deactivated | Class::Activated => Some(TERMINATED),
    }
}
