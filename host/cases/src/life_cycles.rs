//! Life-cycle bytes, good and bad (01, "Image" and "CREATE"; 02, Ticket 1:
//! 06 and 07 are 04 and 05 with b2 set).

use crate::random::Random;

/// The byte of a terminated file: good in a record, bad in CREATE's data.
const TERMINATED: u8 = 0x0C;

/// Bytes that are bad everywhere: the neighbours of the good ones, and good
/// ones with a bit set that does not belong to the state.
const UNKNOWN: [u8; 14] =
    [0x00, 0x02, 0x08, 0x09, 0x0A, 0x0B, 0x0D, 0x0E, 0x0F, 0x15, 0x1C, 0x46, 0x87, 0xFF];

/// Any byte that CREATE takes; the deactivated ones more often, because most
/// files are made activated elsewhere.
pub fn of_a_new_file(random: &mut Random) -> u8 {
    random.pick([0x01, 0x03, 0x04, 0x04, 0x05, 0x06, 0x06, 0x07])
}

/// A byte of a file in use, mostly the usual one; what such a file allows is
/// the same with both.
pub fn of_an_activated_file(random: &mut Random) -> u8 {
    random.pick([0x05, 0x05, 0x05, 0x07])
}

/// A byte that CREATE refuses.
pub fn of_no_new_file(random: &mut Random) -> u8 {
    if random.chance(15) {
        TERMINATED
    } else {
        of_no_record(random)
    }
}

/// A byte of a record: terminated so many times out of a hundred, else any
/// other state, mostly that of a file in use.
pub fn of_a_record(random: &mut Random, terminated: usize) -> u8 {
    if random.chance(terminated) {
        TERMINATED
    } else {
        random.pick([0x05, 0x05, 0x05, 0x05, 0x07, 0x04, 0x06, 0x03, 0x01])
    }
}

/// A byte that no record may hold.
pub fn of_no_record(random: &mut Random) -> u8 {
    random.pick(UNKNOWN)
}
