//! Compact rules, the value of an object 8C.

use super::{bits, Condition, Grant, Group, Malformed, Sort};

/// The groups that fill a rule: an AM byte, and an SC byte for each of its bits,
/// b7 first.
pub fn groups(rule: &[u8]) -> Result<Vec<Group>, Malformed> {
    let mut bytes = rule.iter().copied().enumerate();
    let mut groups = Vec::new();
    while let Some((at, rights)) = bytes.next() {
        if rights & 0x80 != 0 {
            return Err(Malformed::new(at, format!("the AM byte {rights:02X} has b8 set")));
        }
        let conditions = bits(rights).zip(bytes.by_ref());
        let grants: Vec<_> = conditions.map(|(bit, (at, byte))| grant(bit, at, byte)).collect();
        let (asked, found) = (rights.count_ones() as usize, grants.len());
        if found < asked {
            let why = format!("the AM byte {rights:02X} asks for {asked} SC bytes: {found} follow");
            return Err(Malformed::new(at, why));
        }
        groups.push(Group { at, rights, grants });
    }
    Ok(groups)
}

fn grant(rights: u8, at: usize, byte: u8) -> Grant {
    Grant { rights, condition: Condition { at, sort: Sort::Byte(byte) } }
}
