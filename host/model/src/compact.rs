//! Compact access rules: 01, "Descriptor and rules", second paragraph.

use crate::rule::{Condition, Group, Right};

/// The groups of a compact rule, each cut into one for every right that its
/// AM byte names, as each has an SC byte of its own. Nothing if the rule is
/// malformed: an AM byte with b8 set, or an SC byte missing at the end.
pub fn groups(rule: &[u8]) -> Option<Vec<Group>> {
    let mut bytes = rule.iter().copied();
    let mut groups = Vec::new();
    while let Some(am) = bytes.next() {
        if am & 0x80 != 0 {
            return None;
        }
        for right in Right::ALL.into_iter().filter(|right| am & right.bit() != 0) {
            let conditions = vec![Condition::Byte(bytes.next()?)];
            groups.push(Group { rights: right.bit(), conditions });
        }
    }
    Some(groups)
}
