//! How many files of each sort were made again, for whoever asks whether all
//! sorts are among them.

use std::collections::BTreeMap;

use crate::again::{Played, Remade};

/// Every sort of file that a template can tell of.
pub const TOLD: [&str; 16] = [
    "DF",
    "EF",
    "with a name",
    "with records",
    "with a compact rule of 16 bytes",
    "with a compact rule of more bytes",
    "with an expanded rule",
    "with a referred rule",
    "with a rule of 30 bytes",
    "with a rule of 28 bytes",
    "life cycle 01",
    "life cycle 03",
    "life cycle 04",
    "life cycle 05",
    "life cycle 06",
    "life cycle 07",
];
/// Every file that was made again.
pub const ALL: &str = "all";
/// Files of 16,384 bytes and more; among them the largest, of 65,344.
pub const LARGE: &str = "large";
/// The largest alone.
pub const LARGEST: &str = "largest";
/// Those with another parent or level than before.
pub const MOVED: &str = "moved";
/// Those whose body starts elsewhere than before.
pub const STARTED: &str = "with another start";
/// Those left out because they are terminated.
pub const TERMINATED: &str = "terminated, left out";
/// Those left out for another reason.
pub const PASSED: &str = "others left out";

/// Counts by sort.
#[derive(Clone, PartialEq, Eq, Debug, Default)]
pub struct Sorts(BTreeMap<String, usize>);

impl Sorts {
    /// Counts what was made again, and what was left out.
    pub fn add(&mut self, played: &Played) {
        for sort in played.remade.iter().flat_map(sorts_of) {
            self.count(sort, 1);
        }
        self.count(TERMINATED.to_string(), played.terminated);
        self.count(PASSED.to_string(), played.passed);
    }

    fn count(&mut self, sort: String, more: usize) {
        *self.0.entry(sort).or_insert(0) += more;
    }

    /// How many there are of a sort.
    pub fn of(&self, sort: &str) -> usize {
        self.0.get(sort).copied().unwrap_or(0)
    }

    /// Which of these sorts come less often.
    pub fn rarer<'a>(&self, sorts: &[&'a str], fewest: usize) -> Vec<&'a str> {
        sorts.iter().copied().filter(|sort| self.of(sort) < fewest).collect()
    }
}

/// The sorts that a file is of, by the bytes of its record.
fn sorts_of(file: &Remade) -> Vec<String> {
    let part = |at: usize, length: usize| file.old.get(at..at + length).unwrap_or_default();
    let size = part(12, 4).iter().fold(0, |size, &byte| size << 8 | u32::from(byte));
    let life_cycle = part(2, 1).iter().map(|byte| format!("life cycle {byte:02X}"));
    let [compact, expanded, referred] = [0, 1, 2].map(|form| part(3, 1) == [form]);
    let rule_bytes = part(33, 1).first().copied().unwrap_or(0);
    let others = [
        (true, ALL),
        (part(0, 1) == [1], "DF"),
        (part(0, 1) == [2], "EF"),
        (part(16, 1) != [0], "with a name"),
        (part(10, 2) != [0, 0], "with records"),
        (compact && rule_bytes == 16, "with a compact rule of 16 bytes"),
        (compact && rule_bytes > 16, "with a compact rule of more bytes"),
        (expanded, "with an expanded rule"),
        (referred, "with a referred rule"),
        (rule_bytes == 30, "with a rule of 30 bytes"),
        (rule_bytes == 28, "with a rule of 28 bytes"),
        (size >= 0x4000, LARGE),
        (size == 65_344, LARGEST),
        (file.new.get(6..10) != file.old.get(6..10), MOVED),
        (file.new.get(62..) != file.old.get(62..), STARTED),
    ];
    let others = others.into_iter().filter(|(is_so, _)| *is_so);
    life_cycle.chain(others.map(|(_, sort)| sort.to_string())).collect()
}
