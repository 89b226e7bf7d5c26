//! What several test files share: building commands and cards by hand, chance,
//! and a line that stays visible when the test passes.

use std::io::Write;

use model::lines::from_hex;
use model::{bytes as numbers, command, make, words, Outcome, State, Word};

/// Everything always: the rule of replay's root.
pub const OPEN: &str = "7F00000000000000";

/// What fills a response buffer.
pub const MARK: u8 = 0xA5;

/// Prints a line past the capture of the test harness.
pub fn say(line: &str) {
    let _ = writeln!(std::io::stderr(), "{line}");
}

/// A small generator of its own (splitmix64), so that the test is the same
/// everywhere.
pub struct Random(pub u64);

impl Random {
    pub fn next(&mut self) -> u64 {
        self.0 = self.0.wrapping_add(0x9E37_79B9_7F4A_7C15);
        let mut z = self.0;
        z = (z ^ (z >> 30)).wrapping_mul(0xBF58_476D_1CE4_E5B9);
        z = (z ^ (z >> 27)).wrapping_mul(0x94D0_49BB_1331_11EB);
        z ^ (z >> 31)
    }

    pub fn below(&mut self, limit: usize) -> usize {
        (self.next() % limit as u64) as usize
    }

    pub fn bytes(&mut self, longest: usize) -> Vec<u8> {
        let length = self.below(longest + 1);
        (0..length).map(|_| self.next() as u8).collect()
    }

    pub fn state(&mut self) -> State {
        let z = self.next();
        State {
            messaging: z as u16,
            external: (z >> 16) as u16,
            user: (z >> 32) as u16,
            channels: (z >> 48) as u8,
        }
    }
}

/// The bytes of a hex string; blanks are for the reader only.
pub fn bytes(text: &str) -> Vec<u8> {
    from_hex(&text.replace(' ', "")).expect("a hex string in the test itself")
}

/// A fresh card of version 1.
pub fn fresh(slots: usize, total: u32, rule: &str) -> Vec<u8> {
    made(1, slots, total, 0, rule)
}

/// A fresh card.
pub fn made(version: u32, slots: usize, total: u32, form: u32, rule: &str) -> Vec<u8> {
    let mut image = vec![0xA5; 16 + 64 * slots];
    let answer = make(&mut image, version, total, form, &bytes(rule));
    assert_eq!(answer, 0, "the maker's answer");
    image
}

/// A fresh card of so many slots with the largest total and an open rule.
pub fn roomy(slots: usize) -> Vec<u8> {
    fresh(slots, 64 * (slots as u32 - 1), OPEN)
}

/// The same of version 2.
pub fn roomy_two(slots: usize) -> Vec<u8> {
    made(2, slots, 64 * (slots as u32 - 1), 0, OPEN)
}

/// A pool of the right length for an image, full of a mark. No sound image
/// wants a longer one than 65,408 bytes.
pub fn pool_for(image: &[u8]) -> Vec<u8> {
    vec![MARK; numbers::number32(image, 16 + 12).min(65_408) as usize]
}

/// A61: the number is 1 or 2 exactly with answer 0 and word 6982, else 0.
#[track_caller]
pub fn number_fits(outcome: &Outcome) {
    let refused = outcome.answer == 0 && outcome.word == words::SECURITY_NOT_SATISFIED;
    let fitting = if refused { 1..=2 } else { 0..=0 };
    assert!(fitting.contains(&outcome.security), "{outcome:04X?}");
}

/// Runs one command under a state and gives its word and its data; the image
/// is sound, and the response buffer long and full of a mark, which stays past
/// the data. The pool is forgotten; without bodies it stays.
pub fn ask_under(image: &mut [u8], text: &str, state: &State) -> (Word, Vec<u8>) {
    let (mut response, mut pool) = ([MARK; 256], pool_for(image));
    let outcome = command(image, &mut pool, &bytes(text), &mut response, state);
    assert!(image[4] == 3 || pool == pool_for(image), "{text} wrote into the pool");
    assert_eq!(outcome.answer, 0, "{text} on a sound image");
    number_fits(&outcome);
    let (data, past) = response.split_at(outcome.data);
    assert!(past.iter().all(|&b| b == MARK), "{text} wrote past its data");
    (outcome.word, data.to_vec())
}

/// Runs one command that gives no data and gives its word.
pub fn run_under(image: &mut [u8], text: &str, state: &State) -> Word {
    let (word, data) = ask_under(image, text, state);
    assert_eq!(data, [], "{text} gives no data");
    word
}

/// Runs one command with full sets and no other channel.
pub fn run(image: &mut [u8], text: &str) -> Word {
    run_under(image, text, &State::FULL)
}

/// A CREATE command around the objects of a template.
pub fn create(objects: &str) -> String {
    let objects = bytes(objects);
    let length = objects.len();
    let body = model::lines::hex(&objects);
    format!("00E00000{:02X}62{:02X}{}", length + 2, length, body.replace('-', ""))
}

/// A CREATE of a DF: identifier, total of four bytes, rule.
pub fn create_df(identifier: &str, total: u32, rule: &str) -> String {
    let rule_length = bytes(rule).len();
    create(&format!(
        "82027821 8302{identifier} 8A0105 8C{rule_length:02X}{rule} 8104{total:08X} C60100"
    ))
}

/// A CREATE of a DF with a name.
pub fn create_named(identifier: &str, name: &str, total: u32) -> String {
    let name_length = bytes(name).len();
    create(&format!(
        "82027821 8302{identifier} 84{name_length:02X}{name} \
         8A0105 8C08{OPEN} 8104{total:08X} C60100"
    ))
}

/// A CREATE of a transparent EF: identifier, size of four bytes, rule.
pub fn create_ef(identifier: &str, size: u32, rule: &str) -> String {
    let rule_length = bytes(rule).len();
    create(&format!("82024121 8302{identifier} 8A0105 8C{rule_length:02X}{rule} 8004{size:08X}"))
}

/// A CREATE of an EF with records, open to everything.
pub fn create_records(identifier: &str, descriptor: u8, length: u16, size: u16) -> String {
    create(&format!(
        "8204{descriptor:02X}21{length:04X} 8302{identifier} 8A0105 8C08{OPEN} 8002{size:04X}"
    ))
}

/// A CREATE of a small DF with this rule object.
pub fn create_df_ruled(identifier: &str, rule: &str) -> String {
    create(&format!("82027821 8302{identifier} 8A0105 {rule} 81020100 C60100"))
}

/// A CREATE of a small EF with this rule object.
pub fn create_ef_ruled(identifier: &str, rule: &str) -> String {
    create(&format!("82024121 8302{identifier} 8A0105 {rule} 80020009"))
}

/// An expanded rule of so many bytes, 5 or more, that allows everything: an
/// AM_DO and 90s, one 9E among them where the number is even.
pub fn expanded_of(length: usize) -> String {
    let byte = if length % 2 == 0 { "9E0100" } else { "" };
    let always = (length - 3 - byte.len() / 2) / 2;
    format!("80017F{byte}{}", "9000".repeat(always))
}

/// A data object.
pub fn object(tag: u8, value: &str) -> String {
    format!("{tag:02X}{:02X}{value}", value.replace(' ', "").len() / 2)
}

/// A CREATE of a small DF, open to everything, with this life-cycle byte.
pub fn create_df_with(identifier: &str, life_cycle: u8) -> String {
    create(&format!("82027821 8302{identifier} 8A01{life_cycle:02X} 8C08{OPEN} 81020100 C60100"))
}

/// A CREATE of a small EF, open to everything, with this life-cycle byte.
pub fn create_ef_with(identifier: &str, life_cycle: u8) -> String {
    create(&format!("82024121 8302{identifier} 8A01{life_cycle:02X} 8C08{OPEN} 80020009"))
}

/// SELECT by identifier.
pub fn select(identifier: &str) -> String {
    format!("00A4000C02{identifier}")
}

/// SELECT that wants the template.
pub fn select_fcp(identifier: &str) -> String {
    format!("00A4000402{identifier}00")
}

/// DELETE FILE.
pub fn delete(identifier: &str) -> String {
    format!("00E4000002{identifier}")
}

/// ACTIVATE FILE.
pub const ACTIVATE: &str = "00440000";
/// DEACTIVATE FILE.
pub const DEACTIVATE: &str = "00040000";
/// TERMINATE EF.
pub const TERMINATE_EF: &str = "00E80000";
/// TERMINATE DF.
pub const TERMINATE_DF: &str = "00E60000";
/// TERMINATE CARD USAGE.
pub const TERMINATE_CARD: &str = "00FE0000";
