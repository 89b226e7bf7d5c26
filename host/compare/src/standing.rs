//! Where a deciding rule stands (02, Ticket 7), judged by what stands there and by
//! the card's own commands, without the model's search: the part that is told lies
//! in its buffer, in the file's own record or in the record that the reference
//! names, with nothing but padding behind it; and commands that ask this rule agree.

use card::{pool_length, HEADER_BYTES, RECORD_BYTES};
use cases::actions::bare;
use cases::template::FileData;
use model::deciding::PADDING;
use model::lines::Case as Line;
use model::words::SECURITY_NOT_SATISFIED;
use model::State;

use crate::outcome::{part, Outcome};
use crate::rights::takes;
use crate::subject::{Subject, Told};

/// Where the header tells what is current.
const CURRENT_DF: usize = 7;
const CURRENT_EF: usize = 9;
/// Where a record tells its fields.
const DESCRIPTOR: usize = 1;
const LIFE_CYCLE: usize = 2;
const FORM: usize = 3;
const IDENTIFIER: usize = 4;
const PARENT: usize = 6;
const RECORD_LENGTH: usize = 10;
const SIZE: usize = 14;
const RULE_LENGTH: usize = 33;
const RULE: usize = 34;
const START: usize = 62;
/// Kinds, forms, the structure bits of linear fixed, and a terminated file.
const FREE: u8 = 0;
const DF: u8 = 1;
const EXPANDED: u8 = 1;
const REFERRED: u8 = 2;
const LINEAR_FIXED: u8 = 0b010;
const TERMINATED: u8 = 0x0C;
/// The version with bodies, and the longest rule in a file's own record there.
const VERSION_3: u32 = 3;
const LONGEST: usize = 28;
/// Most directories that are looked at on the way up.
const MOST_SLOTS: usize = card::MOST_SLOTS;

/// What is wrong with where a rule is said to stand, if anything.
pub fn complaint(subject: &dyn Subject, line: &Line, given: &Outcome) -> Option<String> {
    let (Line::Deciding { image, pool, slot }, Outcome::Rule { answer, numbers, rule }) =
        (line, given)
    else {
        return None;
    };
    let wrong_pool = pool_length(image).is_some_and(|length| length != pool.len());
    let wanted = match (subject.sound(image), wrong_pool) {
        (false, _) => 1,
        (true, true) => 6,
        (true, false) => 0,
    };
    if *answer != wanted {
        return Some(format!("answer {answer} where soundness and the pool ask for {wanted}"));
    }
    let asked = Asked { image, pool, slot: *slot };
    match (*answer, numbers) {
        (0, [1, ..]) => asked.own(*numbers).or_else(|| asked.as_if_own(subject, rule)),
        (0, [2, ..]) => asked
            .kept(*numbers)
            .or_else(|| no_rule(subject, rule))
            .or_else(|| asked.as_if_own(subject, rule)),
        (_, [0, 0, 0]) => (*answer == 0).then(|| asked.denies(subject)).flatten(),
        _ => Some(format!("the numbers {numbers:?} with answer {answer}")),
    }
}

/// A file of a sound image, asked for its rule.
struct Asked<'a> {
    image: &'a [u8],
    pool: &'a [u8],
    slot: usize,
}

impl Asked<'_> {
    /// The record in a slot; nothing where the image has none.
    fn record(&self, slot: usize) -> Option<&[u8]> {
        let from = slot.checked_mul(RECORD_BYTES)?.checked_add(HEADER_BYTES)?;
        self.image.get(from..from.checked_add(RECORD_BYTES)?)
    }

    /// What is wrong with a rule in the image: it is the file's own.
    fn own(&self, numbers: [u32; 3]) -> Option<String> {
        let found = self.record(self.slot).and_then(|file| {
            let good = file.first() != Some(&FREE) && file.get(FORM)? != &REFERRED;
            let from = HEADER_BYTES + RECORD_BYTES * self.slot + RULE;
            good.then_some([1, u32::try_from(from).ok()?, u32::from(*file.get(RULE_LENGTH)?)])
        });
        match part(self.image, self.pool, numbers) {
            None => Some("the part is not in the image".to_string()),
            Some(_) if found != Some(numbers) => {
                Some(format!("in the file's own record {found:?} is the rule"))
            }
            Some(_) => None,
        }
    }

    /// What is wrong with a rule in the pool: it begins the record that the
    /// reference names, in the nearest file of that identifier, which is linear
    /// fixed and not the file itself; behind it is padding.
    fn kept(&self, numbers: [u32; 3]) -> Option<String> {
        if part(self.image, self.pool, numbers).is_none() {
            return Some("the part is not in the pool".to_string());
        }
        let Some((from, to)) = self.referred_to() else {
            return Some("the file names no record".to_string());
        };
        let [_, start, length] = numbers.map(|number| number as usize);
        if start != from || length == 0 || start + length > to {
            return Some(format!("the record that is named lies from {from} to {to}"));
        }
        let behind = self.pool.get(start + length..to).unwrap_or_default();
        behind
            .iter()
            .any(|&byte| byte != PADDING)
            .then(|| "other bytes than padding stand behind the rule".to_string())
    }

    /// Where the record lies that the file's reference names.
    fn referred_to(&self) -> Option<(usize, usize)> {
        let file = self.record(self.slot)?;
        let [high, low, number] = *file.get(RULE..RULE + 3)? else { return None };
        let named = |df: u16| {
            let is_it = |slot: &usize| {
                let found = self.record(*slot).unwrap_or_default();
                *slot != 0
                    && found.first().is_some_and(|&kind| kind != FREE)
                    && number16(found, PARENT) == Some(df)
                    && found.get(IDENTIFIER..IDENTIFIER + 2) == Some(&[high, low])
            };
            (0..self.image.len() / RECORD_BYTES).find(is_it)
        };
        let mut df = number16(file, PARENT)?;
        let mut found = named(df);
        for _ in 0..MOST_SLOTS {
            if found.is_some() || df == 0 {
                break;
            }
            df = number16(self.record(df.into())?, PARENT)?;
            found = named(df);
        }
        let found = found.filter(|&slot| slot != self.slot)?;
        let rules = self.record(found)?;
        let good = file.get(FORM) == Some(&REFERRED)
            && rules.first() != Some(&DF)
            && rules.get(DESCRIPTOR)? & 0b111 == LINEAR_FIXED;
        let length = usize::from(number16(rules, RECORD_LENGTH)?);
        let before = length * usize::from(number).checked_sub(1)?;
        let start = usize::from(number16(rules, START)?) + before;
        let inside = before + length <= usize::from(number16(rules, SIZE)?);
        (good && inside).then_some((start, start + length))
    }

    /// The shortest rule with only padding behind it in the record that the
    /// reference names, as far as the card's own maker can judge rules.
    fn rule_there(&self, subject: &dyn Subject) -> Option<&[u8]> {
        let (from, to) = self.referred_to()?;
        let record = self.pool.get(from..to)?;
        let padding = record.iter().rev().take_while(|&&byte| byte == PADDING).count();
        let shortest = (record.len() - padding).max(1);
        let rules = (shortest..=record.len().min(LONGEST)).filter_map(|end| record.get(..end));
        rules.into_iter().find(|rule| no_rule(subject, rule).is_none())
    }

    /// What is wrong where no rule decides: none stands where one is looked for,
    /// and whatever asks it under full sets is refused for good. On a terminated
    /// card nothing is asked.
    fn denies(&self, subject: &dyn Subject) -> Option<String> {
        let file = self.record(self.slot).filter(|file| file.first() != Some(&FREE))?;
        if let Some(rule) = self.rule_there(subject) {
            return Some(format!("in the record that is named stands the rule {rule:02X?}"));
        }
        self.record(0).filter(|root| root.get(LIFE_CYCLE) != Some(&TERMINATED))?;
        let image = self.made_current(file)?;
        let closed = Told { answer: 0, word: SECURITY_NOT_SATISFIED, numbers: [0, 2, 0] };
        asking(file, self.slot).into_iter().find_map(|command| {
            let told = self.told(subject, &image, &command, &State::FULL);
            (told != closed)
                .then(|| format!("it stands nowhere, and {command:02X?} is told {told:04X?}"))
        })
    }

    /// What is wrong where a rule was found: in the file's own record it decides
    /// the same, if it can stand there.
    fn as_if_own(&self, subject: &dyn Subject, rule: &[u8]) -> Option<String> {
        let file = self.record(self.slot).filter(|file| file.get(FORM) == Some(&REFERRED))?;
        let image = self.made_current(file).filter(|_| rule.len() <= LONGEST)?;
        let mut twin = image.clone();
        let at = HEADER_BYTES + RECORD_BYTES * self.slot;
        *twin.get_mut(at + FORM)? = EXPANDED;
        *twin.get_mut(at + RULE_LENGTH)? = rule.len() as u8;
        twin.get_mut(at + RULE..at + RULE + LONGEST)?.fill(0);
        twin.get_mut(at + RULE..at + RULE + rule.len())?.copy_from_slice(rule);
        asking(file, self.slot).into_iter().find_map(|command| {
            [State::FULL, State::EMPTY].iter().find_map(|state| {
                let [kept, own] =
                    [&image, &twin].map(|image| self.told(subject, image, &command, state));
                (kept != own).then(|| {
                    format!(
                        "{command:02X?} is told {kept:04X?}, with the rule as its own {own:04X?}"
                    )
                })
            })
        })
    }

    /// The image with the file current, in its directory.
    fn made_current(&self, file: &[u8]) -> Option<Vec<u8>> {
        let own = u16::try_from(self.slot).ok()?;
        let (df, ef) = match file.first() {
            Some(&DF) => (own, u16::MAX),
            _ => (number16(file, PARENT)?, own),
        };
        let mut image = self.image.to_vec();
        image.get_mut(CURRENT_DF..CURRENT_DF + 2)?.copy_from_slice(&df.to_be_bytes());
        image.get_mut(CURRENT_EF..CURRENT_EF + 2)?.copy_from_slice(&ef.to_be_bytes());
        Some(image)
    }

    /// What a subject tells of a command, with a response long enough.
    fn told(&self, subject: &dyn Subject, image: &[u8], command: &[u8], state: &State) -> Told {
        let (mut image, mut pool) = (image.to_vec(), self.pool.to_vec());
        let mut response = [0; card::LONGEST_RESPONSE];
        subject.command(&mut image, &mut pool, command, &mut response, state)
    }
}

/// What the card's own maker has against an expanded rule that is no longer than
/// the longest in a file's own record.
fn no_rule(subject: &dyn Subject, rule: &[u8]) -> Option<String> {
    let known = rule.len() > LONGEST || takes(subject, VERSION_3, EXPANDED.into(), rule);
    (!known).then(|| "the maker does not take it for a rule".to_string())
}

/// Commands that ask the rule of the current file, and no other.
fn asking(file: &[u8], slot: usize) -> Vec<Vec<u8>> {
    let mut all = vec![bare(0x04), bare(0x44)];
    match (file.first(), slot) {
        (Some(&DF), _) => {
            all.push(bare(if slot == 0 { 0xFE } else { 0xE6 }));
            all.push(FileData::plain(0x41, 0x5555, 1).command());
            all.push(FileData::plain(0x78, 0x5555, 1).command());
        }
        _ => {
            all.push(bare(0xE8));
            all.push(vec![0x00, 0xB0, 0x00, 0x00, 0x01]);
            all.push(vec![0x00, 0xDC, 0x01, 0x04, 0x01, 0x5A]);
        }
    }
    all
}

fn number16(bytes: &[u8], at: usize) -> Option<u16> {
    bytes.get(at..at + 2)?.try_into().map(u16::from_be_bytes).ok()
}
