//! The words behind the verb: options, none twice, and names of files.

use std::ffi::OsString;
use std::path::PathBuf;

use card::{largest_total, Kind, Rule, State};

use super::Fresh;
use crate::{hex, rule};

/// The card that is made where nothing is said.
const DEFAULT_KIND: Kind = Kind::VERSION_3;
const DEFAULT_SLOTS: usize = 64;

/// What has no value behind it.
const FORCE: &str = "--force";

/// The options as they are written, none twice.
#[derive(Default)]
pub struct Options {
    given: Vec<(String, OsString)>,
    files: Vec<PathBuf>,
    pub force: bool,
}

impl Options {
    pub fn read(words: &[OsString], known: &[&[&str]]) -> Result<Options, String> {
        let mut options = Options::default();
        let mut words = words.iter();
        while let Some(word) = words.next() {
            let name = word.to_string_lossy().into_owned();
            if name == "--" {
                options.files.extend(words.by_ref().map(PathBuf::from));
            } else if !name.starts_with("--") {
                options.files.push(PathBuf::from(word));
            } else if !known.concat().contains(&name.as_str()) {
                return Err(format!("{name} is no option here"));
            } else if name == FORCE {
                options.force = true;
            } else if options.given.iter().any(|(other, _)| *other == name) {
                return Err(format!("{name} is given twice"));
            } else {
                let value = words.next().ok_or_else(|| format!("{name} needs a value"))?;
                options.given.push((name, value.clone()));
            }
        }
        Ok(options)
    }

    /// The files that are named, as many as there are words for them.
    pub fn files<const MANY: usize>(
        &mut self,
        what: [&str; MANY],
    ) -> Result<[PathBuf; MANY], String> {
        let files = std::mem::take(&mut self.files);
        let many = files.len();
        files.try_into().map_err(|_| match what.get(many) {
            Some(missing) => format!("name {missing}"),
            None if MANY == 1 => format!("name {}, and only one", what.concat()),
            None => format!("name {}, and nothing more", what.join(", ")),
        })
    }

    /// The bytes of all words that are no options; blanks between them do not
    /// matter.
    pub fn all_hex(&self) -> Result<Vec<u8>, String> {
        if self.files.is_empty() {
            return Err("give a RULE in hex".to_string());
        }
        let words: Vec<_> = self.files.iter().map(|word| word.to_string_lossy()).collect();
        let text = words.join(" ");
        hex::bytes(&text).map_err(|wrong| format!("{text}: sign {}: {}", wrong.column, wrong.what))
    }

    pub fn first_of(&self, names: &[&str]) -> Option<&str> {
        self.given.iter().map(|(name, _)| name.as_str()).find(|name| names.contains(name))
    }

    pub fn take(&mut self, name: &str) -> Option<OsString> {
        let place = self.given.iter().position(|(given, _)| given == name)?;
        Some(self.given.swap_remove(place).1)
    }

    /// A value read in some way, if it is given.
    pub fn given<T>(
        &mut self,
        name: &str,
        what: &str,
        read: impl Fn(&str) -> Option<T>,
    ) -> Result<Option<T>, String> {
        let Some(value) = self.take(name) else { return Ok(None) };
        let text = value.to_string_lossy();
        let value = read(&text).ok_or_else(|| format!("{name} {text}: this is not {what}"))?;
        Ok(Some(value))
    }

    pub fn fresh(&mut self) -> Result<Fresh, String> {
        let version = |text: &str| text.parse().ok().map(Kind::of_version);
        let kind = self.given("--version", "a version, 1, 2 or 3", version)?;
        let number = |text: &str| text.parse().ok();
        let slots = self.given("--slots", "a number", number)?.unwrap_or(DEFAULT_SLOTS);
        let total = |text: &str| text.parse().ok();
        let total = self.given("--total", "a number of bytes", total)?;
        let rule = |text: &str| hex::bytes(text).ok();
        let rule = self.given("--rule", "a row of hex bytes", rule)?;
        let rule = rule.unwrap_or_else(|| Rule::OPEN.bytes.to_vec());
        let rule = rule::read(&rule).map_err(|wrong| format!("--rule: {wrong}"))?;
        let (kind, total) = (kind.unwrap_or(DEFAULT_KIND), total.unwrap_or(largest_total(slots)));
        Ok(Fresh { kind, slots, total, rule })
    }

    pub fn state(&mut self) -> Result<State, String> {
        let full = State::FULL;
        let mut set = |name: &str, otherwise: u16| {
            let read = |text: &str| u16::from_str_radix(text, 16).ok();
            let set = self.given(name, "a hex number of 16 bits", read)?;
            Ok::<u16, String>(set.unwrap_or(otherwise))
        };
        let messaging = set("--messaging", full.messaging)?;
        let external = set("--external", full.external)?;
        let user = set("--user", full.user)?;
        let channels = |text: &str| u8::from_str_radix(text, 16).ok();
        let channels = self.given("--channels", "a hex number of 8 bits", channels)?;
        Ok(State { messaging, external, user, channels: channels.unwrap_or(full.channels) })
    }
}
