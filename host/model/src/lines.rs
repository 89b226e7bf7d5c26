//! The line format of the vectors: one case a line, and the result that the
//! model gives for it. Fields are separated by one blank; byte strings are
//! hex, `-` for none; sets and channels are hex numbers, all others decimal.

use crate::bytes::byte;
use crate::deciding::{deciding, Place};
use crate::edition::{Edition, Version};
use crate::rule::{self, Form, Right};
use crate::security::State;
use crate::{command, make, replay, report, Outcome};

/// A case of the vectors, without its result.
#[derive(Clone, PartialEq, Eq, Debug)]
pub enum Case {
    /// M: a call of the maker.
    Make {
        /// The lent buffer.
        buffer: Vec<u8>,
        /// The number of the image version.
        version: u32,
        /// The total.
        total: u32,
        /// The number of the rule's form.
        form: u32,
        /// The root's rule.
        rule: Vec<u8>,
    },
    /// C: one command.
    Command {
        /// The image.
        image: Vec<u8>,
        /// The command.
        command: Vec<u8>,
        /// The caller's state.
        state: State,
        /// The pool; on a card without bodies of any length.
        pool: Vec<u8>,
        /// The lent response buffer.
        response: Vec<u8>,
    },
    /// R: a report.
    Report {
        /// The image.
        image: Vec<u8>,
    },
    /// Y: a run of replay.
    Replay {
        /// Standard input.
        input: Vec<u8>,
    },
    /// E: the seven decisions of one rule.
    Decide {
        /// The number of the rule's form.
        form: u32,
        /// The rule, of any length.
        rule: Vec<u8>,
        /// The caller's state.
        state: State,
    },
    /// W: whether a rule is fit for a record.
    Fit {
        /// The image version.
        version: u32,
        /// The number of the rule's form.
        form: u32,
        /// The rule, of any length.
        rule: Vec<u8>,
    },
    /// D: which rule decides on a file.
    Deciding {
        /// The image.
        image: Vec<u8>,
        /// The pool; on a card without bodies of any length.
        pool: Vec<u8>,
        /// The file's slot.
        slot: usize,
    },
}

impl Case {
    /// A command.
    pub fn command(
        image: &[u8],
        pool: &[u8],
        command: &[u8],
        response: &[u8],
        state: State,
    ) -> Case {
        Case::Command {
            image: image.to_vec(),
            command: command.to_vec(),
            state,
            pool: pool.to_vec(),
            response: response.to_vec(),
        }
    }

    /// Reads a case; nothing if the line is none that this level knows.
    pub fn parse(line: &str) -> Option<Case> {
        let fields: Vec<&str> = line.split(' ').collect();
        match *fields.as_slice() {
            ["M", buffer, total, rule, version, form, "0"] => Some(Case::Make {
                buffer: from_hex(buffer)?,
                version: version.parse().ok()?,
                total: total.parse().ok()?,
                form: form.parse().ok()?,
                rule: from_hex(rule)?,
            }),
            ["C", image, command, messaging, external, user, channels, pool, response] => {
                Some(Case::Command {
                    image: from_hex(image)?,
                    command: from_hex(command)?,
                    state: state(messaging, external, user, channels)?,
                    pool: from_hex(pool)?,
                    response: from_hex(response)?,
                })
            }
            ["R", image] => Some(Case::Report { image: from_hex(image)? }),
            ["Y", input] => Some(Case::Replay { input: from_hex(input)? }),
            ["E", form, rule, messaging, external, user] => Some(Case::Decide {
                form: form.parse().ok()?,
                rule: from_hex(rule)?,
                state: state(messaging, external, user, "0")?,
            }),
            ["W", version, form, rule] => Some(Case::Fit {
                version: version.parse().ok()?,
                form: form.parse().ok()?,
                rule: from_hex(rule)?,
            }),
            ["D", image, pool, slot] => Some(Case::Deciding {
                image: from_hex(image)?,
                pool: from_hex(pool)?,
                slot: slot.parse().ok()?,
            }),
            _ => None,
        }
    }

    /// The case as a line.
    pub fn line(&self) -> String {
        match self {
            Case::Make { buffer, version, total, form, rule } => {
                format!("M {} {total} {} {version} {form} 0", hex(buffer), hex(rule))
            }
            Case::Command { image, command, state, pool, response } => {
                let (image, command) = (hex(image), hex(command));
                let (sets, channels) = (sets(state), state.channels);
                let (pool, response) = (hex(pool), hex(response));
                format!("C {image} {command} {sets} {channels:02X} {pool} {response}")
            }
            Case::Report { image } => format!("R {}", hex(image)),
            Case::Replay { input } => format!("Y {}", hex(input)),
            Case::Decide { form, rule, state } => {
                format!("E {form} {} {}", hex(rule), sets(state))
            }
            Case::Fit { version, form, rule } => format!("W {version} {form} {}", hex(rule)),
            Case::Deciding { image, pool, slot } => {
                format!("D {} {} {slot}", hex(image), hex(pool))
            }
        }
    }

    /// What the model gives, in the format of the vectors' results.
    pub fn result(&self) -> String {
        match self {
            Case::Make { buffer, version, total, form, rule } => {
                let mut buffer = buffer.clone();
                let answer = make(&mut buffer, *version, *total, *form, rule);
                format!("M {answer} {}", hex(&buffer))
            }
            Case::Command { image, command: bytes, state, pool, response } => {
                let [mut image, mut pool, mut response] = [image, pool, response].map(Vec::clone);
                let outcome = command(&mut image, &mut pool, bytes, &mut response, state);
                let Outcome { answer, word, data, security } = outcome;
                let [image, pool, response] = [image, pool, response].map(|bytes| hex(&bytes));
                format!("C {answer} {word:04X} {image} {pool} {response} {data} {security} 0")
            }
            Case::Report { image } => {
                let (answer, [total, room, children, beneath]) = report(image);
                format!("R {answer} {total} {room} {children} {beneath}")
            }
            Case::Replay { input } => format!("Y {}", hex(&replay(input))),
            Case::Decide { form, rule, state } => format!("E {}", decisions(*form, rule, state)),
            Case::Fit { version, form, rule } => {
                format!("W {}", u8::from(fit(*version, *form, rule)))
            }
            Case::Deciding { image, pool, slot } => format!("D {}", place(image, pool, *slot)),
        }
    }
}

/// Seven digits, b7 first: 0 granted, 1 lacking, 2 closed; or `malformed`, which
/// a rule of an unknown form is too. A reference has no card here, so it leads
/// nowhere, and that is closed.
fn decisions(form: u32, rule: &[u8], state: &State) -> String {
    let well_formed = |form: &Form| rule::well_formed(*form, rule);
    let Some(form) = Form::from_number(form).filter(well_formed) else {
        return "malformed".to_string();
    };
    let digit = |right| rule::decide(form, rule, right, state).number().to_string();
    Right::ALL.map(digit).concat()
}

/// Whether a rule of this form may stand in a record of this version.
fn fit(version: u32, form: u32, rule: &[u8]) -> bool {
    match (Version::from_number(version), Form::from_number(form)) {
        (Some(version), Some(form)) => rule::fit(Edition::of(version), form, rule),
        _ => false,
    }
}

/// Record or pool, the offset in image or pool, and the rule. No answer is told:
/// a card that is refused has no deciding rule either.
fn place(image: &[u8], pool: &[u8], slot: usize) -> String {
    let place = deciding(image, pool, slot);
    let (name, from) = match place {
        Place::Nowhere => ("none", 0),
        Place::InImage { from, .. } => ("record", from),
        Place::InPool { from, .. } => ("pool", from),
    };
    format!("{name} {from} {}", hex(place.bytes(image, pool)))
}

fn state(messaging: &str, external: &str, user: &str, channels: &str) -> Option<State> {
    Some(State {
        messaging: u16::from_str_radix(messaging, 16).ok()?,
        external: u16::from_str_radix(external, 16).ok()?,
        user: u16::from_str_radix(user, 16).ok()?,
        channels: u8::from_str_radix(channels, 16).ok()?,
    })
}

fn sets(state: &State) -> String {
    format!("{:04X} {:04X} {:04X}", state.messaging, state.external, state.user)
}

/// Capital hex, `-` for no bytes.
pub fn hex(bytes: &[u8]) -> String {
    if bytes.is_empty() {
        return "-".to_string();
    }
    let digit = |nibble: u8| char::from(byte(b"0123456789ABCDEF", usize::from(nibble)));
    let mut out = String::with_capacity(2 * bytes.len());
    for &b in bytes {
        out.push(digit(b >> 4));
        out.push(digit(b & 0x0F));
    }
    out
}

/// The bytes of a hex string; nothing if it is none.
pub fn from_hex(text: &str) -> Option<Vec<u8>> {
    if text == "-" {
        return Some(Vec::new());
    }
    let digits: Option<Vec<u8>> =
        text.chars().map(|c| c.to_digit(16).and_then(|digit| u8::try_from(digit).ok())).collect();
    let digits = digits?;
    let pairs = digits.chunks_exact(2);
    let whole = pairs.remainder().is_empty() && !digits.is_empty();
    let joined = pairs.map(|pair| (byte(pair, 0) << 4) | byte(pair, 1)).collect();
    whole.then_some(joined)
}
