//! What a subject gives for a line of the vectors.

use std::fmt;

use model::lines::{hex, Case as Line};

use crate::subject::{Subject, Told};

/// Everything that a call gives or leaves.
#[derive(Clone, PartialEq, Eq, Debug)]
pub enum Outcome {
    /// M.
    Make {
        /// 0, 2, 3 or 4.
        answer: u32,
        /// The buffer afterwards.
        buffer: Vec<u8>,
    },
    /// C.
    Command {
        /// Answer, word and numbers.
        told: Told,
        /// The image afterwards.
        image: Vec<u8>,
        /// The pool afterwards.
        pool: Vec<u8>,
        /// The response buffer afterwards.
        response: Vec<u8>,
    },
    /// R, and whether the image is sound.
    Report {
        /// 0 or 1.
        answer: u32,
        /// Total, room, children, files beneath.
        numbers: [u32; 4],
        /// What the call for soundness says.
        sound: bool,
    },
    /// Y.
    Replay {
        /// What is printed.
        output: Vec<u8>,
    },
    /// D.
    Rule {
        /// 0, 1 or 6.
        answer: u32,
        /// Where the rule stands: 0 nowhere, 1 in the image, 2 in the pool; its
        /// first byte there; how many bytes.
        numbers: [u32; 3],
        /// The bytes there; none if they are not all in the buffer.
        rule: Vec<u8>,
    },
}

/// Runs a line; nothing for E and W, for which the card has no call of its
/// own ([`crate::rights`] asks the same by others).
pub fn run(subject: &dyn Subject, line: &Line) -> Option<Outcome> {
    match line {
        Line::Make { buffer, version, total, form, rule } => {
            let mut buffer = buffer.clone();
            let answer = subject.make(&mut buffer, *version, *total, *form, rule);
            Some(Outcome::Make { answer, buffer })
        }
        Line::Command { image, command, state, pool, response } => {
            let [mut image, mut pool, mut response] = [image, pool, response].map(Vec::clone);
            let told = subject.command(&mut image, &mut pool, command, &mut response, state);
            Some(Outcome::Command { told, image, pool, response })
        }
        Line::Report { image } => {
            let (answer, numbers) = subject.report(image);
            Some(Outcome::Report { answer, numbers, sound: subject.sound(image) })
        }
        Line::Replay { input } => Some(Outcome::Replay { output: subject.replay(input) }),
        Line::Deciding { image, pool, slot } => {
            // No image has as many slots, so that all that is larger is past the last.
            let slot = u32::try_from(*slot).unwrap_or(u32::MAX);
            let (answer, numbers) = subject.rule(image, pool, slot);
            let rule = part(image, pool, numbers).unwrap_or_default().to_vec();
            Some(Outcome::Rule { answer, numbers, rule })
        }
        Line::Decide { .. } | Line::Fit { .. } => None,
    }
}

/// The part of image or pool that a rule's three numbers tell; nothing for
/// nowhere, and where it is not all in its buffer.
pub fn part<'a>(image: &'a [u8], pool: &'a [u8], numbers: [u32; 3]) -> Option<&'a [u8]> {
    let [sort, from, length] = numbers.map(|number| usize::try_from(number).ok());
    let (from, length) = (from?, length?);
    let buffer = match sort? {
        1 => image,
        2 => pool,
        _ => return None,
    };
    buffer.get(from..from.checked_add(length)?)
}

impl Outcome {
    /// The result as the vectors write it.
    pub fn result(&self) -> String {
        match self {
            Outcome::Make { answer, buffer } => format!("M {answer} {}", hex(buffer)),
            Outcome::Command { told, image, pool, response } => {
                let Told { answer, word, numbers: [data, security, moved] } = told;
                let (image, pool, response) = (hex(image), hex(pool), hex(response));
                format!("C {answer} {word:04X} {image} {pool} {response} {data} {security} {moved}")
            }
            Outcome::Report { answer, numbers: [total, room, children, beneath], .. } => {
                format!("R {answer} {total} {room} {children} {beneath}")
            }
            Outcome::Replay { output } => format!("Y {}", hex(output)),
            Outcome::Rule { numbers: [sort, from, _], rule, .. } => {
                let sort = match sort {
                    0 => "none".to_string(),
                    1 => "record".to_string(),
                    2 => "pool".to_string(),
                    unknown => unknown.to_string(),
                };
                format!("D {sort} {from} {}", hex(rule))
            }
        }
    }
}

/// The vectors' result, and for a report and a rule what the vectors do not tell.
impl fmt::Display for Outcome {
    fn fmt(&self, f: &mut fmt::Formatter<'_>) -> fmt::Result {
        f.write_str(&self.result())?;
        match self {
            Outcome::Report { sound: true, .. } => f.write_str(" (sound)"),
            Outcome::Report { sound: false, .. } => f.write_str(" (not sound)"),
            Outcome::Rule { answer, numbers: [.., length], .. } => {
                write!(f, " (answer {answer}, {length} bytes)")
            }
            _ => Ok(()),
        }
    }
}
