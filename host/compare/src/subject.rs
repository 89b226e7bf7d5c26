//! Who can be compared: whatever offers the calls of 01 with their numbers.

use model::deciding::{place_of, Place};
use model::replay::{MOST_BYTES, ROOT_RULE};
use model::{fcp, State};

/// What a command gives beside image, pool and response buffer.
#[derive(Clone, Copy, PartialEq, Eq, Debug)]
pub struct Told {
    /// The answer.
    pub answer: u32,
    /// The word; 0000 with any answer but 0.
    pub word: u16,
    /// How many bytes of data stand in the response buffer; what a security
    /// refusal lacks (02, Ticket 6): 0 there is none, 1 lacking, 2 closed; and a
    /// number of a later ticket, which is 0.
    pub numbers: [u32; 3],
}

/// The calls of 01 with their numbers as the documents give them.
pub trait Subject {
    /// The maker's answer; version and form as the numbers that it is told.
    fn make(&self, buffer: &mut [u8], version: u32, total: u32, form: u32, rule: &[u8]) -> u32;

    /// A command's answer, word and numbers.
    fn command(
        &self,
        image: &mut [u8],
        pool: &mut [u8],
        command: &[u8],
        response: &mut [u8],
        state: &State,
    ) -> Told;

    /// The report's answer and numbers.
    fn report(&self, image: &[u8]) -> (u32, [u32; 4]);

    /// Where the rule stands that decides on the file in a slot (02, Ticket 7): the
    /// answer; 0 nowhere, 1 in the image or 2 in the pool, its first byte there, and
    /// how many bytes it has.
    fn rule(&self, image: &[u8], pool: &[u8], slot: u32) -> (u32, [u32; 3]);

    /// Whether the image is sound.
    fn sound(&self, image: &[u8]) -> bool;

    /// What replay prints for an input, by the calls above.
    fn replay(&self, input: &[u8]) -> Vec<u8> {
        if input.len() > MOST_BYTES {
            return b"BIG\n".to_vec();
        }
        match self.fresh_for(input) {
            Some((mut image, stream)) => self.play(&mut image, stream).into_bytes(),
            None => b"BAD\n".to_vec(),
        }
    }

    /// The card that a stream's header asks for, and the commands.
    fn fresh_for<'a>(&self, input: &'a [u8]) -> Option<(Vec<u8>, &'a [u8])> {
        let (header, stream) = input.split_first_chunk::<11>()?;
        let [b'U', b'F', b'S', 0, 1, n1, n0, t3, t2, t1, t0] = *header else {
            return None;
        };
        let slots = usize::from(u16::from_be_bytes([n1, n0]));
        let mut image = vec![0xA5; 16 + 64 * slots];
        let total = u32::from_be_bytes([t3, t2, t1, t0]);
        let answer = self.make(&mut image, 1, total, 0, &ROOT_RULE);
        (answer == 0).then_some((image, stream))
    }

    /// The words of a stream's commands, a line each. The response buffer is
    /// long enough for every template; such a card needs no pool.
    fn play(&self, image: &mut [u8], mut stream: &[u8]) -> String {
        let mut response = [0; fcp::MOST_BYTES];
        let mut words = String::new();
        while !stream.is_empty() {
            let cut = stream.split_first_chunk::<2>().and_then(|(length, left)| {
                left.split_at_checked(usize::from(u16::from_be_bytes(*length)))
            });
            let Some((command, left)) = cut else {
                return words + "CUT\n";
            };
            let told = self.command(image, &mut [], command, &mut response, &State::FULL);
            words += &format!("{:04X}\n", told.word);
            stream = left;
        }
        words
    }
}

/// The proved card, by the library's bare numbers.
pub struct Proved;

impl Subject for Proved {
    fn make(&self, buffer: &mut [u8], version: u32, total: u32, form: u32, rule: &[u8]) -> u32 {
        card::ffi::make(buffer, version, total, form, rule)
    }

    fn command(
        &self,
        image: &mut [u8],
        pool: &mut [u8],
        command: &[u8],
        response: &mut [u8],
        state: &State,
    ) -> Told {
        let sets = [state.messaging, state.external, state.user];
        let channels = state.channels;
        let (both, numbers) = card::ffi::command(image, pool, command, response, sets, channels);
        Told { answer: both >> 16, word: both as u16, numbers }
    }

    fn report(&self, image: &[u8]) -> (u32, [u32; 4]) {
        card::ffi::report(image)
    }

    fn rule(&self, image: &[u8], pool: &[u8], slot: u32) -> (u32, [u32; 3]) {
        card::ffi::rule(image, pool, slot)
    }

    fn sound(&self, image: &[u8]) -> bool {
        card::ffi::sound(image) == 1
    }
}

/// The model.
pub struct Model;

impl Subject for Model {
    fn make(&self, buffer: &mut [u8], version: u32, total: u32, form: u32, rule: &[u8]) -> u32 {
        u32::from(model::make(buffer, version, total, form, rule))
    }

    fn command(
        &self,
        image: &mut [u8],
        pool: &mut [u8],
        command: &[u8],
        response: &mut [u8],
        state: &State,
    ) -> Told {
        let outcome = model::command(image, pool, command, response, state);
        let data = u32::try_from(outcome.data).unwrap_or(u32::MAX);
        let numbers = [data, outcome.security.into(), 0];
        Told { answer: outcome.answer.into(), word: outcome.word, numbers }
    }

    fn report(&self, image: &[u8]) -> (u32, [u32; 4]) {
        let (answer, numbers) = model::report(image);
        (u32::from(answer), numbers)
    }

    fn rule(&self, image: &[u8], pool: &[u8], slot: u32) -> (u32, [u32; 3]) {
        let (answer, place) = place_of(image, pool, slot as usize);
        let numbers = match place {
            Place::Nowhere => [0; 3],
            Place::InImage { from, to } => [1, from as u32, (to - from) as u32],
            Place::InPool { from, to } => [2, from as u32, (to - from) as u32],
        };
        (answer, numbers)
    }

    fn sound(&self, image: &[u8]) -> bool {
        model::sound(image)
    }

    fn replay(&self, input: &[u8]) -> Vec<u8> {
        model::replay(input)
    }
}

/// The two that are compared: the card in question and what it is held
/// against.
#[derive(Clone, Copy)]
pub struct Pair<'a> {
    /// The card in question.
    pub card: &'a dyn Subject,
    /// What it is held against.
    pub model: &'a dyn Subject,
}

impl Pair<'static> {
    /// The proved card against the model.
    pub const PROVED: Pair<'static> = Pair { card: &Proved, model: &Model };
}
