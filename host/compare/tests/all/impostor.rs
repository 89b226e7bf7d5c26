//! The model with something spoilt, and how it is found.

use cases::{Generator, Kind};
use compare::shrink::smallest;
use compare::{check_case, Disagreement, Model, Pair, Subject, Tally, Told};
use model::lines::Case as Line;
use model::vectors::case_lines;
use model::State;

/// How many cases are tried: of a card that may be right, and of one that is
/// wrong, where most often the first few will do.
const CASES: usize = 1500;
const MOST_CASES: usize = 6000;

/// Tag and value.
pub type Object = (u8, Vec<u8>);

/// What a command came with.
pub struct Came<'a> {
    pub image: &'a [u8],
    pub pool: &'a [u8],
    pub command: &'a [u8],
    pub response: &'a [u8],
    pub state: &'a State,
}

/// What the right card left, to be spoilt.
pub struct Left<'a> {
    pub image: &'a mut [u8],
    pub pool: &'a mut [u8],
    pub response: &'a mut [u8],
}

impl Came<'_> {
    /// What the right card gives for another command, with everything that it
    /// leaves.
    pub fn given(&self, command: &[u8]) -> After {
        self.given_on(self.image, command)
    }

    /// The same on another image.
    pub fn given_on(&self, image: &[u8], command: &[u8]) -> After {
        let [mut image, mut pool] = [image, self.pool].map(<[u8]>::to_vec);
        let mut response = self.response.to_vec();
        let told = Model.command(&mut image, &mut pool, command, &mut response, self.state);
        After { told, image, pool, response }
    }
}

/// What a command left, and what it told.
pub struct After {
    pub told: Told,
    pub image: Vec<u8>,
    pub pool: Vec<u8>,
    pub response: Vec<u8>,
}

impl Left<'_> {
    /// Everything as it came.
    pub fn restore(&mut self, came: &Came) {
        self.image.copy_from_slice(came.image);
        self.pool.copy_from_slice(came.pool);
        self.response.copy_from_slice(came.response);
    }

    /// What another command left; gives what it told.
    pub fn replace(&mut self, other: &After) -> Told {
        self.image.copy_from_slice(&other.image);
        self.pool.copy_from_slice(&other.pool);
        self.response.copy_from_slice(&other.response);
        other.told
    }
}

/// What a wrong card does after the right one has answered.
pub type Spoil = fn(&Came, &mut Left, Told) -> Told;

/// The model with something spoilt.
pub struct Impostor {
    pub command: Spoil,
    pub report: fn([u32; 4]) -> [u32; 4],
    pub rule: Retell,
    pub sound: fn(bool) -> bool,
    pub make: fn(&mut [u8]),
}

/// What a card was asked where a rule stands.
pub struct Sought<'a> {
    pub image: &'a [u8],
    pub pool: &'a [u8],
    pub slot: u32,
}

/// The answer where a rule stands, and its three numbers.
pub type Stands = (u32, [u32; 3]);

/// What a wrong card says where a rule stands after the right one has answered.
pub type Retell = fn(&Sought, Stands) -> Stands;

pub const HONEST: Impostor = Impostor {
    command: |_, _, told| told,
    report: |n| n,
    rule: |_, stands| stands,
    sound: |s| s,
    make: |_| {},
};

impl Subject for Impostor {
    fn make(&self, buffer: &mut [u8], version: u32, total: u32, form: u32, rule: &[u8]) -> u32 {
        let answer = Model.make(buffer, version, total, form, rule);
        (self.make)(buffer);
        answer
    }

    fn command(
        &self,
        image: &mut [u8],
        pool: &mut [u8],
        command: &[u8],
        response: &mut [u8],
        state: &State,
    ) -> Told {
        let [before, held, lent] = [&*image, &*pool, &*response].map(<[u8]>::to_vec);
        let told = Model.command(image, pool, command, response, state);
        let came = Came { image: &before, pool: &held, command, response: &lent, state };
        (self.command)(&came, &mut Left { image, pool, response }, told)
    }

    fn report(&self, image: &[u8]) -> (u32, [u32; 4]) {
        let (answer, numbers) = Model.report(image);
        (answer, (self.report)(numbers))
    }

    fn rule(&self, image: &[u8], pool: &[u8], slot: u32) -> Stands {
        (self.rule)(&Sought { image, pool, slot }, Model.rule(image, pool, slot))
    }

    fn sound(&self, image: &[u8]) -> bool {
        (self.sound)(Model.sound(image))
    }
}

/// The model with a maker that is told another version or form.
pub struct Maker(pub fn(u32, u32) -> (u32, u32));

impl Subject for Maker {
    fn make(&self, buffer: &mut [u8], version: u32, total: u32, form: u32, rule: &[u8]) -> u32 {
        let (version, form) = (self.0)(version, form);
        Model.make(buffer, version, total, form, rule)
    }

    fn command(
        &self,
        image: &mut [u8],
        pool: &mut [u8],
        command: &[u8],
        response: &mut [u8],
        state: &State,
    ) -> Told {
        Model.command(image, pool, command, response, state)
    }

    fn report(&self, image: &[u8]) -> (u32, [u32; 4]) {
        Model.report(image)
    }

    fn rule(&self, image: &[u8], pool: &[u8], slot: u32) -> Stands {
        Model.rule(image, pool, slot)
    }

    fn sound(&self, image: &[u8]) -> bool {
        Model.sound(image)
    }
}

/// A word and nothing else.
pub fn word(word: u16) -> Told {
    Told { answer: 0, word, numbers: [0; 3] }
}

/// The smallest disagreement that the first cases of a seed show.
pub fn found(pair: Pair, kind: Option<Kind>) -> Option<Disagreement> {
    found_among(CASES, pair, kind)
}

pub fn found_among(count: usize, pair: Pair, kind: Option<Kind>) -> Option<Disagreement> {
    let all = kind.map_or(Generator::new(9), |kind| Generator::only(9, kind));
    let mut tally = Tally::default();
    let first = all.take(count).find_map(|made| check_case(pair, &made.case, &mut tally).err())?;
    Some(smallest(pair, first))
}

/// The line that shows an impostor with this title. What is told of it can be
/// read again.
pub fn found_line(title: &str, impostor: &Impostor, kind: Option<Kind>) -> Line {
    found_line_among(MOST_CASES, title, impostor, kind)
}

pub fn found_line_among(count: usize, title: &str, card: &dyn Subject, kind: Option<Kind>) -> Line {
    let pair = Pair { card, model: &Model };
    let found = found_among(count, pair, kind);
    let found = found.unwrap_or_else(|| panic!("not found in {count}: {title}, {kind:?}"));
    let told = found.to_string();
    let again: Vec<_> = case_lines(&told).map(Line::parse).collect();
    match found {
        Disagreement::Line { line, .. } => {
            assert_eq!(again, [Some(*line.clone())], "{told}");
            *line
        }
        other => panic!("not one line: {other}"),
    }
}

/// The most bytes of a small card: a file, another that keeps its rule, and a
/// directory, whose bodies and totals pay for a slot or two more.
const SMALL: usize = 16 + 64 * 6;

/// A wrong command is found among all kinds of cases, and told on a small card.
pub fn found_small(title: &str, command: Spoil) {
    found_small_within(MOST_CASES, title, command);
}

/// The same within the first so many cases.
pub fn found_small_within(count: usize, title: &str, command: Spoil) {
    let line = found_line_among(count, title, &Impostor { command, ..HONEST }, None);
    let small = match &line {
        Line::Command { response, image, .. } => image.len() <= SMALL && response.len() <= 72,
        Line::Replay { input } => input.len() < 40,
        _ => false,
    };
    assert!(small, "{title}: {}", line.line());
}

/// It is found among cases of a kind, and told on a card of at most so many
/// slots.
pub fn found_small_in(title: &str, command: Spoil, kind: Kind, slots: usize) {
    let line = found_line(title, &Impostor { command, ..HONEST }, Some(kind));
    let Line::Command { image, pool, .. } = &line else { panic!("{title}: {}", line.line()) };
    let small = image.len() <= 16 + 64 * slots && pool.len() <= 64 * slots;
    assert!(small, "{title}: {} bytes: {}", image.len(), line.line());
}

/// Answer 5, with everything as it came.
pub fn too_short(came: &Came, left: &mut Left) -> Told {
    left.restore(came);
    Told { answer: 5, word: 0, numbers: [0; 3] }
}

/// The objects of a template.
fn objects_of(template: &[u8]) -> Vec<Object> {
    let mut left = &template[2..];
    let mut objects = Vec::new();
    while let [tag, length, ..] = *left {
        let (object, after) = left.split_at(2 + usize::from(length));
        objects.push((tag, object[2..].to_vec()));
        left = after;
    }
    objects
}

/// The template that the right card gave with its objects changed; answer 5
/// where the buffer is too short for that.
pub fn respelled(
    came: &Came,
    left: &mut Left,
    told: Told,
    change: impl Fn(&mut Vec<Object>),
) -> Told {
    let data = told.numbers[0] as usize;
    if data == 0 || came.command.get(1) != Some(&0xA4) {
        return told;
    }
    let mut objects = objects_of(&left.response[..data]);
    change(&mut objects);
    let new = cases::template::template(&objects);
    if new.len() > left.response.len() {
        return too_short(came, left);
    }
    left.response.copy_from_slice(came.response);
    left.response[..new.len()].copy_from_slice(&new);
    Told { numbers: [new.len() as u32, 0, 0], ..told }
}

/// The same object with another value.
pub fn with_value(objects: &mut [Object], tag: u8, change: impl Fn(&mut Vec<u8>)) {
    objects.iter_mut().filter(|(is, _)| *is == tag).for_each(|(_, value)| change(value));
}
