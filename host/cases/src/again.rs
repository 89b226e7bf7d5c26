//! Files made again by their templates (02, Ticket 2): "the template (with a
//! C6 after 81 for a DF) must create the same record again on another card ...
//! but for parent, level, slot and, later, start". One by one, each on a card of
//! its own, or a whole tree on a card of the same measures.
//!
//! Here is what is asked of a card, call by call; whoever plays a case makes
//! the calls, and judges what was made.

use std::convert::Infallible;

use model::edition::Edition;
use model::lines::Case as Line;
use model::record::RECORD_BYTES;
use model::rule::{self, Right};
use model::soundness::sound_card;
use model::words::{Word, SUCCESS};
use model::{life_cycle, Card, State};

use crate::actions::{select, select_fcp};
use crate::images;
use crate::random::Random;
use crate::target::Target;
use crate::template::create_command;
use crate::{editions, life_cycles, pools, rule_files, rules};

/// A card of more slots is large, and only so many of its files are made again
/// one by one, so that it takes no longer than many small ones.
const LARGE_CARD: usize = 160;
const MOST_FILES_OF_A_LARGE_CARD: usize = 12;
/// Long enough for every template.
const RESPONSE: [u8; 72] = [0x5A; 72];
/// Where the start of a body stands in a record.
const START_AT: usize = 62;

/// Files of a card to be made again.
#[derive(Clone, PartialEq, Eq, Debug)]
pub struct Again {
    /// The card that holds them.
    pub image: Vec<u8>,
    /// What is left to chance, the cards on which they are made.
    pub seed: u64,
    /// The whole tree on one card; else each file on a card of its own.
    pub whole: bool,
}

/// What a call left.
#[derive(Clone, PartialEq, Eq, Debug)]
pub struct Left {
    /// The word; 0000 with another answer than 0, and for the maker.
    pub word: Word,
    /// The image.
    pub image: Vec<u8>,
    /// The pool; none for the maker.
    pub pool: Vec<u8>,
    /// The data, without what stands behind them in the response buffer.
    pub data: Vec<u8>,
}

/// Makes a call: of the maker, or of a command.
pub type Call<'a, E> = &'a mut dyn FnMut(&Line) -> Result<Left, E>;

/// A file, and what its template made.
#[derive(Clone, PartialEq, Eq, Debug)]
pub struct Remade {
    /// The file's record.
    pub old: Vec<u8>,
    /// The record in the lowest free slot of the other card, at the end.
    pub new: Vec<u8>,
    /// The template.
    pub template: Vec<u8>,
    /// The word of CREATE.
    pub word: Word,
    /// Slot and level of the directory in which it was made.
    pub directory: (u16, u16),
    /// Whether it has a body on one of the cards: the start may be another.
    pub with_body: bool,
}

/// All files that were made again, and how many were not.
#[derive(Clone, PartialEq, Eq, Debug, Default)]
pub struct Played {
    /// Those that were.
    pub remade: Vec<Remade>,
    /// Those that are terminated, or stand on a terminated card.
    pub terminated: usize,
    /// Those passed over, because a large card has many, or because the tree is
    /// none that can be made again as a whole.
    pub passed: usize,
}

impl Remade {
    /// What is wrong with what was made, if anything: the record must be the
    /// file's but for parent, level and start.
    pub fn complaint(&self) -> Option<String> {
        let (parent, level) = self.directory;
        let mut wanted = self.old.clone();
        if let Some(place) = wanted.get_mut(6..10) {
            let [parent, level] = [parent, level.wrapping_add(1)].map(u16::to_be_bytes);
            place.copy_from_slice(&[parent, level].concat());
        }
        if self.with_body {
            wanted.truncate(START_AT);
            wanted.extend(self.new.get(START_AT..).unwrap_or_default());
        }
        if self.word != SUCCESS {
            return Some(format!("CREATE by the template gives {:04X}", self.word));
        }
        let differs = (0..RECORD_BYTES).find(|&at| wanted.get(at) != self.new.get(at));
        differs.map(|at| format!("byte {at} of the record made again is another"))
    }
}

impl Again {
    /// Files one by one; now and then large ones, or many with references.
    pub fn files(random: &mut Random) -> Again {
        let card = match random.below(25) {
            0 => images::sparse_card(random),
            1..=3 => rule_files::kept(random).card,
            _ => images::sound_card(random),
        };
        Again { image: card.encode(), seed: random.number(), whole: false }
    }

    /// A whole tree. The card is made such that it can be: nothing in it is
    /// terminated, and each directory that holds files takes files.
    pub fn tree(random: &mut Random) -> Again {
        let slots = if random.chance(90) { random.range(4, 40) } else { random.range(41, 120) };
        let mut card = images::sound_card_of(random, slots as usize);
        let used: Vec<_> = card.used_slots().collect();
        for slot in used {
            let mut record = card.record(slot).clone();
            let holds_files = card.children(slot).next().is_some();
            if holds_files && !takes_files(&card, slot) {
                record.life_cycle = life_cycles::of_an_activated_file(random);
                let rule = rules::some_open(random, card.edition);
                (record.form, record.rule) = (rule.form, rule.bytes);
            } else if life_cycle::is_terminated(record.life_cycle) {
                record.life_cycle = life_cycles::of_a_new_file(random);
            }
            card.put(slot, record);
        }
        Again { image: card.encode(), seed: random.number(), whole: true }
    }

    /// The lines of all calls, as the model makes them.
    pub fn lines(&self) -> Vec<Line> {
        let mut lines = Vec::new();
        let played = self.play::<Infallible>(&mut |line| {
            lines.push(line.clone());
            Ok(by_model(line))
        });
        match played {
            Ok(_) => lines,
            Err(never) => match never {},
        }
    }

    /// Makes the files again by these calls.
    pub fn play<E>(&self, call: Call<E>) -> Result<Played, E> {
        let Some(card) = sound_card(&self.image) else { return Ok(Played::default()) };
        if self.whole {
            crate::regrown::play(self, &card, call)
        } else {
            self.play_files(&card, call)
        }
    }

    /// Each file on a card of its own.
    fn play_files<E>(&self, card: &Card, call: Call<E>) -> Result<Played, E> {
        let files = card.used_slots().filter(|&slot| slot != 0);
        let terminated = |&slot: &usize| card.is_terminated(0) || card.is_terminated(slot);
        let (out, mut chosen): (Vec<_>, Vec<_>) = files.partition(terminated);
        let mut random = Random::new(self.seed);
        let large = card.records.len() > LARGE_CARD;
        let mut played = Played { terminated: out.len(), ..Played::default() };
        while large && chosen.len() > MOST_FILES_OF_A_LARGE_CARD {
            chosen.swap_remove(random.below(chosen.len()));
            played.passed += 1;
        }
        for slot in chosen {
            let mut random = Random::for_case(self.seed, slot as u64);
            played.remade.push(self.file_again(&mut random, card, slot, call)?);
        }
        Ok(played)
    }

    /// One file on a card of its own, made for it.
    fn file_again<E>(
        &self,
        random: &mut Random,
        card: &Card,
        slot: usize,
        call: Call<E>,
    ) -> Result<Remade, E> {
        let mut own = Session::of(self.seed, self.image.clone(), State::EMPTY);
        for df in card.above(slot).into_iter().rev() {
            own.command(call, &select(card.record(df).identifier))?;
        }
        let file = card.record(slot);
        let template = own.command(call, &select_fcp(file.identifier))?.data;
        let edition = another_edition(random, card, slot);
        let target = Target::for_file(random, edition, file);
        let mut other = Session::of(self.seed, call(&target.make())?.image, target.state);
        for command in &target.commands {
            other.command(call, command)?;
        }
        let word = other.create(random, call, &template, file.is_df())?;
        Ok(Remade {
            old: record_of(&self.image, slot),
            new: record_of(&other.image, usize::from(target.directory.0) + 1),
            template,
            word,
            directory: target.directory,
            with_body: file.is_ef() && (card.edition.has_bodies() || edition.has_bodies()),
        })
    }
}

/// The edition of the card on which a file is made again: that of its own, as
/// the ticket says, and at times another for which its rule is fit as well.
fn another_edition(random: &mut Random, card: &Card, slot: usize) -> Edition {
    let (other, file) = (editions::any(random), card.record(slot));
    if random.chance(20) && rule::fit(other, file.form, &file.rule) {
        other
    } else {
        card.edition
    }
}

/// A card that is given commands under one state.
pub(crate) struct Session {
    pub(crate) image: Vec<u8>,
    pool: Vec<u8>,
    state: State,
}

impl Session {
    /// A card with a pool of a right length, which goes by the seed.
    pub(crate) fn of(seed: u64, image: Vec<u8>, state: State) -> Session {
        let pool = pools::right(&mut Random::new(seed), &image);
        Session { image, pool, state }
    }

    pub(crate) fn command<E>(&mut self, call: Call<E>, bytes: &[u8]) -> Result<Left, E> {
        let left = call(&Line::command(&self.image, &self.pool, bytes, &RESPONSE, self.state))?;
        self.image.clone_from(&left.image);
        self.pool.clone_from(&left.pool);
        Ok(left)
    }

    /// CREATE by a template, in which a directory gets a C6 behind all else.
    pub(crate) fn create<E>(
        &mut self,
        random: &mut Random,
        call: Call<E>,
        template: &[u8],
        is_df: bool,
    ) -> Result<Word, E> {
        let mut data = template.to_vec();
        if is_df {
            let length = random.range(1, 8) as u8;
            data.extend([0xC6, length]);
            data.extend(random.bytes(length.into()));
            if let Some(all) = data.get_mut(1) {
                *all = all.wrapping_add(2 + length);
            }
        }
        Ok(self.command(call, &create_command(&data))?.word)
    }
}

/// Whether new files of both kinds can be made in a directory: it is activated, and
/// its rule grants it, which a referred one does not once it is made again.
pub(crate) fn takes_files(card: &Card, df: usize) -> bool {
    let record = card.record(df);
    let granted = |right| rule::decide(record.form, &record.rule, right, &State::FULL).is_granted();
    let activated = life_cycle::class(record.life_cycle) == Some(life_cycle::Class::Activated);
    activated && granted(Right::CreateDf) && granted(Right::CreateEf)
}

/// The bytes of a record; none where the image has none.
pub(crate) fn record_of(image: &[u8], slot: usize) -> Vec<u8> {
    let start = 16 + RECORD_BYTES * slot;
    image.get(start..start + RECORD_BYTES).unwrap_or_default().to_vec()
}

/// What the model leaves for a line: of the maker, or of a command.
pub fn by_model(line: &Line) -> Left {
    match line {
        Line::Make { buffer, version, total, form, rule } => {
            let mut image = buffer.clone();
            model::make(&mut image, *version, *total, *form, rule);
            Left { word: 0, image, pool: Vec::new(), data: Vec::new() }
        }
        Line::Command { image, command, state, pool, response } => {
            let [mut image, mut pool, mut response] = [image, pool, response].map(Vec::clone);
            let told = model::command(&mut image, &mut pool, command, &mut response, state);
            response.truncate(told.data);
            Left { word: told.word, image, pool, data: response }
        }
        _ => Left { word: 0, image: Vec::new(), pool: Vec::new(), data: Vec::new() },
    }
}
