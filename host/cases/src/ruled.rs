//! Histories in which a rule file is written while another file is ruled by it
//! (02, Ticket 7): the same command, asked before and after, has another outcome.

use model::edition::Edition;
use model::rule::{Form, Right};
use model::{Decision, State};

use crate::actions::{bare, delete, select_by};
use crate::case::History;
use crate::contents::{self, Contents};
use crate::decided::{self, Wish};
use crate::editions;
use crate::history::Writer;
use crate::random::Random;
use crate::rules::{self, Rule};
use crate::template::FileData;

const ROOT: u16 = 0x3F00;
/// The identifier of the rule file, and of the file that is ruled.
const RULES: u16 = 0x2F06;
const RULED: u16 = 0x6F01;
/// The directories one in another.
const DIRECTORIES: [u16; 3] = [0x7F10, 0x7F20, 0x7F30];
/// Record lengths of rule files.
const LENGTHS: [u8; 6] = [6, 8, 12, 16, 29, 40];
const FILE: u32 = 64;

/// Where the files of a history stand, and what they are.
struct Scene {
    /// How many of the directories there are; the ruled file is in the last.
    depth: usize,
    /// In how many of them, counted from the root, the rule file stands.
    at: usize,
    /// Length and number of its records, and the one that rules.
    record: (u8, u8, u8),
    /// The ruled file is a directory.
    is_df: bool,
}

impl Scene {
    fn any(random: &mut Random) -> Scene {
        let depth = random.below(DIRECTORIES.len() + 1);
        let records = random.range(1, 3) as u8;
        Scene {
            depth,
            at: random.below(depth + 1),
            record: (random.pick(LENGTHS), records, random.range(1, records.into()) as u8),
            is_df: random.chance(30),
        }
    }

    /// The bytes of the rule file's body.
    fn size(&self) -> u32 {
        u32::from(self.record.0) * u32::from(self.record.1)
    }

    /// Makes the rule file in the current directory.
    fn rule_file(&self, random: &mut Random, edition: Edition) -> Vec<u8> {
        let mut file = FileData::plain(random.pick([0x42, 0x42, 0x0A]), RULES, self.size());
        file.record_length = Some(self.record.0.into());
        file.rule = match random.below(20) {
            0 => Rule::referred(RULES, self.record.2),
            1 | 2 => decided::locked(random, edition),
            _ => rules::some_open(random, edition),
        };
        file.command()
    }

    /// Makes the ruled file in the current directory.
    fn ruled_file(&self) -> Vec<u8> {
        let (descriptor, size) = if self.is_df { (0x78, 3 * FILE) } else { (0x41, 4) };
        let rule = Rule::referred(RULES, self.record.2);
        FileData { rule, ..FileData::plain(descriptor, RULED, size) }.command()
    }

    /// UPDATE RECORD of the record that rules.
    fn update(&self, random: &mut Random, contents: Contents, wish: &Wish) -> Vec<u8> {
        let (length, _, number) = self.record;
        let data = contents::record(random, contents, length.into(), wish);
        [vec![0x00, 0xDC, number, 0x04, length], data].concat()
    }
}

/// A command that asks the ruled file's rule, which is current, for a right.
fn asking(random: &mut Random, scene: &Scene) -> (Vec<u8>, Right) {
    let both = [(bare(0x04), Right::Deactivate), (bare(0x44), Right::Activate)];
    let own = if scene.is_df {
        [
            (FileData::plain(0x41, 0x6F02, 1).command(), Right::CreateEf),
            (FileData::plain(0x78, 0x7F40, 1).command(), Right::CreateDf),
        ]
    } else {
        [
            (vec![0x00, 0xB0, 0x00, 0x01, 0x02], Right::READ),
            (vec![0x00, 0xD6, 0x00, 0x00, 0x01, random.byte()], Right::UPDATE),
        ]
    };
    let all = if random.chance(60) { own } else { both };
    all[random.below(2)].clone()
}

/// A history on a card of the newest version.
pub fn history(random: &mut Random) -> History {
    let (edition, slots) = (editions::NEWEST, random.range(18, 30) as usize);
    let rule = match edition.takes(Form::Referred) && random.chance(4) {
        true => Rule::referred(RULES, 1),
        false => rules::some_open(random, edition),
    };
    let mut writer = Writer::new(random, edition, slots, 64 * (slots as u32 - 1), rule);
    let scene = Scene::any(random);
    set_up(random, &mut writer, &scene);
    for _ in 0..random.range(1, 4) {
        if random.chance(35) {
            event(random, &mut writer, &scene);
        }
        round(random, &mut writer, &scene);
    }
    writer.history
}

/// Makes directories, rule file and ruled file, the two in either order where
/// that can be.
fn set_up(random: &mut Random, writer: &mut Writer, scene: &Scene) {
    for level in 0..=scene.depth {
        if level == scene.at {
            let file = scene.rule_file(random, writer.history.edition);
            writer.push(random, file, State::FULL);
        }
        if let Some(&identifier) = DIRECTORIES.get(level).filter(|_| level < scene.depth) {
            let total = FILE * (14 - 3 * level as u32);
            let mut directory = FileData::plain(0x78, identifier, total);
            directory.rule = rules::some_open(random, writer.history.edition);
            writer.push(random, directory.command(), State::FULL);
        }
    }
    writer.push(random, scene.ruled_file(), State::FULL);
}

/// Goes to a file in the innermost of so many directories.
fn go(random: &mut Random, writer: &mut Writer, depth: usize, file: Option<u16>) {
    let way = DIRECTORIES.into_iter().take(depth);
    for identifier in std::iter::once(ROOT).chain(way).chain(file) {
        let command = select_by(random, identifier);
        writer.push(random, command, State::FULL);
    }
}

/// A command to the ruled file, and the same again each time that the rule file
/// was written.
fn round(random: &mut Random, writer: &mut Writer, scene: &Scene) {
    let (command, right) = asking(random, scene);
    let state = if random.chance(30) { State::FULL } else { decided::state(random) };
    if random.chance(70) {
        go(random, writer, scene.depth, Some(RULED));
        writer.push(random, command.clone(), state);
    }
    for _ in 0..random.range(1, 3) {
        let decision = match random.chance(35) {
            true => Decision::Granted,
            false => decided::decision(random, &state),
        };
        let good = random.chance(70);
        let contents = if good { Contents::good(random) } else { Contents::any(random) };
        go(random, writer, scene.at, Some(RULES));
        let update = scene.update(random, contents, &Wish { right, state, decision });
        writer.push(random, update, State::FULL);
        go(random, writer, scene.depth, Some(RULED));
        writer.push(random, command.clone(), state);
    }
}

/// Something that befalls the rule file: another life cycle, which does not
/// matter; its deletion, also to be made again; a nearer file of its name.
fn event(random: &mut Random, writer: &mut Writer, scene: &Scene) {
    match random.below(8) {
        0..=3 => {
            go(random, writer, scene.at, Some(RULES));
            let ins = random.pick([0x04, 0x44, 0x04, 0xE8]);
            writer.push(random, bare(ins), State::FULL);
        }
        4 | 5 => {
            go(random, writer, scene.at, None);
            writer.push(random, delete(RULES), State::FULL);
            if random.chance(70) {
                let file = scene.rule_file(random, writer.history.edition);
                writer.push(random, file, State::FULL);
            }
        }
        _ => {
            go(random, writer, scene.depth, None);
            let nearer = match random.below(3) {
                0 => FileData::plain(0x41, RULES, 1).command(),
                1 => delete(RULES),
                _ => scene.rule_file(random, writer.history.edition),
            };
            writer.push(random, nearer, State::FULL);
        }
    }
}
