//! The card on which a file is made again (02, Ticket 2): fresh, with
//! directories one in another, in the innermost of which the file finds room
//! and its right, and with other files elsewhere.

use model::edition::Edition;
use model::lines::Case as Line;
use model::record::charge;
use model::{Record, State};

use crate::actions::select;
use crate::elsewhere::{self, Other};
use crate::random::Random;
use crate::rules::{self, Rule};
use crate::template::FileData;

/// Most directories one in another, and most files elsewhere.
const DEEPEST: u32 = 6;
const MOST_OTHERS: u32 = 2;
/// The largest total of a root, and most slots more than needed.
const LARGEST_TOTAL: u32 = 64 * 1022;
const SPARE_SLOTS: u32 = 5;

const DEACTIVATE: [u8; 4] = [0x00, 0x04, 0x00, 0x00];

/// A card to be made, and what is done on it before the file is made.
#[derive(Clone, PartialEq, Eq, Debug)]
pub struct Target {
    /// Version and variant of the card.
    pub edition: Edition,
    /// Slots of the card.
    pub slots: usize,
    /// The root's total.
    pub total: u32,
    /// The root's rule.
    pub rule: Rule,
    /// The commands that make directories and other files.
    pub commands: Vec<Vec<u8>>,
    /// Slot and level of the directory that is current then, in which the file
    /// is made. The next slot is the lowest free one.
    pub directory: (u16, u16),
    /// The state under which all is done: no other channel is open.
    pub state: State,
}

impl Target {
    /// A card of this edition for a file, which costs at most the largest total.
    pub fn for_file(random: &mut Random, edition: Edition, file: &Record) -> Target {
        let cost = u32::try_from(charge(file.size)).unwrap_or(LARGEST_TOTAL).min(LARGEST_TOTAL);
        let depth = random.range(0, DEEPEST).min((LARGEST_TOTAL - cost) / 64);
        let mut levels = path(random, edition, file, depth as usize);
        put_others(random, edition, file, &mut levels, LARGEST_TOTAL - cost - 64 * depth);
        let (rule, state) = right(random, edition, file.is_df());
        if let Some(innermost) = levels.last_mut() {
            innermost.directory.rule = rule;
        }
        let slots = give_room(random, &mut levels, cost);
        let others = levels.iter().flat_map(|level| &level.others);
        let files = depth as usize + others.map(Other::files).sum::<usize>();
        let root = &levels[0].directory;
        Target {
            edition,
            slots: slots as usize,
            total: root.size,
            rule: root.rule.clone(),
            commands: commands(&levels),
            directory: (files as u16, depth as u16),
            state,
        }
    }

    /// A card of these measures, on which nothing is done before.
    pub fn of_measures(edition: Edition, slots: usize, total: u32) -> Target {
        let (rule, state) = (rules::open(), State::FULL);
        Target { edition, slots, total, rule, commands: Vec::new(), directory: (0, 0), state }
    }

    /// The maker's call.
    pub fn make(&self) -> Line {
        Line::Make {
            buffer: vec![0xA5; 16 + 64 * self.slots],
            version: u32::from(self.edition.version_number()),
            total: self.total,
            form: self.rule.form_number(),
            rule: self.rule.bytes.clone(),
        }
    }
}

/// A directory on the way, the root among them.
struct Level {
    directory: FileData,
    /// What is in it beside the next directory.
    others: Vec<Other>,
    /// Whether it is deactivated once the next directory is made.
    deactivated: bool,
}

impl Level {
    fn of(directory: FileData) -> Level {
        Level { directory, others: Vec::new(), deactivated: false }
    }

    /// What the next directory costs beside its total, and all others.
    fn costs(&self) -> u32 {
        64 + self.others.iter().map(Other::cost).sum::<u32>()
    }
}

/// The root and so many directories, the outermost first; one of those that are
/// not the innermost may get deactivated. Sizes and others come later.
fn path(random: &mut Random, edition: Edition, file: &Record, depth: usize) -> Vec<Level> {
    let mut levels = vec![Level::of(FileData::plain(0x38, 0x3F00, 1))];
    let closed = (depth > 0 && random.chance(40)).then(|| random.below(depth));
    for level in 1..=depth {
        let taken = |identifier: u16| {
            [0x3FFF, 0x7FFF, 0xFFFF, file.identifier].contains(&identifier)
                || levels.iter().any(|above| above.directory.identifier == identifier)
        };
        let identifier = (0x7F00 + random.range(0, 0x7F) as u16..).find(|&i| !taken(i));
        let mut directory = FileData::plain(0x78, identifier.unwrap_or(0x7F00), 1);
        // Only the innermost must be activated; above it nothing terminated.
        let activated = level == depth || closed == Some(level);
        let lives = if activated { [0x05, 0x07, 0x05, 0x07] } else { [0x01, 0x03, 0x05, 0x07] };
        directory.life_cycle = random.pick(lives);
        directory.rule = match random.chance(30) {
            true => rules::for_the_way(),
            false => rules::some_open(random, edition),
        };
        levels.push(Level::of(directory));
    }
    if let Some(level) = closed.and_then(|level| levels.get_mut(level)) {
        level.deactivated = true;
    }
    levels
}

/// Puts files into directories that are not the innermost, which stays empty,
/// as long as all cost no more than so much; and names on the card.
fn put_others(
    random: &mut Random,
    edition: Edition,
    file: &Record,
    levels: &mut [Level],
    mut left: u32,
) {
    let mut names = vec![file.name.clone()];
    for level in levels.iter_mut().skip(1) {
        if random.chance(30) {
            level.directory.name = elsewhere::name(random, &mut names);
        }
    }
    let depth = levels.len() - 1;
    let most = if depth > 0 { random.range(0, MOST_OTHERS) } else { 0 };
    for number in 0..most as u16 {
        let level = &mut levels[random.below(depth)];
        let same = level.others.iter().all(|other| other.identifier() != file.identifier);
        let other = Other::any(random, edition, file, (number, same), &mut names);
        if other.cost() <= left {
            left -= other.cost();
            level.others.push(other);
        }
    }
}

/// The rule of the directory in which a file is made, and a state under which
/// it grants that: at times this right alone, and under no smaller state.
fn right(random: &mut Random, edition: Edition, is_df: bool) -> (Rule, State) {
    let bit = if is_df { 0x04 } else { 0x02 };
    let environment = random.range(0, 14) as u8;
    let one = 1u16 << environment;
    let channels = random.byte() & 0xF1;
    let full = State { channels, ..State::FULL };
    let (rule, state) = match random.below(8) {
        0 | 1 => (vec![bit, 0x00], full),
        2 => (vec![bit, 0xFF, bit, 0x00], full),
        3 => (vec![bit, 0x10 | environment], State { user: one, channels, ..State::EMPTY }),
        4 => {
            let state = State { messaging: one, external: one, user: one, channels };
            (vec![bit, 0xF0 | environment], state)
        }
        _ => return (rules::some_open(random, edition), full),
    };
    (rules::respelled(random, edition, rule), state)
}

/// Gives each directory room for what is in it, and the innermost for what
/// costs so much; at times no byte more. Gives the slots of the card.
fn give_room(random: &mut Random, levels: &mut [Level], cost: u32) -> u32 {
    let mut least = cost + levels.iter().rev().skip(1).map(Level::costs).sum::<u32>();
    let needed = 1 + least.div_ceil(64);
    let slots = (needed + random.range(0, SPARE_SLOTS)).min(1 + LARGEST_TOTAL / 64);
    let mut most = 64 * (slots - 1);
    for level in levels {
        let total = if random.chance(6) { least } else { random.range(least, most) };
        level.directory.resize(total);
        (least, most) = (least.saturating_sub(level.costs()), total.saturating_sub(level.costs()));
    }
    slots
}

/// Makes what is in each directory, the next one last.
fn commands(levels: &[Level]) -> Vec<Vec<u8>> {
    let mut commands = Vec::new();
    for (above, level) in levels.iter().zip(levels.iter().skip(1)) {
        let back = select(above.directory.identifier);
        commands.extend(above.others.iter().flat_map(|other| other.commands(&back)));
        commands.push(level.directory.command());
        if above.deactivated {
            commands.extend([back, DEACTIVATE.to_vec(), select(level.directory.identifier)]);
        }
    }
    commands
}
