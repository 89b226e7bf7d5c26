//! Files that stand elsewhere on the card on which a file is made again (02,
//! Ticket 2): neither above it nor beside it, so that they do not matter, also
//! where they have its identifier, or nearly its name.

use model::edition::Edition;
use model::record::LONGEST_NAME;
use model::Record;

use crate::random::Random;
use crate::template::FileData;
use crate::{life_cycles, rules};

const TERMINATE_EF: [u8; 4] = [0x00, 0xE8, 0x00, 0x00];

/// A file elsewhere.
#[derive(Clone, PartialEq, Eq, Debug)]
pub struct Other {
    file: FileData,
    /// What is in it, if it is a directory.
    inside: Option<FileData>,
    /// Whether it is terminated once it is made; an EF only.
    terminated: bool,
}

impl Other {
    /// An EF, or a directory with or without a file in it. Its identifier goes
    /// by the number; where it may be the same as that of the file that is made
    /// again, it often is.
    pub fn any(
        random: &mut Random,
        edition: Edition,
        again: &Record,
        (number, same): (u16, bool),
        names: &mut Vec<Vec<u8>>,
    ) -> Other {
        let unlike = |from: u16| if from == again.identifier { from + 0x80 } else { from };
        let its_own = unlike(0x5F00 + number);
        let identifier = if same && random.chance(60) { again.identifier } else { its_own };
        let size = random.range(1, 40);
        let directory = random.chance(50);
        let mut file = FileData::plain(if directory { 0x78 } else { 0x41 }, identifier, size);
        file.name = if directory { name(random, names) } else { None };
        let terminated = !directory && random.chance(30);
        let inside = (directory && random.chance(60)).then(|| {
            let below = if identifier == again.identifier { its_own } else { again.identifier };
            FileData::plain(0x41, below, size)
        });
        if inside.is_some() {
            file.resize(size + 64);
            file.life_cycle = random.pick([0x01, 0x03, 0x05, 0x07]);
        } else if !terminated {
            file.life_cycle = life_cycles::of_a_new_file(random);
            file.rule = rules::of_any_form(random, edition);
        }
        Other { file, inside, terminated }
    }

    /// Its identifier.
    pub fn identifier(&self) -> u16 {
        self.file.identifier
    }

    /// What it costs the directory that it is in.
    pub fn cost(&self) -> u32 {
        self.file.size + 64
    }

    /// How many files it is.
    pub fn files(&self) -> usize {
        1 + usize::from(self.inside.is_some())
    }

    /// Makes it in the current directory, which is current afterwards: a
    /// command leads back there.
    pub fn commands(&self, back: &[u8]) -> Vec<Vec<u8>> {
        let mut commands = vec![self.file.command()];
        commands.extend(self.inside.as_ref().map(FileData::command));
        commands.extend(self.terminated.then(|| TERMINATE_EF.to_vec()));
        commands.extend(self.file.is_df().then(|| back.to_vec()));
        commands
    }
}

/// A name unlike all that there are, of which the first is that of the file that
/// is made again; often nearly that one.
pub fn name(random: &mut Random, names: &mut Vec<Vec<u8>>) -> Option<Vec<u8>> {
    let mut name = names.first().cloned().unwrap_or_default();
    match random.below(4) {
        0 => name.push(random.byte()),
        1 => drop(name.pop()),
        2 => name.last_mut().into_iter().for_each(|byte| *byte ^= 1),
        _ => {
            let length = random.range(1, LONGEST_NAME as u32) as usize;
            name = random.bytes(length);
        }
    }
    let good = (1..=LONGEST_NAME).contains(&name.len()) && !names.contains(&name);
    good.then(|| {
        names.push(name.clone());
        name
    })
}
