//! Access rules of all forms, as a card's version takes them (01, "Descriptor
//! and rules"; 02, Tickets 3 and 7): open, well formed at random, broken.

use model::edition::Edition;
use model::rule::Form;
use model::template::tags;

use crate::flaws::{flawed, Flaw};
use crate::random::Random;
use crate::template::Object;
use crate::{compact, expanded};

/// The longest rule that any version takes.
const LONGEST: usize = 30;

/// A rule with its form. Nothing says that it is well formed.
#[derive(Clone, PartialEq, Eq, Debug)]
pub struct Rule {
    /// How it is written.
    pub form: Form,
    /// Its bytes.
    pub bytes: Vec<u8>,
}

impl Rule {
    /// A compact rule.
    pub fn compact(bytes: Vec<u8>) -> Rule {
        Rule { form: Form::Compact, bytes }
    }

    /// An expanded rule.
    pub fn expanded(bytes: Vec<u8>) -> Rule {
        Rule { form: Form::Expanded, bytes }
    }

    /// A referred rule: a file's identifier and the number of a record.
    pub fn referred(identifier: u16, number: u8) -> Rule {
        let [high, low] = identifier.to_be_bytes();
        Rule { form: Form::Referred, bytes: vec![high, low, number] }
    }

    /// The object in which CREATE's data have it.
    pub fn object(&self) -> Object {
        (tags::of_rule(self.form), self.bytes.clone())
    }

    /// The number of its form, as the maker is told it.
    pub fn form_number(&self) -> u32 {
        u32::from(self.form.number())
    }
}

/// Everything always, on every version.
pub fn open() -> Rule {
    Rule::compact(compact::open())
}

/// DEACTIVATE and CREATE always, and nothing else ever.
pub fn for_the_way() -> Rule {
    Rule::compact(compact::for_the_way())
}

/// Everything always, in any writing that the edition takes.
pub fn some_open(random: &mut Random, edition: Edition) -> Rule {
    if edition.takes(Form::Expanded) && random.chance(50) {
        Rule::expanded(expanded::open(random, edition.longest_rule()))
    } else {
        open()
    }
}

/// Mostly open; else well formed at random.
pub fn mostly_open(random: &mut Random, edition: Edition) -> Rule {
    if random.chance(85) {
        some_open(random, edition)
    } else {
        well_formed(random, edition)
    }
}

/// A rule that is fit for a record of the edition, now and then a reference.
pub fn of_any_form(random: &mut Random, edition: Edition) -> Rule {
    if edition.takes(Form::Referred) && random.chance(15) {
        some_reference(random)
    } else {
        well_formed(random, edition)
    }
}

/// A rule that is fit for a record of the edition and decides by itself.
pub fn well_formed(random: &mut Random, edition: Edition) -> Rule {
    let longest = edition.longest_rule();
    if edition.takes(Form::Expanded) && random.chance(60) {
        Rule::expanded(expanded::well_formed(random, longest))
    } else {
        Rule::compact(compact::well_formed(random, longest))
    }
}

/// A rule of many groups, so that a later one decides.
pub fn many_groups(random: &mut Random, edition: Edition) -> Rule {
    let longest = edition.longest_rule();
    if edition.takes(Form::Expanded) && random.chance(70) {
        Rule::expanded(expanded::well_formed(random, longest))
    } else {
        Rule::compact(compact::many_groups(random, longest))
    }
}

/// A compact rule, at times in its expanded writing where the edition takes
/// that and it is not too long.
pub fn respelled(random: &mut Random, edition: Edition, rule: Vec<u8>) -> Rule {
    let writing = expanded::writing_of(&rule);
    let fits = model::rule::fit(edition, Form::Expanded, &writing);
    if fits && random.chance(50) {
        Rule::expanded(writing)
    } else {
        Rule::compact(rule)
    }
}

/// A reference to a file that may be there, or to none.
pub fn some_reference(random: &mut Random) -> Rule {
    let store = [0x2F06, 0x2F06, 0x6F07, 0x6F08, 0x7F10, 0x5F3A, 0x3F00, 0xFFFF];
    let identifier = if random.chance(90) { random.pick(store) } else { random.number16() };
    Rule::referred(identifier, random.pick([0, 1, 1, 1, 2, 2, 3, 254, 255]))
}

/// Form 2 as no record of the edition has it: of three bytes where the edition
/// takes no reference, else of another length, often that of several pairs.
pub fn no_reference(random: &mut Random, edition: Edition) -> Rule {
    let mut rule = some_reference(random);
    if edition.takes(Form::Referred) {
        let length = random.pick([0, 1, 2, 2, 4, 4, 5, 6, 6, 9, 27, 28]);
        rule.bytes = random.bytes(length);
    }
    rule
}

/// A rule that no record of the edition takes: malformed, of a wrong length, or
/// of a form that is not its own.
pub fn broken(random: &mut Random, edition: Edition) -> Rule {
    let longest = edition.longest_rule();
    if random.chance(12) {
        return no_reference(random, edition);
    }
    if !edition.takes(Form::Expanded) {
        return match random.below(10) {
            0..=4 => Rule::compact(compact::broken(random, longest)),
            5..=8 => Rule::expanded(expanded::well_formed(random, LONGEST)),
            _ => Rule::compact(vec![0; random.range(longest as u32 + 1, LONGEST as u32) as usize]),
        };
    }
    match random.below(10) {
        0..=6 => {
            let flaw = Flaw::any(random);
            Rule::expanded(flawed(random, flaw, longest))
        }
        7 | 8 => Rule::compact(compact::broken(random, longest)),
        _ => Rule::compact(expanded::well_formed(random, longest)),
    }
}

/// A rule of any form, sort and length, also the empty one.
pub fn any(random: &mut Random) -> Rule {
    let edition = crate::editions::any(random);
    let longest = random.range(17, 60) as usize;
    match random.below(10) {
        0..=4 => of_any_form(random, edition),
        5..=7 => broken(random, edition),
        8 => {
            let length = random.below(20);
            Rule { form: random.pick(Form::ALL), bytes: random.bytes(length) }
        }
        _ if random.chance(50) => Rule::compact(compact::groups(random, longest)),
        _ => Rule::expanded(expanded::well_formed(random, longest)),
    }
}
