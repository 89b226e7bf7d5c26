//! Expanded access rules with one flaw each, that no record takes (02, Ticket
//! 3). All but those that are too long would fit by their length.

use model::expanded::{tags, DEEPEST};

use crate::compact;
use crate::expanded::{any_mode, chain, leaf, mode, object, short_leaf, template_tag, well_formed};
use crate::random::Random;

/// What is wrong with a rule.
#[derive(Clone, Copy, PartialEq, Eq, PartialOrd, Ord, Debug)]
pub enum Flaw {
    /// Five templates inside one another.
    TooDeep,
    /// A template with one condition.
    OneCondition,
    /// A template with none.
    NoCondition,
    /// A length of 80, or 81 and a number.
    LongLength,
    /// The last object in a template ends behind the template.
    PastItsTemplate,
    /// 90 or 97 with a value.
    ValueOfNone,
    /// 9E with no byte or with two.
    ByteOfOtherLength,
    /// AM b8.
    ModeWithB8,
    /// An AM_DO with no AM byte or with two.
    ModeOfOtherLength,
    /// An AM_DO right behind another.
    ModeTwice,
    /// An AM_DO at the end.
    ModeAlone,
    /// An SC_DO before any AM_DO.
    NoMode,
    /// An AM_DO in a template.
    ModeInside,
    /// A tag that no object here has.
    OtherTag,
    /// Bytes missing at the end.
    Cut,
    /// Bytes too many.
    OneMore,
    /// No bytes.
    Empty,
    /// Well formed, and longer than a record takes.
    TooLong,
    /// A compact rule.
    Compact,
}

impl Flaw {
    /// All flaws.
    pub const ALL: [Flaw; 19] = [
        Flaw::TooDeep,
        Flaw::OneCondition,
        Flaw::NoCondition,
        Flaw::LongLength,
        Flaw::PastItsTemplate,
        Flaw::ValueOfNone,
        Flaw::ByteOfOtherLength,
        Flaw::ModeWithB8,
        Flaw::ModeOfOtherLength,
        Flaw::ModeTwice,
        Flaw::ModeAlone,
        Flaw::NoMode,
        Flaw::ModeInside,
        Flaw::OtherTag,
        Flaw::Cut,
        Flaw::OneMore,
        Flaw::Empty,
        Flaw::TooLong,
        Flaw::Compact,
    ];

    /// Those that a reader most easily takes.
    const LIKELY: [Flaw; 6] = [
        Flaw::TooDeep,
        Flaw::OneCondition,
        Flaw::NoCondition,
        Flaw::LongLength,
        Flaw::PastItsTemplate,
        Flaw::TooLong,
    ];

    /// Any flaw, the likely ones more often.
    pub fn any(random: &mut Random) -> Flaw {
        if random.chance(40) {
            random.pick(Flaw::LIKELY)
        } else {
            random.pick(Flaw::ALL)
        }
    }
}

/// A rule with this flaw, for records that take so many bytes, 28 or more.
pub fn flawed(random: &mut Random, flaw: Flaw, longest: usize) -> Vec<u8> {
    match flaw {
        Flaw::Empty => Vec::new(),
        Flaw::TooLong => too_long(random, longest),
        Flaw::Compact => compact::well_formed(random, longest),
        Flaw::Cut => {
            let mut rule = well_formed(random, longest);
            rule.pop();
            rule
        }
        Flaw::OneMore => {
            let mut rule = well_formed(random, longest - 1);
            rule.push(random.pick([0x00, 0x90, 0x80, 0xFF]));
            rule
        }
        Flaw::ModeWithB8
        | Flaw::ModeOfOtherLength
        | Flaw::ModeTwice
        | Flaw::ModeAlone
        | Flaw::NoMode => of_the_mode(random, flaw),
        _ => {
            let conditions = of_a_condition(random, flaw);
            let rule = [mode(any_mode(random)), conditions].concat();
            surrounded(random, rule, longest)
        }
    }
}

/// The rule, at times with a good SC_DO or a good group behind it, or a good
/// group before it, if there is room.
fn surrounded(random: &mut Random, rule: Vec<u8>, longest: usize) -> Vec<u8> {
    let group = [mode(any_mode(random)), short_leaf(random)].concat();
    let all = match random.below(6) {
        0 => [group, rule.clone()].concat(),
        1 => [rule.clone(), group].concat(),
        2 => [rule.clone(), leaf(random)].concat(),
        _ => rule.clone(),
    };
    if all.len() <= longest {
        all
    } else {
        rule
    }
}

/// Groups whose AM_DO is wrong, missing or without SC_DO.
fn of_the_mode(random: &mut Random, flaw: Flaw) -> Vec<u8> {
    let am = any_mode(random);
    let good = [mode(any_mode(random)), leaf(random)].concat();
    let depth = random.below(3);
    let conditions = chain(random, depth, leaf);
    match flaw {
        Flaw::ModeWithB8 => [mode(am | 0x80), conditions].concat(),
        Flaw::ModeTwice => [mode(am), good].concat(),
        Flaw::ModeAlone if random.chance(50) => mode(am),
        Flaw::ModeAlone => [good, mode(am)].concat(),
        Flaw::NoMode if random.chance(50) => conditions,
        Flaw::NoMode => [conditions, good].concat(),
        _ => {
            let value = if random.chance(50) { vec![] } else { vec![am, any_mode(random)] };
            [object(tags::ACCESS_MODE, &value), conditions].concat()
        }
    }
}

/// SC_DOs with a flaw, now and then with it in a template.
fn of_a_condition(random: &mut Random, flaw: Flaw) -> Vec<u8> {
    let tag = template_tag(random);
    let wrong = match flaw {
        Flaw::TooDeep => return chain(random, DEEPEST + 1, short_leaf),
        Flaw::PastItsTemplate => return past_its_template(random),
        Flaw::OneCondition => {
            let depth = random.below(3);
            object(tag, &chain(random, depth, leaf))
        }
        Flaw::NoCondition => object(tag, &[]),
        Flaw::LongLength => long_length(random),
        Flaw::ValueOfNone => {
            let value = [random.pick([0x00, 0x11, 0x90])];
            object(random.pick([tags::NEVER, tags::NEVER, tags::ALWAYS]), &value)
        }
        Flaw::ByteOfOtherLength if random.chance(50) => object(tags::BYTE, &[]),
        Flaw::ByteOfOtherLength => object(tags::BYTE, &[0x00, compact::condition(random)]),
        Flaw::ModeInside => {
            object(tag, &[leaf(random), mode(any_mode(random)), leaf(random)].concat())
        }
        _ => other_tag(random),
    };
    match random.below(3) {
        0 => object(template_tag(random), &[leaf(random), wrong].concat()),
        1 => object(template_tag(random), &[wrong, leaf(random)].concat()),
        _ => wrong,
    }
}

/// A template whose length is so much too small that its last object is cut by
/// its end; the bytes are all there.
fn past_its_template(random: &mut Random) -> Vec<u8> {
    let before = [leaf(random), short_leaf(random)].concat();
    let depth = random.below(2);
    let last = match depth {
        0 => object(tags::BYTE, &[compact::condition(random)]),
        _ => chain(random, depth, leaf),
    };
    let missing = random.range(1, last.len() as u32 - 1) as usize;
    let mut template = object(template_tag(random), &[before, last].concat());
    template[1] -= missing as u8;
    template
}

/// A length that is not one byte of 00-7F.
fn long_length(random: &mut Random) -> Vec<u8> {
    let two = [short_leaf(random), short_leaf(random)].concat();
    let tag = template_tag(random);
    match random.below(5) {
        0 => vec![tags::ALWAYS, 0x80],
        1 => vec![tags::ALWAYS, 0x81, 0x00],
        2 => vec![tags::BYTE, 0x81, 0x01, compact::condition(random)],
        3 => [vec![tag, 0x81, two.len() as u8], two].concat(),
        _ => [vec![tag, 0x80], two, vec![0x00, 0x00]].concat(),
    }
}

/// Tags of AM_DOs and SC_DOs that are not built, and of others.
fn other_tag(random: &mut Random) -> Vec<u8> {
    let value = random.pick([&[][..], &[0x00], &[0x90, 0x00, 0x90, 0x00]]);
    let tag = random.pick([
        0xA4, 0xB4, 0xB6, 0xB8, 0x81, 0x8F, 0x9C, 0x91, 0x96, 0x98, 0x9D, 0x9F, 0xA1, 0xAE, 0x10,
        0x1E, 0x20, 0x2F, 0x00, 0xFF,
    ]);
    object(tag, value)
}

/// More bytes than a record takes, and nothing else wrong.
fn too_long(random: &mut Random, longest: usize) -> Vec<u8> {
    let mut rule = [mode(any_mode(random)), leaf(random)].concat();
    while rule.len() <= longest {
        let more = leaf(random);
        rule.extend(more);
    }
    rule
}
