//! Rules made for one decision (02, Ticket 6): a right that is granted, lacks
//! something or is closed under a state, in both forms, by every sort of
//! condition; and states that open all, nothing, or all but one bit.

use model::edition::Edition;
use model::expanded::{tags, DEEPEST};
use model::rule::{Form, Right};
use model::{security, Decision, State};

use crate::expanded::{mode, object, template_tag};
use crate::random::Random;
use crate::rules::Rule;
use crate::{compact, states};

/// Environments that an SC byte can be opened by.
const ENVIRONMENTS: usize = 15;
/// Bytes of an expanded group with one SC byte.
const LEAST_GROUP: usize = 6;
/// Most groups beside the one that decides.
const MOST_OTHERS: usize = 3;

/// What a rule is to decide.
#[derive(Clone, Copy, PartialEq, Eq, Debug)]
pub struct Wish {
    /// The right.
    pub right: Right,
    /// The state.
    pub state: State,
    /// The decision, one that is possible under the state.
    pub decision: Decision,
}

/// Sets without a bit, with all of them, with all but one, with one alone, with
/// an environment missing, at random. No other channel is open.
pub fn state(random: &mut Random) -> State {
    let bit = 1u16 << random.below(ENVIRONMENTS);
    let [messaging, external, user] = random.pick([[bit, 0, 0], [0, bit, 0], [0, 0, bit]]);
    let alone = State { messaging, external, user, channels: 0 };
    match random.below(10) {
        0 | 1 => State::EMPTY,
        2 => State::FULL,
        3..=5 => State { messaging: !messaging, external: !external, user: !user, channels: 0 },
        6 => alone,
        7 => State { messaging: !bit, external: !bit, user: !bit, channels: 0 },
        _ => State { channels: 0, ..states::any(random) },
    }
}

/// Whether rules can decide so under a state: nothing lacks where every bit that
/// can be asked for is on.
pub fn is_possible(decision: Decision, state: &State) -> bool {
    let sets = state.messaging & state.external & state.user;
    decision != Decision::Lacking || sets.trailing_ones() < ENVIRONMENTS as u32
}

/// A decision that is possible under a state; denials come more often.
pub fn decision(random: &mut Random, state: &State) -> Decision {
    let wished = [(Decision::Granted, 2), (Decision::Lacking, 4), (Decision::Closed, 3)];
    let decision = random.weighted(&wished).unwrap_or(Decision::Closed);
    if is_possible(decision, state) {
        decision
    } else {
        Decision::Closed
    }
}

/// A wish of any right under any state.
pub fn some_wish(random: &mut Random) -> Wish {
    let (state, right) = (state(random), random.pick(Right::ALL));
    Wish { right, state, decision: decision(random, &state) }
}

/// A rule that is fit for a record of the edition and decides as wished.
pub fn rule(random: &mut Random, edition: Edition, wish: &Wish) -> Rule {
    let form = match edition.takes(Form::Expanded) && random.chance(60) {
        true => Form::Expanded,
        false => Form::Compact,
    };
    Rule { form, bytes: rule_of(random, form, wish, edition.longest_rule()) }
}

/// The bytes of a compact or an expanded rule, at most so many, that decides as
/// wished. Of an expanded one at least 6, which name a right and an SC byte.
pub fn rule_of(random: &mut Random, form: Form, wish: &Wish, longest: usize) -> Vec<u8> {
    // Each template takes five bytes more, its own two and a condition of three.
    let deepest = (longest.saturating_sub(LEAST_GROUP) / 5).min(DEEPEST);
    // Denied for good too, where no group names it.
    let unnamed = wish.decision == Decision::Closed && random.chance(20);
    let deciding = match unnamed {
        true => other_group(random, form, wish.right),
        false => group(random, form, wish, deepest),
    };
    let mut length = deciding.len();
    let mut groups = vec![deciding];
    for _ in 0..random.below(MOST_OTHERS + 1) {
        let another = match unnamed || random.chance(40) {
            true => other_group(random, form, wish.right),
            false => {
                let decision = no_more_open(random, wish);
                group(random, form, &Wish { decision, ..*wish }, 1)
            }
        };
        if length + another.len() <= longest {
            length += another.len();
            groups.push(another);
        }
    }
    let first = random.below(groups.len());
    groups.rotate_left(first);
    groups.concat()
}

/// A rule that is fit for a record of the edition; of each right it lacks
/// something where the sets are empty, and full sets open it.
pub fn locked(random: &mut Random, edition: Edition) -> Rule {
    let (state, decision) = (State::EMPTY, Decision::Lacking);
    let wish = Wish { right: Right::DeleteSelf, state, decision };
    if edition.takes(Form::Expanded) && random.chance(50) {
        let depth = random.below(DEEPEST + 1);
        return Rule::expanded([mode(0x7F), condition(random, &wish, depth)].concat());
    }
    Rule::compact(with_bytes(0x7F, || byte(random, &wish)))
}

/// A decision that changes nothing beside the wished one, as an alternative.
fn no_more_open(random: &mut Random, wish: &Wish) -> Decision {
    one_of(random, wish, |other| other >= wish.decision)
}

/// A decision that changes nothing beside the wished one, where all must hold.
fn no_less_open(random: &mut Random, wish: &Wish) -> Decision {
    one_of(random, wish, |other| other <= wish.decision)
}

fn one_of(random: &mut Random, wish: &Wish, fits: impl Fn(Decision) -> bool) -> Decision {
    let fitting =
        Decision::ALL.into_iter().filter(|&one| fits(one) && is_possible(one, &wish.state));
    random.choose(&fitting.collect::<Vec<_>>()).copied().unwrap_or(wish.decision)
}

/// A group that does not name the right; at times it names none.
fn other_group(random: &mut Random, form: Form, right: Right) -> Vec<u8> {
    let am = match random.chance(40) {
        true => 1u8 << random.below(7),
        false => random.byte() & random.byte() & 0x7F,
    } & !right.bit();
    match form {
        Form::Compact => with_bytes(am, || compact::condition(random)),
        _ => [mode(am), object(tags::BYTE, &[compact::condition(random)])].concat(),
    }
}

/// A compact group: the AM byte and an SC byte for each of its bits.
fn with_bytes(am: u8, mut sc: impl FnMut() -> u8) -> Vec<u8> {
    let mut group = vec![am];
    group.extend((0..am.count_ones()).map(|_| sc()));
    group
}

/// A group that names the right and decides it as wished, with templates at most
/// so deep inside one another.
fn group(random: &mut Random, form: Form, wish: &Wish, depth: usize) -> Vec<u8> {
    let others = if random.chance(30) { random.byte() & random.byte() & 0x7F } else { 0 };
    let am = wish.right.bit() | others;
    match form {
        Form::Compact => {
            let mut group = with_bytes(am, || compact::condition(random));
            // The SC bytes of higher bits come before.
            let before = (am & !(wish.right.bit() | (wish.right.bit() - 1))).count_ones() as usize;
            group[1 + before] = byte(random, wish);
            group
        }
        _ => {
            let (mut group, most) = (mode(am), depth);
            let depth = random.below(depth + 1);
            group.extend(condition(random, wish, depth));
            if depth < 2 && depth < most && random.chance(40) {
                let decision = no_more_open(random, wish);
                group.extend(leaf(random, &Wish { decision, ..*wish }));
            }
            group
        }
    }
}

/// An SC_DO that decides as wished: so many templates inside one another, beside
/// each a condition that changes nothing.
fn condition(random: &mut Random, wish: &Wish, depth: usize) -> Vec<u8> {
    (0..depth).fold(leaf(random, wish), |inside, _| {
        let tag = template_tag(random);
        let decision = match tag {
            tags::ALL_OF => no_less_open(random, wish),
            _ => no_more_open(random, wish),
        };
        let beside = leaf(random, &Wish { decision, ..*wish });
        let value = if random.chance(50) { [beside, inside] } else { [inside, beside] };
        object(tag, &value.concat())
    })
}

/// An SC_DO without a template that decides as wished.
fn leaf(random: &mut Random, wish: &Wish) -> Vec<u8> {
    match wish.decision {
        Decision::Granted if random.chance(40) => object(tags::ALWAYS, &[]),
        Decision::Closed if random.chance(50) => object(tags::NEVER, &[]),
        _ => object(tags::BYTE, &[byte(random, wish)]),
    }
}

/// An SC byte that decides as wished.
fn byte(random: &mut Random, wish: &Wish) -> u8 {
    if wish.decision == Decision::Closed && random.chance(30) {
        return 0xFF;
    }
    let fits = |sc: &u8| security::condition(*sc, &wish.state) == wish.decision;
    let fitting: Vec<u8> = (0..=255).filter(fits).collect();
    random.choose(&fitting).copied().unwrap_or(0xFF)
}
