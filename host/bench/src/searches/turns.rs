//! Measuring: the floor, the search before and now, in turn in one run, so that
//! all meet the same load.

use std::hint::black_box;
use std::time::{Duration, Instant};

use super::ffi::{NOTHING, NO_CARD};
use super::floor::floor;
use super::sought::Sought;
use crate::clock::{repeat, Times};

/// One call may be too short for the clock; so many are timed at once that they
/// take so many seconds, as the fastest of some tries tells.
const LONG_ENOUGH: f64 = 20e-6;
const MOST_CALLS: u32 = 1 << 16;
const TRIES: usize = 5;

/// A search: of the image, the directory's slot and the identifier.
pub trait Search: Fn(&[u8], usize, u16) -> usize {}

impl<S: Fn(&[u8], usize, u16) -> usize> Search for S {}

/// What one call takes, in nanoseconds, and how many times as long it takes now.
#[derive(Clone, Copy, PartialEq, Debug)]
pub struct Compared {
    pub floor: Times,
    pub before: Times,
    pub now: Times,
    /// The median of what each turn gives; the ratio of the lowest times.
    pub to_floor: Times,
    pub to_before: Times,
}

impl Compared {
    /// Of at least one turn, each of the floor, before and now.
    fn of(turns: &[[f64; 3]]) -> Compared {
        let of = |value: fn([f64; 3]) -> f64| Times::of(turns.iter().copied().map(value).collect());
        let floor = of(|[floor, ..]| floor);
        let before = of(|[_, before, _]| before);
        let now = of(|[.., now]| now);
        let to = |by_turn: Times, other: Times| Times {
            median: by_turn.median,
            lowest: now.lowest / other.lowest,
        };
        let to_floor = to(of(|[floor, _, now]| now / floor), floor);
        let to_before = to(of(|[_, before, now]| now / before), before);
        Compared { floor, before, now, to_floor, to_before }
    }
}

/// Measures three searches for the same, if all find what the model finds.
pub fn compare(
    image: &[u8],
    sought: &Sought,
    (before, now): (impl Search, impl Search),
    budget: Duration,
) -> Result<Compared, String> {
    let (d, x) = (sought.directory, sought.identifier);
    agree(sought, [floor(image, d, x), before(image, d, x), now(image, d, x)])?;
    let turn = |calls| {
        [
            seconds(calls, image, sought, &floor),
            seconds(calls, image, sought, &before),
            seconds(calls, image, sought, &now),
        ]
    };
    let fastest = |calls| (0..TRIES).flat_map(|_| turn(calls)).fold(f64::INFINITY, f64::min);
    let calls = calls_at_once(fastest);
    let nanoseconds = |seconds: f64| seconds * 1e9 / f64::from(calls);
    Ok(Compared::of(&repeat(budget, || turn(calls).map(nanoseconds))))
}

/// So many calls at once.
fn seconds(calls: u32, image: &[u8], sought: &Sought, search: &impl Search) -> f64 {
    let begun = Instant::now();
    for _ in 0..calls {
        let (d, x) = (sought.directory, sought.identifier);
        black_box(search(black_box(image), black_box(d), black_box(x)));
    }
    begun.elapsed().as_secs_f64()
}

/// How many calls take long enough, by how many seconds so many take.
fn calls_at_once(mut seconds: impl FnMut(u32) -> f64) -> u32 {
    let mut calls = 1;
    while calls < MOST_CALLS && seconds(calls) < LONG_ENOUGH {
        calls *= 2;
    }
    calls
}

/// Whether the floor, before and now answer as the model.
fn agree(sought: &Sought, answers: [usize; 3]) -> Result<(), String> {
    let expected = sought.slot.unwrap_or(NOTHING);
    if answers == [expected; 3] {
        return Ok(());
    }
    let [floor, before, now] = answers.map(told);
    let (title, expected) = (sought.title(), told(expected));
    Err(format!(
        "{title}: the model finds {expected}, but the floor {floor}, the search before {before}, \
         now {now}: times would say nothing"
    ))
}

fn told(answer: usize) -> String {
    match answer {
        NOTHING => "nothing".to_string(),
        NO_CARD => "no card".to_string(),
        slot => format!("slot {slot}"),
    }
}

#[cfg(test)]
mod tests {
    use super::*;
    use crate::searches::sought::{Place, Sort};

    /// A turn in which all took longer counts like any other.
    #[test]
    fn ratios_are_made_turn_by_turn() {
        let turns = [[2.0, 4.0, 3.0], [20.0, 25.0, 20.0], [5.0, 4.0, 20.0]];
        let compared = Compared::of(&turns);
        let times = |median, lowest| Times { median, lowest };
        assert_eq!(compared.floor, times(5.0, 2.0));
        assert_eq!(compared.before, times(4.0, 4.0));
        assert_eq!(compared.now, times(20.0, 3.0));
        assert_eq!(compared.to_floor, times(1.5, 1.5));
        assert_eq!(compared.to_before, times(0.8, 0.75));
    }

    #[test]
    fn shorter_calls_are_timed_more_at_once() {
        let calls = |one: f64| calls_at_once(|calls| one * f64::from(calls));
        assert_eq!(calls(1.0), 1);
        assert_eq!(calls(700e-9), 32);
        assert_eq!(calls(2e-9), 16384);
        assert_eq!(calls(0.0), MOST_CALLS);
    }

    #[test]
    fn what_is_not_found_alike_is_not_measured() {
        let (sort, place) = (Sort::Df, Place::Last);
        let sought = Sought { sort, place, directory: 0, identifier: 0x7F27, slot: Some(40) };
        let nowhere = Sought { place: Place::Nowhere, slot: None, ..sought.clone() };
        assert_eq!(agree(&sought, [40; 3]), Ok(()));
        assert_eq!(agree(&nowhere, [NOTHING; 3]), Ok(()));
        for answers in [[41, 40, 40], [40, 41, 40], [40, 40, 41], [NOTHING; 3]] {
            assert!(agree(&sought, answers).is_err(), "{answers:?}");
        }
        assert_eq!(
            agree(&sought, [7, NOTHING, NO_CARD]).expect_err("three wrong answers"),
            "DF, found last: the model finds slot 40, but the floor slot 7, the search before \
             nothing, now no card: times would say nothing"
        );
        let other = |_: &[u8], _, _| 3;
        assert!(compare(&[], &nowhere, (other, other), Duration::ZERO).is_err());
    }

    #[test]
    fn every_search_is_asked_for_the_same() {
        let (sort, place) = (Sort::Child, Place::First);
        let sought = Sought { sort, place, directory: 3, identifier: 0x6F07, slot: None };
        let search = |image: &[u8], d: usize, x: u16| {
            assert_eq!((image, d, x), (&[5; 20][..], 3, 0x6F07));
            NOTHING
        };
        assert!(compare(&[5; 20], &sought, (search, search), Duration::ZERO).is_ok());
    }
}
