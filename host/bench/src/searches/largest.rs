//! How much longer than wanted a search takes at most.

use super::sought::Sought;
use super::turns::Compared;

/// Where nothing is found, a search is to take at most so many times as long as
/// the floor.
const OF_FLOOR: f64 = 1.3;
/// Everywhere it is to take less than so many times as long as before.
const OF_BEFORE: f64 = 1.0;

/// The largest ratios, by the medians, and where they were found.
#[derive(Default)]
pub struct Largest {
    to_floor: Option<(f64, String)>,
    to_before: Option<(f64, String)>,
}

impl Largest {
    /// Looks at a search on a card of this title.
    pub fn see(&mut self, card: &str, sought: &Sought, compared: &Compared) {
        let keep_larger = |most: &mut Option<(f64, String)>, ratio: f64| {
            if !most.as_ref().is_some_and(|(most, _)| *most >= ratio) {
                *most = Some((ratio, format!("{card}: {}", sought.title())));
            }
        };
        if sought.slot.is_none() {
            keep_larger(&mut self.to_floor, compared.to_floor.median);
        }
        keep_larger(&mut self.to_before, compared.to_before.median);
    }

    /// Two lines.
    pub fn told(&self) -> String {
        let (Some((to_floor, slow)), Some((to_before, slow_again))) =
            (&self.to_floor, &self.to_before)
        else {
            return String::new();
        };
        format!(
            "largest now/floor where nothing is found: {to_floor:.3} ({slow}; wanted: at most \
             {OF_FLOOR})\nlargest now/before: {to_before:.3} ({slow_again}; wanted: below \
             {OF_BEFORE})"
        )
    }
}

#[cfg(test)]
mod tests {
    use super::*;
    use crate::clock::Times;
    use crate::searches::sought::{Place, Sort};

    #[test]
    fn the_floor_counts_only_where_nothing_is_found() {
        let mut largest = Largest::default();
        assert_eq!(largest.told(), "");
        for (place, slot, to_floor, to_before) in [
            (Place::First, Some(1), 9.0, 0.7),
            (Place::Nowhere, None, 1.25, 0.6),
            (Place::Nowhere, None, 1.2, 0.5),
        ] {
            let sought = Sought { sort: Sort::Df, place, directory: 0, identifier: 1, slot };
            let times = |median| Times { median, lowest: 99.0 };
            let compared = Compared {
                floor: times(1.0),
                before: times(1.0),
                now: times(1.0),
                to_floor: times(to_floor),
                to_before: times(to_before),
            };
            largest.see(&format!("card {to_before}"), &sought, &compared);
        }
        assert_eq!(
            largest.told(),
            "largest now/floor where nothing is found: 1.250 (card 0.6: DF, not found; wanted: at \
             most 1.3)\nlargest now/before: 0.700 (card 0.7: DF, found first; wanted: below 1)"
        );
    }
}
