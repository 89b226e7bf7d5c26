//! The table of the searches.

use super::sought::Sought;
use super::turns::Compared;
use crate::clock::Times;

/// Widths: what is sought, and the first two parts of a line after it.
const TITLE: usize = 18;
const TIMES: usize = 26;
const RATIO: usize = 13;

/// What is common to all cards.
pub fn head(slots: usize) -> String {
    format!(
        "Times are nanoseconds for one call, medians of many turns; N is {slots}. The floor loads\n\
         one word of each record and compares it; before is the plain walk, now the search as it\n\
         is. Ratios are medians of those of each turn, then of the lowest times."
    )
}

/// The heads of the columns, two lines.
pub fn columns() -> String {
    let above = line("", "", ["one call", "now/floor", "now/before"].map(str::to_string));
    let times = format!("{:>8} {:>8} {:>8}", "floor", "before", "now");
    let ratio = format!("{:>6} {:>6}", "median", "lowest");
    let below = line("", "slot", [times, ratio.clone(), ratio]);
    format!("{above}\n{below}")
}

/// The line of one search.
pub fn row(sought: &Sought, compared: &Compared) -> String {
    let Compared { floor, before, now, to_floor, to_before } = compared;
    let [a, b, c] = [floor, before, now].map(|times| times.median);
    let times = format!("{a:>8.2} {b:>8.2} {c:>8.2}");
    let ratio = |ratio: &Times| format!("{:>6.3} {:>6.3}", ratio.median, ratio.lowest);
    let slot = sought.slot.map_or("-".to_string(), |slot| slot.to_string());
    line(&sought.title(), &slot, [times, ratio(to_floor), ratio(to_before)])
}

fn line(title: &str, slot: &str, parts: [String; 3]) -> String {
    let [times, to_floor, to_before] = parts;
    format!("{title:TITLE$} {slot:>4} | {times:TIMES$} | {to_floor:RATIO$} | {to_before}")
}

#[cfg(test)]
mod tests {
    use super::*;
    use crate::searches::sought::{Place, Sort};

    #[test]
    fn every_number_stands_below_its_head() {
        let times = |median, lowest| Times { median, lowest };
        let compared = Compared {
            floor: times(512.25, 500.0),
            before: times(1234.5, 1200.0),
            now: times(3.0, 2.5),
            to_floor: times(1.015, 1.014),
            to_before: times(0.575, 0.574),
        };
        let (sort, place) = (Sort::Child, Place::First);
        let sought = Sought { sort, place, directory: 0, identifier: 0x7001, slot: Some(1021) };
        let row = row(&sought, &compared);
        let columns = columns();
        let [above, below] = columns.lines().collect::<Vec<_>>().try_into().expect("two lines");
        let ends = |text: &str| -> Vec<usize> {
            let signs = format!("{text} ").into_bytes();
            let pairs = signs.windows(2).enumerate();
            pairs.filter(|(_, pair)| pair[0] != b' ' && pair[1] == b' ').map(|(at, _)| at).collect()
        };
        // The title has words of its own, left of all heads.
        assert_eq!(ends(&row)[3..], ends(below), "{columns}\n{row}");
        let bars = |text: &str| -> Vec<usize> {
            text.char_indices().filter(|(_, sign)| *sign == '|').map(|(at, _)| at).collect()
        };
        assert_eq!(bars(above), bars(&row), "{columns}\n{row}");
        assert_eq!(
            row,
            "child, found first 1021 |   512.25  1234.50     3.00 |  1.015  1.014 |  0.575  0.574"
        );
        let nothing = Sought { slot: None, ..sought };
        assert!(super::row(&nothing, &compared).starts_with("child, found first    - |"));
    }
}
