//! The table that is printed.

use crate::clock::Times;
use crate::Cell;

/// Widths: what is measured, and the four parts of a line after it.
const TITLE: usize = 21;
const TIMES: usize = 38;
const LARGEST: usize = 17;
const RATIOS: usize = 24;

/// What is common to all shapes: the sizes and the copy of an image.
pub fn head(sizes: &[usize; 4], copies: &[Times; 4]) -> String {
    let mut text = String::from(
        "Times are microseconds, medians of many runs; N is the number of slots; growth is the\n\
         power of N from the last but one size to the last.\n",
    );
    for (slots, copy) in sizes.iter().zip(copies) {
        let bytes = 16 + 64 * slots;
        let (median, lowest) = (copy.median, copy.lowest);
        text += &format!(
            "one copy of {bytes:>5} bytes (N {slots:>4}): {median:.3}, lowest {lowest:.3}\n"
        );
    }
    text
}

/// The heads of the columns, two lines.
pub fn columns(sizes: &[usize; 4]) -> String {
    let [a, b, c, d] = sizes;
    let heads = ["card at N", &format!("at N {d}"), "card/model at N", "card/copy at N"];
    let above = line("", "", [heads[0], heads[1], heads[2], heads[3]].map(str::to_string));
    let times = format!("{a:>6} {b:>7} {c:>7} {d:>8} {:>6}", "growth");
    let largest = format!("{:>8} {:>8}", "lowest", "model");
    let ratios = format!("{a:>5} {b:>5} {c:>5} {d:>6}");
    let below = line("", "word", [times, largest, ratios.clone(), ratios]);
    format!("{above}\n{below}")
}

/// The line of one task.
pub fn row(title: &str, sizes: &[usize; 4], cells: &[Cell; 4], copies: &[Times; 4]) -> String {
    let [a, b, c, d] = cells.each_ref().map(|cell| cell.card.median);
    let largest = &cells[3];
    let word = if largest.word == 0 { String::new() } else { format!("{:04X}", largest.word) };
    let growth = growth(sizes[2], c, sizes[3], d);
    let times = format!("{a:>6.2} {b:>7.2} {c:>7.1} {d:>8.1} {growth:>6}");
    let others = format!("{:>8.1} {:>8.1}", largest.card.lowest, largest.model.median);
    let [e, f, g, h] = cells.each_ref().map(|cell| cell.card.median / cell.model.median);
    let to_model = format!("{e:>5.2} {f:>5.2} {g:>5.2} {h:>6.2}");
    let [p, q, r, s] = copies.each_ref().map(|copy| copy.median);
    let to_copy = format!("{:>5.0} {:>5.0} {:>5.0} {:>6.0}", a / p, b / q, c / r, d / s);
    line(title, &word, [times, others, to_model, to_copy])
}

/// What the lines of ratios are about.
pub fn ratio_head(what: &str, sizes: &[usize; 4]) -> String {
    let [a, b, c, d] = sizes;
    let largest = format!("lowest, N {d}");
    let times = format!("{a:>6} {b:>7} {c:>7} {d:>8}");
    let sizes = line("", "", [times, largest, String::new(), String::new()]);
    format!("{what}: medians at N\n{sizes}")
}

/// The line of one ratio, in so many digits: of the medians, and of the lowest
/// times at the largest size.
pub fn ratio_row(what: &str, ratios: &[Times; 4], digits: usize) -> String {
    let [a, b, c, d] = ratios.each_ref().map(|ratio| ratio.median);
    let times = format!("{a:>6.digits$} {b:>7.digits$} {c:>7.digits$} {d:>8.digits$}");
    let lowest = format!("{:>8.digits$}", ratios[3].lowest);
    line(what, "", [times, lowest, String::new(), String::new()])
}

fn line(title: &str, word: &str, parts: [String; 4]) -> String {
    let [times, largest, to_model, to_copy] = parts;
    let text = format!(
        "{title:TITLE$} {word:>4} | {times:TIMES$} | {largest:LARGEST$} | {to_model:RATIOS$} | {to_copy}"
    );
    text.trim_end().to_string()
}

/// The power of N by which the time grows from one size to another.
fn growth(few: usize, short: f64, many: usize, long: f64) -> String {
    let power = (long / short).ln() / (many as f64 / few as f64).ln();
    format!("N^{power:.2}")
}

#[cfg(test)]
mod tests {
    use super::*;

    #[test]
    fn growth_is_the_power_of_n() {
        assert_eq!(growth(10, 5.0, 100, 50.0), "N^1.00");
        assert_eq!(growth(10, 5.0, 100, 500.0), "N^2.00");
        assert_eq!(growth(256, 7.0, 1023, 7.0), "N^0.00");
    }

    #[test]
    fn the_parts_of_a_row_stand_below_their_heads() {
        let times = |median| Times { median, lowest: median / 2.0 };
        let cell = |median| Cell { card: times(median), model: times(2.0 * median), word: 0x9000 };
        let sizes = [16, 64, 256, 1023];
        let row = row("ACTIVATE", &sizes, &[1.0, 4.0, 16.0, 64.0].map(cell), &[times(0.5); 4]);
        let bars = |text: &str| -> Vec<usize> {
            text.char_indices().filter(|(_, sign)| *sign == '|').map(|(at, _)| at).collect()
        };
        for head in columns(&sizes).lines() {
            assert_eq!(bars(head), bars(&row));
        }
        assert!(row.starts_with("ACTIVATE") && row.contains("9000") && row.contains(" 0.50"));
        assert!(row.ends_with("  128"), "{row}");
    }

    #[test]
    fn ratios_stand_below_their_sizes() {
        let ratio = |median| Times { median, lowest: 1.007 };
        let row = ratio_row("the root", &[1.2, 1.1, 1.05, 1.012].map(ratio), 3);
        let head = ratio_head("what", &[16, 64, 256, 1023]);
        let head = head.lines().last().expect("a line");
        for (size, ratio) in [("16", "1.200"), ("256", "1.050"), ("1023", "1.012")] {
            let end = |text: &str, part: &str| text.find(part).map(|at| at + part.len());
            assert_eq!(end(head, size), end(&row, ratio), "{head}\n{row}");
        }
        assert!(row.starts_with("the root") && row.contains("| ") && row.contains("1.007"));
    }
}
