//! The slowest command of a card at the largest size, and the one whose time grows
//! most, beside what is wanted.

use crate::clock::Times;
use crate::work::Task;
use crate::Cell;

/// A command is to take at most this part of the model's time.
const OF_MODEL: f64 = 0.2;

/// From the second size to the largest, eight times as many slots, its time is to
/// grow at most so many times.
const GROWTH: f64 = 10.0;

/// The most that a command took, in copies of the image, as a part of the
/// model's time and of its own time at the second size, by medians.
#[derive(Default)]
pub struct Slowest {
    in_copies: Option<(f64, Task)>,
    of_model: Option<(f64, Task)>,
    growth: Option<(f64, Task)>,
}

impl Slowest {
    /// Looks at a task; only commands count.
    pub fn see(&mut self, task: Task, cells: &[Cell; 4], copies: &[Times; 4]) {
        let ([_, smaller, _, cell], [.., copy]) = (cells, copies);
        if cell.word == 0 {
            return;
        }
        let larger = |most: Option<(f64, Task)>, ratio: f64| match most {
            Some((most, _)) if most >= ratio => None,
            _ => Some((ratio, task)),
        };
        let (card, model) = (cell.card.median, cell.model.median);
        self.in_copies = larger(self.in_copies, card / copy.median).or(self.in_copies);
        self.of_model = larger(self.of_model, card / model).or(self.of_model);
        self.growth = larger(self.growth, card / smaller.card.median).or(self.growth);
    }

    /// Two lines. Some cards have no bound in copies.
    pub fn told(&self, sizes: &[usize; 4], wanted: Option<f64>) -> String {
        let (Some((copies, slow)), Some((part, slow_of_model)), Some((times, growing))) =
            (self.in_copies, self.of_model, self.growth)
        else {
            return String::new();
        };
        let bound = wanted.map_or("no bound".to_string(), |most| format!("wanted: at most {most}"));
        let [_, smaller, _, slots] = sizes;
        format!(
            "slowest command at N {slots}: {copies:.1} copies ({}; {bound}), {part:.2} of the \
             model's time ({}; wanted: at most {OF_MODEL})\nmost growth from N {smaller} to \
             {slots}: {times:.1}-fold ({}; wanted: at most {GROWTH})",
            slow.title(),
            slow_of_model.title(),
            growing.title()
        )
    }
}

#[cfg(test)]
mod tests {
    use super::*;

    #[test]
    fn only_commands_count_and_the_slowest_is_told() {
        let times = |median| Times { median, lowest: median };
        let cells = |card: f64, model, word| {
            let smaller = [card / 9.0, card / 8.0, card / 4.0, card];
            smaller.map(|card| Cell { card: times(card), model: times(model), word })
        };
        let sizes = [16, 128, 256, 1023];
        let copies = [times(2.0); 4];
        let mut slowest = Slowest::default();
        assert_eq!(slowest.told(&sizes, None), "");
        slowest.see(Task::Report, &cells(99.0, 1.0, 0), &copies);
        slowest.see(Task::CreateEf, &cells(19.0, 200.0, 0x9000), &copies);
        slowest.see(Task::Activate, &cells(12.0, 100.0, 0x9000), &copies);
        assert_eq!(
            slowest.told(&sizes, Some(10.0)),
            "slowest command at N 1023: 9.5 copies (CREATE, an EF; wanted: at most 10), 0.12 of \
             the model's time (ACTIVATE; wanted: at most 0.2)\nmost growth from N 128 to 1023: \
             8.0-fold (CREATE, an EF; wanted: at most 10)"
        );
        assert!(slowest.told(&sizes, None).contains("9.5 copies (CREATE, an EF; no bound)"));
    }
}
