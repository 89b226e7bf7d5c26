//! What is sought on a card, and where the model finds it.

use model::card::ROOT;
use model::Card;

/// An identifier that no file of the cards has.
const NO_FILES: u16 = 0x5555;

/// What a search looks for.
#[derive(Clone, Copy, PartialEq, Eq, Debug)]
pub enum Sort {
    Child,
    Df,
}

impl Sort {
    const ALL: [Sort; 2] = [Sort::Child, Sort::Df];

    fn title(self) -> &'static str {
        match self {
            Sort::Child => "child",
            Sort::Df => "DF",
        }
    }

    fn has(self, card: &Card, slot: usize) -> bool {
        self == Sort::Child || card.record(slot).is_df()
    }

    /// The slot of the child of directory `d` with identifier `x`, as the model
    /// finds it.
    pub fn found(self, card: &Card, d: usize, x: u16) -> Option<usize> {
        card.children(d).find(|&slot| card.record(slot).identifier == x && self.has(card, slot))
    }
}

/// Where it stands among those of its sort.
#[derive(Clone, Copy, PartialEq, Eq, Debug)]
pub enum Place {
    First,
    Last,
    Nowhere,
}

impl Place {
    fn title(self) -> &'static str {
        match self {
            Place::First => "found first",
            Place::Last => "found last",
            Place::Nowhere => "not found",
        }
    }
}

/// One search on a card.
#[derive(Clone, PartialEq, Eq, Debug)]
pub struct Sought {
    pub sort: Sort,
    pub place: Place,
    pub directory: usize,
    pub identifier: u16,
    /// Where the model finds it.
    pub slot: Option<usize>,
}

impl Sought {
    /// Every search that is measured on a card.
    pub fn all(card: &Card) -> Vec<Sought> {
        Sort::ALL.into_iter().flat_map(|sort| Sought::of_sort(card, sort)).collect()
    }

    /// The first and the last file of the sort, each in its own directory, and
    /// nothing in that of the last file of all. A single one is sought once.
    fn of_sort(card: &Card, sort: Sort) -> Vec<Sought> {
        let files = card.used_slots().filter(|&slot| slot != ROOT && sort.has(card, slot));
        let files: Vec<_> = files.collect();
        let in_its_directory = |&slot| (card.parent(slot), card.record(slot).identifier);
        let first = files.first().map(in_its_directory);
        let last = files.iter().skip(1).last().map(in_its_directory);
        let directory = card.used_slots().last().map_or(ROOT, |slot| card.parent(slot));
        let nowhere = Some((directory, NO_FILES));
        [(Place::First, first), (Place::Last, last), (Place::Nowhere, nowhere)]
            .into_iter()
            .filter_map(|(place, sought)| {
                let (directory, identifier) = sought?;
                let slot = sort.found(card, directory, identifier);
                Some(Sought { sort, place, directory, identifier, slot })
            })
            .collect()
    }

    pub fn title(&self) -> String {
        format!("{}, {}", self.sort.title(), self.place.title())
    }
}

#[cfg(test)]
mod tests {
    use super::*;
    use crate::searches::cards;

    /// Titles, directories and slots.
    fn all(number: usize) -> Vec<(String, usize, Option<usize>)> {
        let card = Card::decode(&cards()[number].image).expect("a card");
        let all = Sought::all(&card).into_iter();
        all.map(|sought| (sought.title(), sought.directory, sought.slot)).collect()
    }

    fn row(title: &str, directory: usize, slot: Option<usize>) -> (String, usize, Option<usize>) {
        (title.to_string(), directory, slot)
    }

    #[test]
    fn a_single_directory_is_sought_once() {
        let rows = [
            row("child, found first", 0, Some(1)),
            row("child, found last", 1, Some(901)),
            row("child, not found", 1, None),
            row("DF, found first", 0, Some(1)),
            row("DF, not found", 1, None),
        ];
        assert_eq!(all(0), rows);
    }

    #[test]
    fn the_last_directory_is_not_the_last_file() {
        let rows = [
            row("child, found first", 0, Some(1)),
            row("child, found last", 20, Some(940)),
            row("child, not found", 20, None),
            row("DF, found first", 0, Some(1)),
            row("DF, found last", 0, Some(40)),
            row("DF, not found", 20, None),
        ];
        assert_eq!(all(1), rows);
    }

    #[test]
    fn the_deepest_directory_is_both() {
        let rows = ["child", "DF"].map(|sort| {
            [
                row(&format!("{sort}, found first"), 0, Some(1)),
                row(&format!("{sort}, found last"), 1020, Some(1021)),
                row(&format!("{sort}, not found"), 1020, None),
            ]
        });
        assert_eq!(all(2), rows.concat());
    }

    /// An identifier that a file has somewhere would not be sought for nothing.
    #[test]
    fn no_file_has_the_identifier_that_is_not_found() {
        for worst in cards() {
            let card = Card::decode(&worst.image).expect("a card");
            assert!(card.records.iter().all(|record| record.identifier != NO_FILES));
        }
    }
}
