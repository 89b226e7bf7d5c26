//! Only the searches by identifier (02, Ticket 5), on the largest cards: each as
//! it is now, beside the plain walk that it was before and the floor.

#[allow(unsafe_code)]
mod ffi;
mod floor;
mod largest;
mod sought;
mod table;
mod turns;

use std::io::{self, Write};
use std::time::Duration;

use cases::worst::{self, Worst, MOST_SLOTS};
use model::Card;

use crate::shapes::FILES;
use largest::Largest;
use sought::{Sort, Sought};
use turns::{compare, Compared};

/// Measures and prints, card by card.
pub fn measure_all(budget: Duration) -> io::Result<()> {
    let mut out = console::output()?;
    writeln!(out, "{}", table::head(MOST_SLOTS))?;
    let mut largest = Largest::default();
    for Worst { title, image } in cards() {
        let card = Card::decode(&image);
        let card = card.ok_or_else(|| io::Error::other(format!("{title}: this is no card")))?;
        writeln!(out, "\n{title}\n{}", table::columns())?;
        for sought in Sought::all(&card) {
            let compared = compared(&image, &sought, budget);
            let compared = compared.map_err(|why| io::Error::other(format!("{title}, {why}")))?;
            writeln!(out, "{}", table::row(&sought, &compared))?;
            largest.see(title, &sought, &compared);
        }
    }
    writeln!(out, "\n{}", largest.told())?;
    out.flush()
}

fn compared(image: &[u8], sought: &Sought, budget: Duration) -> Result<Compared, String> {
    match sought.sort {
        Sort::Child => compare(image, sought, (ffi::child_plainly, ffi::child), budget),
        Sort::Df => compare(image, sought, (ffi::df_plainly, ffi::df), budget),
    }
}

/// All children in one directory, spread over many, and each in one of its own.
fn cards() -> Vec<Worst> {
    let mut cards = worst::one_directory_of(MOST_SLOTS);
    let all = worst::cards();
    for title in [FILES, "deepest nesting"] {
        cards.extend(all.iter().find(|worst| worst.title == title).cloned());
    }
    cards
}

#[cfg(test)]
mod tests {
    use super::*;
    use sought::Place;

    #[test]
    fn three_cards_are_measured() {
        let titles: Vec<_> = cards().iter().map(|worst| worst.title).collect();
        let [one, many, deep] =
            ["one directory of 900 files", "900 files in 40 directories", "deepest nesting"];
        assert_eq!(titles, [one, many, deep]);
        assert!(cards().iter().all(|worst| worst.image.len() == 16 + 64 * 1023));
    }

    /// The searches that are measured find what their rows say.
    #[test]
    fn every_search_agrees_with_the_model() {
        for Worst { title, image } in cards() {
            for sought in Sought::all(&Card::decode(&image).expect("a card")) {
                let compared = compared(&image, &sought, Duration::ZERO);
                assert!(compared.is_ok(), "{title}: {compared:?}");
            }
        }
    }

    /// An EF is no DF; only the floor takes it for one.
    #[test]
    fn each_sort_has_its_own_searches() {
        let image = cards().swap_remove(0).image;
        for (sort, found) in [(Sort::Child, "slot 2"), (Sort::Df, "nothing")] {
            let (place, directory, identifier) = (Place::Nowhere, 1, 0x6000);
            let sought = Sought { sort, place, directory, identifier, slot: None };
            let refused = compared(&image, &sought, Duration::ZERO).expect_err("an EF");
            let told = format!("the floor slot 2, the search before {found}, now {found}");
            assert!(refused.contains(&told), "{refused}");
        }
    }
}
