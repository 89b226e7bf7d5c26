//! Images: every sound one is sound, nearly every damaged one is not, and the
//! worst-case cards are as announced.

use std::collections::BTreeMap;

use crate::common::say;
use cases::damage::{damaged, Field};
use cases::images::sound_card;
use cases::{worst, Random};
use model::soundness::{card_is_sound, sound_card as decoded};
use model::{report, sound};

#[test]
fn every_sound_image_is_sound() {
    let mut random = Random::new(5);
    let (mut deepest, mut most, mut with_ef) = (0, 0, 0);
    for number in 0..2000 {
        let card = sound_card(&mut random);
        assert!(card_is_sound(&card), "image {number}");
        let image = card.encode();
        assert!(sound(&image), "image {number}, encoded");
        assert_eq!(decoded(&image), Some(card.clone()), "image {number}, decoded again");
        deepest = deepest.max(card.records.iter().map(|record| record.level).max().unwrap_or(0));
        most = most.max(card.used_slots().count());
        with_ef += usize::from(card.current_ef.is_some());
    }
    assert!(deepest >= 6, "deepest level {deepest}");
    assert!(most >= 100, "most files {most}");
    assert!(with_ef >= 400, "{with_ef} with a current EF");
}

/// Nearly every damage makes the image unsound. The rest happens to be sound:
/// for instance a level or size that fits as well, or a free record chosen on
/// a card without one.
#[test]
fn nearly_every_damaged_image_is_unsound() {
    const EACH: usize = 150;
    let mut random = Random::new(6);
    let mut still_sound = BTreeMap::new();
    for field in Field::ALL {
        for _ in 0..EACH {
            let card = sound_card(&mut random);
            let image = damaged(&mut random, &card, field);
            *still_sound.entry(field).or_insert(0) += usize::from(sound(&image));
        }
    }
    let all = EACH * Field::ALL.len();
    let left: usize = still_sound.values().sum();
    let share = 100.0 * (all - left) as f64 / all as f64;
    say(&format!("damaged images: {share:.1} in a hundred of {all} are unsound"));
    assert!(share >= 97.0, "{still_sound:?}");
    for (field, count) in still_sound {
        assert!(count <= EACH / 4, "{field:?} leaves {count} of {EACH} sound");
    }
}

#[test]
fn the_worst_cards_are_sound_and_as_announced() {
    let cards = worst::cards();
    assert_eq!(cards.len(), 4);
    for card in &cards {
        assert!(sound(&card.image), "{}", card.title);
        assert_eq!(card.image.len(), 16 + 64 * 1023, "{}", card.title);
    }
    let decoded_cards: Vec<_> = cards.iter().filter_map(|card| decoded(&card.image)).collect();
    let [deep, names, one, many] = decoded_cards.as_slice() else {
        panic!("four cards");
    };
    assert_eq!(deep.above(deep.current_df).len(), 1021, "deepest nesting");
    assert!(deep.room(deep.current_df) < 65, "no deeper");
    let named = names.records.iter().filter(|record| !record.name.is_empty()).count();
    assert_eq!(named, 65_408 / 65, "all names");
    let same = one.records.iter().filter(|record| record.identifier == 0x6F07).count();
    let directories = one.records.iter().filter(|record| record.is_df()).count();
    assert_eq!((same, directories), (65_408 / 129, 65_408 / 129 + 1), "one identifier");
    let files = many.records.iter().filter(|record| record.is_ef()).count();
    let directories = many.records.iter().filter(|record| record.is_df()).count();
    assert_eq!((files, directories), (900, 41), "900 files in 40 directories and the root");
}

#[test]
fn one_directory_holds_nine_hundred_files() {
    let [worst] = worst::one_directory_of(1023).try_into().expect("one card");
    let card = decoded(&worst.image).expect("a sound card");
    assert_eq!(card.children(0).collect::<Vec<_>>(), [1], "one directory in the root");
    let files: Vec<_> = card.children(1).collect();
    assert_eq!(files, (2..902).collect::<Vec<_>>(), "{}", worst.title);
    assert!(files.into_iter().all(|slot| card.record(slot).is_ef()), "{}", worst.title);
}

#[test]
fn reports_on_the_worst_cards() {
    let numbers: Vec<_> = worst::cards().iter().map(|card| report(&card.image)).collect();
    assert_eq!(numbers[0], (0, [64, 64, 0, 0]));
    assert_eq!(numbers[1], (0, [65_408, 65_408 - 1006 * 65, 1006, 1006]));
    assert_eq!(numbers[2], (0, [65_408, 65_408 - 507 * 129, 507, 1014]));
    assert_eq!(numbers[3].1[2..], [22, 22]);
}

#[test]
fn the_worst_cards_with_fewer_slots_are_sound() {
    for slots in [16, 64, 256, 1023] {
        let others = [worst::slow_of(slots), worst::one_directory_of(slots)].concat();
        let cards = [worst::cards_of(slots), others, worst::ruled_of(slots)];
        for card in cards.concat() {
            assert!(sound(&card.image), "{} of {slots} slots", card.title);
            assert_eq!(card.image.len(), 16 + 64 * slots, "{}", card.title);
            let used = decoded(&card.image).map_or(0, |card| card.used_slots().count());
            assert!(used * 4 > slots * 3, "{} of {slots} slots uses {used}", card.title);
        }
    }
}
