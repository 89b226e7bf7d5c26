//! Smaller images: a sound image stays sound where nothing stands against it,
//! and any bytes give an image or nothing.

use cases::damage::{damaged, Field};
use cases::images::sound_image;
use cases::random::Random;
use cases::worst;
use compare::laid::{laid, pool_for, Laying};
use compare::smaller::{cut, freed, lifted, packed, short_records, slots_of, tightened};
use model::soundness::{sound, sound_card};
use model::{bodies, Card};

const LAYINGS: [Laying; 2] = [Laying::High, Laying::Scaled];

/// Sound images of many shapes, the worst cards among them.
fn images() -> impl Iterator<Item = Vec<u8>> {
    let mut random = Random::new(11);
    let worst = [worst::cards_of(64), worst::ruled_of(64)].concat();
    let worst = worst.into_iter().map(|card| card.image);
    worst.chain((0..400).map(move |_| sound_image(&mut random)))
}

fn decoded(image: &[u8]) -> Card {
    Card::decode(image).expect("it has the length of an image")
}

/// Packing cuts the root's total to what so few slots allow; where its files
/// cost no more than that, the image stays sound.
#[test]
fn packing_keeps_an_image_sound() {
    let (mut kept, mut cut) = (0, 0);
    for image in images() {
        let charged = decoded(&image).charged(0);
        for smaller in [0, 1].into_iter().filter_map(|spare| packed(&image, spare)) {
            let fits = charged <= 64 * (slots_of(&smaller) as u64 - 1);
            let smaller = laid(&image, smaller.clone(), Laying::High).unwrap_or(smaller);
            assert_eq!(sound(&smaller), fits, "{smaller:02X?}");
            assert!(smaller.len() < image.len());
            *(if fits { &mut kept } else { &mut cut }) += 1;
        }
    }
    assert!(kept > 50 && cut > 50, "{kept} kept, {cut} cut");
}

#[test]
fn tightening_keeps_an_image_sound() {
    let mut made = 0;
    for image in images() {
        for (room, laying) in [0, 1, 500].into_iter().flat_map(|room| LAYINGS.map(|l| (room, l))) {
            let Some(smaller) = tightened(&image, room) else { continue };
            let smaller = laid(&image, smaller, laying).expect("it has room for its bodies");
            let card = sound_card(&smaller).unwrap_or_else(|| panic!("{smaller:02X?}"));
            assert!(card.room(card.current_df) >= u64::from(room));
            assert_eq!(card.used_slots().count(), decoded(&image).used_slots().count());
            made += 1;
        }
    }
    assert!(made > 400, "{made}");
}

/// Each body holds what it held, as far as it is as long as it was; a pool that
/// was wrong by some bytes is wrong by as many.
#[test]
fn a_smaller_card_keeps_what_its_bodies_hold() {
    let (mut moved, mut random) = (0, Random::new(13));
    for image in images().filter(|image| image.len() < 4000) {
        let (before, length) = (decoded(&image), card::pool_length(&image));
        for (room, laying) in [0, 200].into_iter().flat_map(|room| LAYINGS.map(|l| (room, l))) {
            let Some(smaller) = tightened(&image, room) else { continue };
            let smaller = laid(&image, smaller, laying).expect("it has room for its bodies");
            let after = decoded(&smaller);
            let pool = random.bytes(length.unwrap_or(9) + room as usize / 100);
            let fitted = pool_for(&image, &pool, &smaller);
            let Some((was, is)) = length.zip(card::pool_length(&smaller)) else {
                assert_eq!(fitted, pool, "there are no bodies");
                continue;
            };
            assert_eq!(fitted.len() + was, pool.len() + is);
            let files = |card: &Card| -> Vec<_> {
                card.used_slots().map(|slot| card.record(slot).clone()).collect()
            };
            for (old, new) in files(&before).iter().zip(files(&after)).filter(|(f, _)| f.is_ef()) {
                let (old, new) = (bodies::body(old), bodies::body(&new));
                moved += usize::from(old.start != new.start);
                let held = &pool[old.start..old.start + new.len()];
                assert_eq!(fitted[new], *held, "{smaller:02X?}");
            }
        }
    }
    assert!(moved > 50, "{moved}");
}

#[test]
fn short_records_keep_an_image_sound() {
    let mut changed = 0;
    for image in images() {
        let smaller = short_records(&image).expect("it is an image");
        let card = sound_card(&smaller).unwrap_or_else(|| panic!("{smaller:02X?}"));
        assert!(card.records.iter().all(|record| record.record_length <= 1));
        changed += usize::from(smaller != image);
    }
    assert!(changed > 50, "{changed}");
}

/// Whether two files of one directory, or a file and a directory above it, have
/// one identifier: the only thing that lifting can break.
fn clashes(card: &Card) -> bool {
    let files: Vec<_> = card.used_slots().filter(|&slot| slot != 0).collect();
    let of = |slot: usize| card.record(slot).identifier;
    files.iter().any(|&slot| {
        let beside = |&other: &usize| other != slot && card.parent(other) == card.parent(slot);
        let mut above = std::iter::successors(Some(card.parent(slot)), |&up| {
            (up != 0).then(|| card.parent(up))
        });
        files.iter().filter(|other| beside(other)).any(|&other| of(other) == of(slot))
            || above.any(|up| of(up) == of(slot))
    })
}

/// What lay in the records that are gone lies in the nearest directory that is
/// left, one level beneath it.
#[test]
fn lifting_keeps_what_lies_beneath() {
    let (mut kept, mut clashing) = (0, 0);
    for image in images() {
        let before = decoded(&image);
        for (slot, count) in (1..slots_of(&image)).flat_map(|slot| [(slot, 1), (slot, 3)]) {
            let gone = slot..slot + count;
            let beneath = |&file: &usize| {
                file != 0 && !gone.contains(&file) && gone.contains(&before.parent(file))
            };
            let orphans: Vec<_> = before.used_slots().filter(beneath).collect();
            if orphans.is_empty() {
                continue;
            }
            let smaller = lifted(&image, slot, count).expect("it is an image");
            let after = decoded(&smaller);
            for file in orphans {
                let up = std::iter::successors(Some(file), |&at| Some(before.parent(at)));
                let left = up.skip(1).find(|at| !gone.contains(at)).expect("the root is left");
                assert_eq!(after.parent(file), left);
                assert_eq!(after.record(file).level, after.record(left).level + 1);
            }
            assert_eq!(sound(&smaller), !clashes(&after), "{smaller:02X?}");
            *(if sound(&smaller) { &mut kept } else { &mut clashing }) += 1;
        }
    }
    assert!(kept > 500 && clashing > 5, "{kept} sound, {clashing} not");
}

#[test]
fn any_bytes_give_an_image_or_nothing() {
    let mut random = Random::new(12);
    let mut made = 0;
    for _ in 0..5_000 {
        let card = cases::images::sound_card(&mut random);
        let field = *random.choose(&Field::ALL).expect("there are fields");
        let mut bytes = damaged(&mut random, &card, field);
        if random.chance(20) {
            bytes.truncate(random.below(400));
        }
        let (slot, count) = (random.below(8), random.below(8));
        let all = [
            cut(&bytes, slot),
            freed(&bytes, slot, count),
            lifted(&bytes, slot, count),
            packed(&bytes, slot),
            tightened(&bytes, random.number32()),
            tightened(&bytes, 64),
            short_records(&bytes),
        ];
        for image in all.into_iter().flatten() {
            assert!(image.len() <= bytes.len());
            let pool = pool_for(&bytes, &[0xC3; 300], &image);
            assert!(pool.len() < 300 + (1 << 16));
            made += LAYINGS.map(|laying| laid(&bytes, image.clone(), laying)).len();
        }
    }
    assert!(made > 5_000, "{made}");
}
