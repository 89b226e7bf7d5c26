//! 02, Ticket 7: which rule decides on a file, and where it stands; A63, A64, A69
//! and A70.

use crate::common::*;
use crate::lent::Lent;
use model::deciding::{deciding, place_of, rule_of, Lost, Place};
use model::lines::Case;
use model::sound;

/// Where the rules stand in the tree, from the root downwards.
const IN_ROOT: usize = 1;
const IN_DF: usize = 3;
const IN_DEEP: usize = 5;
/// The files that are ruled: a DF, a DF in it, an EF in that, and one beside.
const DF: usize = 2;
const DEEP: usize = 4;
const EF: usize = 6;
const RULE_FILES: [usize; 3] = [IN_ROOT, IN_DF, IN_DEEP];
const RULED: [usize; 4] = [0, DF, DEEP, EF];

const RULE: &str = "8001089000";

/// 3F00 { 2F06, 7F10 { 2F06, 7F20 { 2F06, 6F01 } } }, slots in this order 1 to
/// 6. Each 2F06 has three records of eight bytes, all with the rule; all other
/// files, the root among them, are ruled by record 2 of a 2F06.
fn tree() -> Lent {
    let df = |identifier: &str, total: u16| {
        create(&format!("82027821 8302{identifier} 8A0105 8C08{OPEN} 8102{total:04X} C60100"))
    };
    let mut lent = Lent::with(
        24,
        &[
            create_records("2F06", 0x42, 8, 24),
            df("7F10", 1000),
            create_records("2F06", 0x42, 8, 24),
            df("7F20", 500),
            create_records("2F06", 0x42, 8, 24),
            create_ef("6F01", 9, OPEN),
        ],
    );
    for slot in RULED {
        set_reference(&mut lent, slot, "2F0602");
    }
    for (slot, number) in RULE_FILES.into_iter().flat_map(|slot| [(slot, 1), (slot, 2), (slot, 3)])
    {
        set_record(&mut lent, slot, number, RULE);
    }
    lent
}

/// Gives a file a referred rule, of any three bytes.
fn set_reference(lent: &mut Lent, slot: usize, reference: &str) {
    crate::security::set_rule(lent, slot, 2, reference);
}

/// Puts bytes and padding into a record of eight.
fn set_record(lent: &mut Lent, slot: usize, number: usize, text: &str) {
    let mut record = bytes(text);
    record.resize(8, 0xFF);
    let at = lent.body(slot).start + 8 * (number - 1);
    lent.pool[at..at + 8].copy_from_slice(&record);
}

/// Changes bytes of a slot's record; the image stays sound.
fn set_bytes(lent: &mut Lent, slot: usize, at: usize, text: &str) {
    let (bytes, at) = (bytes(text), 16 + 64 * slot + at);
    lent.image[at..at + bytes.len()].copy_from_slice(&bytes);
    assert!(sound(&lent.image), "slot {slot}, {text}");
}

fn rename(lent: &mut Lent, slot: usize, identifier: &str) {
    set_bytes(lent, slot, 4, identifier);
}

/// Makes a 2F06 transparent, cyclic, an internal linear fixed one, or a DF.
fn make_transparent(lent: &mut Lent, slot: usize) {
    lent.image[16 + 64 * slot + 10..16 + 64 * slot + 12].fill(0);
    set_bytes(lent, slot, 1, "41");
}
fn make_cyclic(lent: &mut Lent, slot: usize) {
    set_bytes(lent, slot, 1, "46");
}
fn make_internal(lent: &mut Lent, slot: usize) {
    set_bytes(lent, slot, 1, "4A");
}
fn make_df(lent: &mut Lent, slot: usize) {
    lent.image[16 + 64 * slot + 62..80 + 64 * slot].fill(0);
    lent.image[16 + 64 * slot + 10..16 + 64 * slot + 12].fill(0);
    set_bytes(lent, slot, 0, "0138");
}

/// Where the rule of a file is found, or why not.
fn found(lent: &Lent, slot: usize) -> Result<Place, Lost> {
    let card = lent.card();
    let found = rule_of(&card, &lent.pool, slot).map(|deciding| {
        let read = deciding.place.bytes(&lent.image, &lent.pool);
        assert_eq!(deciding.rule, read, "the bytes of the place");
        deciding.place
    });
    let place = found.unwrap_or(Place::Nowhere);
    assert_eq!(place_of(&lent.image, &lent.pool, slot), (0, place));
    assert_eq!(deciding(&lent.image, &lent.pool, slot), place);
    found
}

/// The rule in a record of a 2F06.
fn in_record(lent: &Lent, slot: usize, number: usize, length: usize) -> Result<Place, Lost> {
    let from = lent.body(slot).start + 8 * (number - 1);
    Ok(Place::InPool { from, to: from + length })
}

/// A64: in the DF that holds the file, for the root in the root; then above. A
/// file in the ruled DF is not searched for the DF itself.
#[test]
fn the_nearest_above_counts() {
    for gone in 0..8 {
        let is_gone = |slot: &usize| {
            RULE_FILES.iter().position(|one| one == slot).is_some_and(|bit| gone & 1 << bit != 0)
        };
        let mut lent = tree();
        for slot in RULE_FILES.into_iter().filter(is_gone) {
            rename(&mut lent, slot, "2F07");
        }
        for (slot, searched) in [
            (0, &[IN_ROOT][..]),
            (DF, &[IN_ROOT]),
            (DEEP, &[IN_DF, IN_ROOT]),
            (EF, &[IN_DEEP, IN_DF, IN_ROOT]),
        ] {
            let nearest = searched.iter().find(|slot| !is_gone(slot));
            let wanted = nearest.map_or(Err(Lost::NoRuleFile), |&at| in_record(&lent, at, 2, 5));
            assert_eq!(found(&lent, slot), wanted, "slot {slot}, gone {gone:03b}");
        }
    }
}

/// Files beneath, beside a directory above, and the directories above
/// themselves are not where it is looked for.
#[test]
fn not_beneath_and_not_aside() {
    let mut lent = tree();
    let aside = [select("3F00"), create_df("7F30", 100, OPEN), create_records("2F08", 0x42, 8, 24)];
    crate::security::set_rule(&mut lent, 0, 0, OPEN);
    for text in aside {
        assert_eq!(lent.word(&text), 0x9000, "{text}");
    }
    for slot in [0, DF, DEEP, EF] {
        for nowhere in ["2F0802", "3F0002", "000002", "FFFF02"] {
            set_reference(&mut lent, slot, nowhere);
            assert_eq!(found(&lent, slot), Err(Lost::NoRuleFile), "slot {slot}, {nowhere}");
        }
    }
    set_reference(&mut lent, 0, "6F0102");
    assert_eq!(found(&lent, 0), Err(Lost::NoRuleFile), "beneath");
}

/// A63: a nearer file of another kind denies, and the search does not go on.
#[test]
fn a_nearer_file_of_another_kind_denies() {
    let others: [fn(&mut Lent, usize); 3] = [make_transparent, make_cyclic, make_df];
    for (slot, nearest) in [(0, IN_ROOT), (DF, IN_ROOT), (DEEP, IN_DF), (EF, IN_DEEP)] {
        for (number, change) in others.into_iter().enumerate() {
            let mut lent = tree();
            change(&mut lent, nearest);
            assert_eq!(found(&lent, slot), Err(Lost::OtherKind), "slot {slot}, {number}");
        }
        let mut lent = tree();
        make_internal(&mut lent, nearest);
        assert_eq!(found(&lent, slot), in_record(&lent, nearest, 2, 5), "an internal EF");
    }
    // The reference of a file that a directory of that name holds.
    let mut lent = tree();
    set_reference(&mut lent, EF, "7F2002");
    assert_eq!(found(&lent, EF), Err(Lost::OtherKind));
    set_reference(&mut lent, DF, "7F1002");
    assert_eq!(found(&lent, DF), Err(Lost::Itself), "the DF in its parent");
}

#[test]
fn the_records_number() {
    for slot in RULED {
        let mut lent = tree();
        let nearest = [IN_ROOT, IN_ROOT, IN_DF, IN_DEEP][slot / 2];
        for number in 0..=255 {
            set_reference(&mut lent, slot, &format!("2F06{number:02X}"));
            let wanted = match number {
                1..=3 => in_record(&lent, nearest, number, 5),
                _ => Err(Lost::NoSuchRecord),
            };
            assert_eq!(found(&lent, slot), wanted, "slot {slot}, record {number}");
        }
    }
}

/// A69: whichever record it names; a file further up is not taken instead.
#[test]
fn a_file_that_names_itself() {
    let mut lent = tree();
    for slot in RULE_FILES {
        for reference in ["2F0601", "2F0602", "2F0600", "2F06FF"] {
            set_reference(&mut lent, slot, reference);
            assert_eq!(found(&lent, slot), Err(Lost::Itself), "slot {slot}, {reference}");
        }
    }
    for slot in RULED {
        assert!(found(&lent, slot).is_ok(), "others are still ruled by them, slot {slot}");
    }
    rename(&mut lent, IN_DEEP, "2F07");
    assert_eq!(found(&lent, IN_DEEP), Err(Lost::NoSuchRecord), "another of that name");
    set_reference(&mut lent, IN_DEEP, "2F0603");
    assert_eq!(found(&lent, IN_DEEP), in_record(&lent, IN_DF, 3, 5));
}

/// Two rule files that name each other, and life cycles: not regarded.
#[test]
fn the_rule_files_own_rule_and_life_cycle() {
    let mut lent = tree();
    rename(&mut lent, IN_DEEP, "2F07");
    set_reference(&mut lent, IN_DEEP, "2F0601");
    set_reference(&mut lent, IN_DF, "2F0701");
    set_reference(&mut lent, EF, "2F0703");
    assert_eq!(found(&lent, IN_DEEP), in_record(&lent, IN_DF, 1, 5));
    assert_eq!(found(&lent, IN_DF), Err(Lost::NoRuleFile));
    for life_cycle in ["01", "03", "04", "05", "06", "07", "0C"] {
        set_bytes(&mut lent, IN_DEEP, 2, life_cycle);
        assert_eq!(found(&lent, EF), in_record(&lent, IN_DEEP, 3, 5), "{life_cycle}");
    }
}

/// Answers 1 and 6 in this order; a slot without a file is no refusal; on older
/// versions a pool of any length is fine.
#[test]
fn the_calls_answers() {
    let lent = tree();
    for slot in [7, 23, 24, 1000, usize::MAX] {
        assert_eq!(place_of(&lent.image, &lent.pool, slot), (0, Place::Nowhere), "slot {slot}");
    }
    for length in [0, 1, lent.pool.len() - 1, lent.pool.len() + 1] {
        let pool = vec![0xFF; length];
        assert_eq!(place_of(&lent.image, &pool, EF), (6, Place::Nowhere), "{length}");
        let mut unsound = lent.image.clone();
        unsound[0] ^= 1;
        assert_eq!(place_of(&unsound, &pool, EF), (1, Place::Nowhere), "{length}");
    }
    for version in [1, 2] {
        let image = made(version, 8, 448, 0, OPEN);
        for pool in [&[][..], &[1, 2, 3]] {
            let place = Place::InImage { from: 50, to: 58 };
            assert_eq!(place_of(&image, pool, 0), (0, place), "version {version}");
        }
    }
}

/// Forms 0 and 1 of each version: in the record of the file itself.
#[test]
fn a_rule_in_the_files_own_record() {
    for (version, form, rule) in
        [(1, 0, OPEN), (2, 0, OPEN), (2, 1, "80017F9000"), (3, 0, OPEN), (3, 1, "80017F9000")]
    {
        let mut image = made(version, 8, 448, form, rule);
        let text = create_ef_ruled("6F01", &object([0x8C, 0xAB][form as usize], rule));
        assert_eq!(run(&mut image, &text), 0x9000);
        for (slot, from) in [(0, 16 + 34), (1, 16 + 64 + 34)] {
            let (pool, to) = (pool_for(&image), from + bytes(rule).len());
            assert_eq!(place_of(&image, &pool, slot), (0, Place::InImage { from, to }));
            let case = Case::Deciding { image: image.clone(), pool, slot };
            assert_eq!(case.result(), format!("D record {from} {rule}"));
        }
    }
}
