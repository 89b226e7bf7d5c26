//! 02, Ticket 4: where a new body lies, what moves for it, and which bytes of the
//! pool become 00 or FF.

use std::ops::Range;

use crate::common::*;
use crate::lent::{moved, pattern, Lent};
use model::bodies::{body, in_order};
use model::words::*;

/// A CREATE that succeeds; gives where the new EF's body is.
#[track_caller]
fn new_body(lent: &mut Lent, text: &str) -> Range<usize> {
    assert_eq!(lent.word(text), SUCCESS, "{text}");
    lent.body(lent.card().current_ef.expect("a new EF is current"))
}

/// Five EFs of 10, 20, 5, 30 and 5 bytes, one above the other; of 1,216 bytes.
fn five() -> Lent {
    let sizes = [10, 20, 5, 30, 5].into_iter().enumerate();
    let commands: Vec<_> =
        sizes.map(|(n, size)| create_ef(&format!("6F0{n}"), size, OPEN)).collect();
    Lent::with(20, &commands)
}

#[test]
fn a_new_body_is_all_ff() {
    let mut lent = Lent::fresh(8, 448);
    for (text, body) in [
        (create_ef("6F01", 1, OPEN), 0..1),
        (create_ef("6F02", 100, OPEN), 1..101),
        // A60: what 85 and A5 hold does not matter.
        (create("82024121 83026F03 8A0104 8C0100 80020003 8503112233"), 101..104),
        (create_records("6F04", 0x46, 2, 4), 104..108),
    ] {
        assert_eq!(new_body(&mut lent, &text), body, "{text}");
        let mut wanted = vec![0xFF; body.end];
        wanted.extend(&pattern(448)[body.end..]);
        assert_eq!(lent.pool, wanted, "{text}");
    }
}

#[test]
fn a_directory_leaves_the_pool() {
    let mut lent = five();
    let pool = lent.pool.clone();
    assert_eq!(lent.word(&create_df("7F10", 100, OPEN)), SUCCESS);
    assert_eq!(lent.pool, pool);
    let slot = lent.card().current_df;
    assert_eq!(lent.body(slot).start, 0);
}

/// A53: gaps of 20 bytes at 10 and of 30 at 35, and all above 70.
#[test]
fn the_lowest_gap_that_fits() {
    for (size, start) in
        [(1, 10), (19, 10), (20, 10), (21, 35), (29, 35), (30, 35), (31, 70), (200, 70)]
    {
        let mut lent = five();
        for text in [delete("6F01"), delete("6F03")] {
            assert_eq!(lent.word(&text), SUCCESS);
        }
        let before = lent.pool.clone();
        let body = new_body(&mut lent, &create_ef("6F07", size, OPEN));
        assert_eq!(body, start..start + size as usize, "{size} bytes");
        let mut wanted = before;
        wanted[body].fill(0xFF);
        assert_eq!(lent.pool, wanted, "nothing else is touched");
        let starts: Vec<_> = [1, 3, 5].into_iter().map(|slot| lent.body(slot).start).collect();
        let new_slot = lent.card().current_ef;
        assert_eq!((starts[1], starts[2], new_slot), (30, 65, Some(2)), "no other body moved");
    }
}

#[test]
fn deleted_bytes_become_00() {
    let mut lent = five();
    let mut wanted = lent.pool.clone();
    for (identifier, body) in [("6F01", 10..30), ("6F04", 65..70), ("6F00", 0..10)] {
        assert_eq!(lent.word(&delete(identifier)), SUCCESS);
        wanted[body].fill(0x00);
        assert_eq!(lent.pool, wanted, "{identifier}");
    }
}

/// Of a directory all bodies beneath, at any depth, and no other.
#[test]
fn a_directory_is_deleted_with_its_bodies() {
    let mut lent = Lent::with(
        32,
        &[
            create_ef("6F01", 7, OPEN),
            create_df("7F10", 1000, OPEN),
            create_ef("6F02", 11, OPEN),
            create_df("7F20", 500, OPEN),
            create_ef("6F03", 13, OPEN),
            select("3F00"),
            create_ef("6F04", 17, OPEN),
            select("7F10"),
            create_ef("6F05", 19, OPEN),
            select("3F00"),
        ],
    );
    let mut wanted = lent.pool.clone();
    assert_eq!(lent.word(&delete("7F10")), SUCCESS);
    for body in [7..18, 18..31, 48..67] {
        wanted[body].fill(0x00);
    }
    assert_eq!(lent.pool, wanted);
    assert_eq!(lent.pool[31..48], [0xFF; 17], "a body between stays");
}

/// Two EFs of 3 and 2 bytes, of 320; none of the gaps of 100, 102 and 113 holds
/// 123, which the room just pays.
fn fragmented() -> Lent {
    let mut lent = Lent::with(6, &[create_ef("6F01", 3, OPEN), create_ef("6F02", 2, OPEN)]);
    lent.pool = pattern(320);
    moved(&lent, &[100, 205])
}

/// A51: bytes of bodies that none has afterwards become 00; free bytes that were
/// never in a body stay, also above.
#[test]
fn packing_to_the_byte() {
    let mut lent = fragmented();
    assert_eq!(lent.word(&create_ef("6F03", 124, OPEN)), NOT_ENOUGH_MEMORY);
    assert_eq!(new_body(&mut lent, &create_ef("6F03", 123, OPEN)), 5..128);
    assert_eq!([1, 2].map(|slot| lent.body(slot)), [0..3, 3..5]);
    let before = pattern(320);
    let mut wanted = [&before[100..103], &before[205..207], &[0xFF; 123]].concat();
    wanted.extend(&before[128..205]);
    wanted.extend([0x00, 0x00]);
    wanted.extend(&before[207..]);
    assert_eq!(lent.pool, wanted);
}

/// One byte less and a gap of 122 takes it: nothing moves.
#[test]
fn nothing_moves_where_a_gap_fits() {
    for (size, start, moves) in [(113, 207, false), (114, 5, true)] {
        let mut lent = fragmented();
        let body = new_body(&mut lent, &create_ef("6F03", size, OPEN));
        assert_eq!(body.start, start, "{size} bytes");
        assert_eq!(lent.body(1).start == 100 && lent.body(2).start == 205, !moves);
    }
}

/// A52: in the order of starts, whatever the slots.
#[test]
fn packing_goes_by_starts_and_not_by_slots() {
    let lent = fragmented();
    let mut other = moved(&lent, &[205, 100]);
    assert_eq!(new_body(&mut other, &create_ef("6F03", 123, OPEN)), 5..128);
    assert_eq!([1, 2].map(|slot| other.body(slot)), [2..5, 0..2]);
    let before = pattern(320);
    assert_eq!(other.pool[..5], [&before[100..102], &before[205..208]].concat());
}

/// A body that is moved by less than its length, onto itself: none of the three
/// gaps of 99 bytes holds 105.
#[test]
fn a_body_moves_onto_itself() {
    let mut lent = Lent::with(8, &[create_ef("6F01", 150, OPEN), create_ef("6F02", 1, OPEN)]);
    lent.pool = pattern(448);
    let mut lent = moved(&lent, &[99, 348]);
    assert_eq!(new_body(&mut lent, &create_ef("6F03", 105, OPEN)), 151..256);
    let before = pattern(448);
    let mut wanted = [&before[99..249], &before[348..349], &[0xFF; 105], &before[256..]].concat();
    wanted[348] = 0x00;
    assert_eq!(lent.pool, wanted);
}

/// The bodies of a card in their order, each with its slot.
fn bodies_of(lent: &Lent) -> Vec<(usize, Range<usize>)> {
    let card = lent.card();
    in_order(&card).into_iter().map(|slot| (slot, body(card.record(slot)))).collect()
}

/// What the ticket says of a CREATE, said of each byte of the pool: the bodies
/// afterwards, and the place of the new one.
fn told(
    before: &[(usize, Range<usize>)],
    pool_length: usize,
    size: usize,
) -> (Vec<(usize, Range<usize>)>, Range<usize>) {
    let taken: Vec<bool> =
        (0..pool_length).map(|at| before.iter().any(|(_, body)| body.contains(&at))).collect();
    let fits = |start: &usize| taken[*start..start + size].iter().all(|&taken| !taken);
    if let Some(start) = (0..=pool_length - size).find(fits) {
        return (before.to_vec(), start..start + size);
    }
    let mut end = 0;
    let packed = before.iter().map(|(slot, body)| {
        let start = end;
        end += body.len();
        (*slot, start..end)
    });
    let packed = packed.collect();
    (packed, end..end + size)
}

/// The bytes afterwards: FF in the new body, in a body what it held, 00 where
/// one was, else what was there.
fn told_pool(
    pool: &[u8],
    before: &[(usize, Range<usize>)],
    after: &[(usize, Range<usize>)],
    new: &Range<usize>,
) -> Vec<u8> {
    let byte = |at: usize| {
        let of_a_body = before.iter().zip(after).find_map(|((_, old), (_, body))| {
            body.contains(&at).then(|| pool[old.start + at - body.start])
        });
        match (new.contains(&at), of_a_body) {
            (true, _) => 0xFF,
            (false, Some(held)) => held,
            (false, None) if before.iter().any(|(_, body)| body.contains(&at)) => 0x00,
            (false, None) => pool[at],
        }
    };
    (0..pool.len()).map(byte).collect()
}

/// Files of the root, one to six, with all that is free between them by chance.
fn by_chance(random: &mut Random) -> Lent {
    let files = 1 + random.below(6);
    let largest = [3, 30, 90][random.below(3)];
    let commands: Vec<_> = (0..files)
        .map(|n| create_ef(&format!("6F0{n}"), 1 + random.below(largest) as u32, OPEN))
        .collect();
    let mut lent = Lent::with(16, &commands);
    lent.pool = (0..960).map(|_| random.next() as u8).collect();
    let mut order: Vec<usize> = (1..=files).collect();
    let (mut at, mut free) =
        (0, 960 - order.iter().map(|&slot| lent.body(slot).len()).sum::<usize>());
    while !order.is_empty() {
        let slot = order.swap_remove(random.below(order.len()));
        let gap = [0, random.below(free + 1), (free + 1) / (order.len() + 2)][random.below(3)];
        (at, free) = (at + gap, free - gap);
        lent.set_start(slot, at as u16);
        at += lent.body(slot).len();
    }
    lent
}

#[test]
fn every_layout_goes_as_the_ticket_says() {
    let mut random = Random(5);
    let (mut in_gaps, mut packed) = (0, 0);
    for _ in 0..3000 {
        let mut lent = by_chance(&mut random);
        let room = lent.card().room(0) as usize - 64;
        let size =
            [1 + random.below(room), room, room - random.below(room.min(200))][random.below(3)];
        let (before, pool) = (bodies_of(&lent), lent.pool.clone());
        let new = new_body(&mut lent, &create_ef("6FFF", size as u32, OPEN));
        let (after, wanted) = told(&before, pool.len(), size);
        let new_slot = lent.card().current_ef;
        let mut others = bodies_of(&lent);
        others.retain(|(slot, _)| Some(*slot) != new_slot);
        assert_eq!((&new, &others), (&wanted, &after), "{size} bytes beside {before:?}");
        let pool_after = told_pool(&pool, &before, &after, &new);
        assert_eq!(lent.pool, pool_after, "{size} bytes beside {before:?}");
        packed += usize::from(before != after);
        in_gaps += usize::from(after.iter().any(|(_, body)| body.start > new.start));
    }
    assert!(packed > 300 && in_gaps > 300, "{packed} packed, {in_gaps} in gaps");
}

/// 6A84 keeps its meaning: the room alone decides, however the pool lies.
#[test]
fn the_room_alone_decides() {
    let mut random = Random(6);
    for _ in 0..500 {
        let lent = by_chance(&mut random);
        let most = lent.card().room(0) as u32 - 64;
        for (size, word) in [(most, SUCCESS), (most + 1, NOT_ENOUGH_MEMORY)] {
            assert_eq!(lent.clone().word(&create_ef("6FFF", size, OPEN)), word, "{lent:02X?}");
        }
    }
}
