//! No input makes the model panic: random bytes of random lengths, the empty
//! ones included, at every public function, and images with one byte changed.

use crate::common::*;
use model::edition::{Edition, Version};
use model::lines::{from_hex, hex, Case};
use model::rule::{Form, Right};
use model::security::condition_holds;
use model::{bytes as numbers, *};

/// Calls everything that takes an image.
fn call_with_image(image: &[u8], random: &mut Random) {
    let bytes = random.bytes(40);
    let state = random.state();
    let mut after = image.to_vec();
    let mut response = random.bytes(60);
    let mut pool = random.bytes(60);
    let outcome = command(&mut after, &mut pool, &bytes, &mut response, &state);
    assert!([0, 1, 5, 6].contains(&outcome.answer));
    number_fits(&outcome);
    assert!(outcome.data <= response.len());
    assert_eq!(after.len(), image.len());
    select_with_templates(image, random);
    read_and_update(image, random);
    assert_eq!(report(image).0 == 0, sound(image));
    let _ = ledger::current_df_slot(image);
    if let Some(card) = Card::decode(image) {
        assert_eq!(card.encode(), image, "decoding loses nothing");
        for slot in [0, card.current_df, random.below(2000), usize::MAX] {
            let _ = (card.above(slot), card.beneath(slot).len(), card.children(slot).count());
            let _ = (card.room(slot), card.charged(slot), card.record(slot).charge());
            let _ = (card.is_terminated(slot), card.is_terminated_above(slot));
            let pool = random.bytes(60);
            let _ = deciding::decide(&card, &pool, slot, Right::READ, &state);
            let (answer, place) = deciding::place_of(image, &pool, slot);
            assert!([0, 1, 6].contains(&answer));
            let _ = place.bytes(&pool, image);
            let mut changed = card.clone();
            changed.put(slot, Record::FREE);
            changed.set_life_cycle(slot, 5);
            changed.make_current(slot);
            changed.set_start(slot, random.next() as u16);
            let mut pool = random.bytes(60);
            bodies::wipe(changed.record(slot), &mut pool);
            let _ = (
                bodies::place(&mut changed, &mut pool, random.next() as u32),
                bodies::lie_apart(&changed),
            );
            let _ = changed.encode();
        }
    }
}

/// SELECT of the root and of any record's identifier, with any buffer.
fn select_with_templates(image: &[u8], random: &mut Random) {
    let at = random.below(image.len() + 1);
    for identifier in [0x3F00, numbers::number16(image, at)] {
        let mut bytes = bytes("00A4000402");
        bytes.extend(identifier.to_be_bytes());
        bytes.push(0);
        let mut response = random.bytes(60);
        let (mut image, mut pool) = (image.to_vec(), pool_for(image));
        let outcome = command(&mut image, &mut pool, &bytes, &mut response, &State::FULL);
        assert!(outcome.data <= response.len());
    }
}

/// READ and UPDATE of any part of the current EF, with the right pool and with
/// none.
fn read_and_update(image: &[u8], random: &mut Random) {
    for mut pool in [pool_for(image), Vec::new()] {
        let mut bytes = vec![0x00, [0xB0, 0xD6, 0xB2, 0xDC][random.below(4)]];
        bytes.extend([random.below(3) as u8, [0, 1, 4, 4][random.below(4)]]);
        bytes.push(random.below(12) as u8);
        bytes.extend(random.bytes(12));
        bytes.truncate(5 + random.below(13));
        let mut response = random.bytes(60);
        let mut after = image.to_vec();
        let outcome = command(&mut after, &mut pool, &bytes, &mut response, &State::FULL);
        assert!(outcome.data <= response.len());
        assert_eq!(after, image, "no record is changed");
    }
}

fn every_edition_and_form() -> impl Iterator<Item = (Edition, Form)> {
    let editions = Version::ALL.map(Edition::of).into_iter();
    editions.flat_map(|edition| Form::ALL.map(|form| (edition, form)))
}

/// Calls everything that takes any bytes.
fn call_with_bytes(bytes: &[u8], random: &mut Random) {
    let state = random.state();
    let _ = replay(bytes);
    for (edition, form) in every_edition_and_form() {
        let _ = rule::groups(form, bytes);
        let _ = rule::fit(edition, form, bytes);
        let _ = Right::ALL.map(|right| rule::decide(form, bytes, right, &state));
        let _ = template::read(bytes, edition);
        if let Some(record) = Record::decode(bytes, edition) {
            let _ = fcp::template(&record);
        }
    }
    let _ = (objects::all(bytes), deciding::before_padding(bytes));
    let place = deciding::Place::InPool { from: random.below(50), to: random.below(50) };
    let _ = place.bytes(&[], bytes);
    let _ = ledger::announced(bytes);
    let unsound = Record { rule: bytes.to_vec(), size: u32::MAX, ..Record::FREE };
    let _ = fcp::template(&unsound);
    for at in [0, bytes.len(), random.below(70), usize::MAX] {
        let _ = (numbers::byte(bytes, at), numbers::number16(bytes, at));
        let _ = (numbers::number32(bytes, at), numbers::rest(bytes, at));
        let _ = numbers::part(bytes, at, usize::MAX);
    }
    let _ = numbers::value(bytes);
    let mut ledger = Ledger::open(random.next() as u32);
    let slots = [random.next() as u16 & 7, random.next() as u16 & 7];
    ledger.enter(bytes, 0x9000, slots[0], slots[1]);
    let _ = (ledger.room(slots[0]), ledger.total(slots[1]), ledger.children(slots[0]));
    assert_eq!(from_hex(&hex(bytes)).as_deref(), Some(bytes));
    let text = String::from_utf8_lossy(bytes).into_owned();
    let _ = (from_hex(&text), Case::parse(&text));
    let mut buffer = bytes.to_vec();
    let [version, form] = [random.next() as u32 % 5, random.next() as u32 % 4];
    assert!(make(&mut buffer, version, random.next() as u32, form, bytes) <= 4);
}

#[test]
fn random_bytes_everywhere() {
    let mut random = Random(1);
    call_with_image(&[], &mut random);
    call_with_bytes(&[], &mut random);
    for longest in [3, 16, 20, 80, 144, 400] {
        for _ in 0..3000 {
            let some = random.bytes(longest);
            call_with_bytes(&some, &mut random);
            call_with_image(&some, &mut random);
        }
    }
}

#[test]
fn one_byte_changed_in_a_sound_image() {
    let mut random = Random(2);
    for version in [1, 3] {
        let mut image = made(version, 8, 448, 0, OPEN);
        for text in [create_df("7F10", 200, OPEN), create_ef("6F07", 9, "02FF0200")] {
            run(&mut image, &text);
        }
        for position in 0..image.len() {
            for _ in 0..16 {
                let mut changed = image.clone();
                changed[position] = random.next() as u8;
                call_with_image(&changed, &mut random);
            }
        }
    }
}

#[test]
fn a_good_header_before_random_records() {
    let mut random = Random(3);
    for _ in 0..2000 {
        let slots = 2 + random.below(5);
        let version = 1 + random.below(3) as u32;
        let mut image = made(version, slots, 64 * (slots as u32 - 1), 0, OPEN);
        for slot in 1..slots {
            let record = &mut image[16 + 64 * slot..80 + 64 * slot];
            record[0] = 1 + random.below(2) as u8;
            record[1] = [0x38, 0x41, 0x42][random.below(3)];
            record[2] = 5;
            for (at, limit) in [(5, 4), (7, slots + 1), (9, 4), (11, 3), (15, 9)] {
                record[at] = random.below(limit) as u8;
            }
            record[3] = random.below(3) as u8;
            record[33] = if record[3] == 2 { 3 } else { 1 };
            if record[3] == 2 {
                record[35] = random.below(4) as u8;
                record[36] = random.below(3) as u8;
            }
            if version == 3 && record[0] == 2 {
                record[63] = random.below(20) as u8;
            }
        }
        image[8] = random.below(slots + 1) as u8;
        call_with_image(&image, &mut random);
    }
}

#[test]
fn replay_of_random_streams_behind_a_good_header() {
    let mut random = Random(4);
    for _ in 0..3000 {
        let mut input = bytes("554653 0001 0008 000001C0");
        for _ in 0..random.below(6) {
            let mut command = random.bytes(20);
            command.splice(0..0, bytes("00E00000"));
            input.extend((command.len() as u16).to_be_bytes());
            input.extend(command);
        }
        input.truncate(random.below(input.len()) + 1);
        let _ = replay(&input);
    }
}

#[test]
fn every_byte_where_a_byte_is_asked() {
    for byte in 0..=255u8 {
        let class = descriptor::class(byte);
        for size in [0, 1, 255, u32::MAX] {
            for length in [0, 1, 255, 256, u16::MAX] {
                let _ = descriptor::measures_fit(class, size, length);
            }
        }
        let _ = (life_cycle::class(byte), life_cycle::creatable(byte));
        let _ = (life_cycle::after_activate(byte), life_cycle::after_deactivate(byte));
        let _ = life_cycle::after_terminate(byte);
        let _ = condition_holds(byte, &State::FULL);
        let _ = Edition::from_header(u16::from(byte), byte);
    }
    for length in 0..70_000 {
        let _ = card::slots_of_length(length);
    }
    let _ = (card::slots_of_length(usize::MAX), card::largest_total(0));
    let _ = (card::slot_number(usize::MAX), words::is_success(0));
}
