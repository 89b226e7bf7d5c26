//! The data of the CREATE actions, with sizes taken from the room of the card
//! at hand: fitting, exactly at the room, one above, and beyond 32 bits; and from
//! the gaps between its bodies.

use model::rule::Form;
use model::Card;

use crate::actions::Action;
use crate::choices::{a_name, free_identifier, taken_identifiers};
use crate::random::Random;
use crate::template::{directory, elementary, FileData};
use crate::{decided, layouts, life_cycles, rules};

/// Where the new file would stand.
struct Place {
    /// Room of the current DF.
    room: u32,
    /// The largest size that fits, if any does.
    most: Option<u32>,
    /// An identifier that is free there.
    identifier: u16,
}

impl Place {
    fn of(random: &mut Random, card: &Card) -> Place {
        let room = u32::try_from(card.room(card.current_df)).unwrap_or(u32::MAX);
        Place {
            room,
            most: room.checked_sub(64).filter(|&most| most >= 1),
            identifier: free_identifier(random, card, card.current_df),
        }
    }

    /// A size that fits and leaves room for more.
    fn modest(&self, random: &mut Random) -> Option<u32> {
        Some(random.range(1, self.most?.min(40)))
    }
}

/// The data of a CREATE action, or nothing where the card gives no occasion
/// for it.
pub fn data_for(
    action: Action,
    random: &mut Random,
    card: &Card,
    remembered: Option<u16>,
) -> Option<FileData> {
    let place = Place::of(random, card);
    let mut data = match action {
        Action::CreateEf
        | Action::CreateDf
        | Action::CreateExact
        | Action::CreateOneAbove
        | Action::CreateHuge
        | Action::CreateLarge
        | Action::CreateDeep => by_size(action, random, &place)?,
        Action::CreateByGaps => by_gaps(random, card, &place)?,
        Action::CreateTakenIdentifier | Action::CreateLastDeleted => {
            by_identifier(action, random, card, &place, remembered)?
        }
        _ => by_field(action, random, card, &place)?,
    };
    // Expanded rules come as often as compact ones where there are any.
    let other = if card.edition.takes(Form::Expanded) { 80 } else { 8 };
    let ruled = [Action::CreateRuled, Action::CreateLocked].contains(&action);
    if !ruled && random.chance(other) {
        data.rule = rules::mostly_open(random, card.edition);
    }
    Some(data)
}

fn by_size(action: Action, random: &mut Random, place: &Place) -> Option<FileData> {
    let identifier = place.identifier;
    Some(match action {
        Action::CreateEf => {
            let size = place.modest(random)?;
            elementary(random, identifier, size)
        }
        Action::CreateDf => {
            let total = random.range(place.most? / 4 + 1, place.most?);
            directory(random, identifier, total)
        }
        Action::CreateLarge => {
            let size = random.range(place.most? / 4 + 1, place.most? / 4 * 3 + 1).min(place.most?);
            elementary(random, identifier, size)
        }
        Action::CreateDeep => {
            let total = place.most?.saturating_sub(random.pick([0, 0, 1, 65])).max(1);
            directory(random, identifier, total)
        }
        Action::CreateExact => either(random, identifier, place.most?),
        Action::CreateOneAbove => either(random, identifier, place.room.saturating_sub(63).max(1)),
        _ => {
            let size = random.pick([u32::MAX, u32::MAX, 0xFFFF_FFC0, 0xFFFF_FFBF, 0x8000_0000]);
            either(random, identifier, size)
        }
    })
}

/// An EF that is as large as a gap, one byte larger, or larger than all gaps, if
/// the room pays for it.
fn by_gaps(random: &mut Random, card: &Card, place: &Place) -> Option<FileData> {
    let gaps = layouts::gaps(card);
    let (most, gap) = (place.most?, *random.choose(&gaps)?);
    let largest = gaps.iter().copied().max()?;
    let size = match random.below(4) {
        0 => gap,
        1 => gap + 1,
        2 => largest + 1,
        _ => random.range(largest, most),
    };
    let wanted = card.edition.has_bodies() && size <= most;
    wanted.then(|| elementary(random, place.identifier, size))
}

fn by_identifier(
    action: Action,
    random: &mut Random,
    card: &Card,
    place: &Place,
    remembered: Option<u16>,
) -> Option<FileData> {
    if action == Action::CreateLastDeleted {
        let size = place.modest(random)?;
        return Some(either(random, remembered?, size));
    }
    let taken = taken_identifiers(card, card.current_df);
    let identifier = *random.choose(&taken)?;
    Some(either(random, identifier, place.most.unwrap_or(1).min(20)))
}

fn by_field(action: Action, random: &mut Random, card: &Card, place: &Place) -> Option<FileData> {
    let identifier = place.identifier;
    match action {
        Action::CreateNamed => {
            let length = random.range(1, 16) as usize;
            let name = random.bytes(length);
            Some(named(random, identifier, place.most?, name))
        }
        Action::CreateTakenName => {
            let name = a_name(random, card)?;
            Some(named(random, identifier, place.most.unwrap_or(1), name))
        }
        Action::CreateRuled | Action::CreateLocked => {
            let size = random.range(1, place.most?.min(300));
            let mut data = either(random, identifier, size);
            data.rule = match action {
                Action::CreateRuled if random.chance(80) => {
                    rules::many_groups(random, card.edition)
                }
                Action::CreateRuled => rules::of_any_form(random, card.edition),
                _ => decided::locked(random, card.edition),
            };
            Some(data)
        }
        Action::CreateInState => {
            let mut data = either(random, identifier, place.most?.min(150));
            data.life_cycle = life_cycles::of_a_new_file(random);
            Some(data)
        }
        _ => None,
    }
}

fn either(random: &mut Random, identifier: u16, size: u32) -> FileData {
    if random.chance(35) {
        directory(random, identifier, size)
    } else {
        elementary(random, identifier, size)
    }
}

fn named(random: &mut Random, identifier: u16, most: u32, name: Vec<u8>) -> FileData {
    let total = random.range(most.min(10), most.min(400));
    let mut data = directory(random, identifier, total);
    data.name = Some(name);
    data
}
