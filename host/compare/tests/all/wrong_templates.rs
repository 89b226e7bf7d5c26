//! Cards with a wrong template (02, Ticket 2) are found, and told in a small
//! form; also where nothing else shows it than that a file is not made again.

use crate::impostor::{
    found, found_small, respelled, with_value, word, Came, Impostor, Left, Spoil, HONEST,
};
use cases::Kind;
use compare::{Disagreement, Pair, Told};
use model::deciding::decide;
use model::life_cycle::is_deactivated;
use model::lines::Case as Line;
use model::rule::Right;
use model::soundness::sound_card;
use model::template::{self, NewFile};
use model::vectors::case_lines;
use model::words::SUCCESS;
use model::{Card, Decision};

/// Wrong templates, each of which a CREATE refuses or makes another file of.
const TEMPLATES: [(&str, Spoil); 8] = [
    ("80 before 8A", |came, left, told| {
        respelled(came, left, told, |objects| {
            let size = objects.pop().expect("there is a size");
            let at = objects.iter().position(|(tag, _)| *tag == 0x8A).expect("there is an 8A");
            objects.insert(at, size);
        })
    }),
    ("no name", |came, left, told| {
        respelled(came, left, told, |objects| objects.retain(|(tag, _)| *tag != 0x84))
    }),
    ("no record length", |came, left, told| {
        respelled(came, left, told, |objects| with_value(objects, 0x82, |v| v.truncate(2)))
    }),
    ("record length of one byte", |came, left, told| {
        respelled(came, left, told, |objects| {
            with_value(objects, 0x82, |v| v.truncate(v.len() / 4 + 2))
        })
    }),
    ("07 as 05 and 06 as 04", |came, left, told| {
        respelled(came, left, told, |objects| {
            with_value(objects, 0x8A, |v| v[0] &= if v[0] > 3 { !2 } else { !0 })
        })
    }),
    ("a DF's total in 80", |came, left, told| {
        respelled(came, left, told, |objects| {
            let size = objects.last_mut().expect("there is a size");
            size.0 = 0x80;
        })
    }),
    ("the size's bytes turned", |came, left, told| {
        respelled(came, left, told, |objects| {
            let size = objects.last_mut().expect("there is a size");
            size.1.reverse();
        })
    }),
    ("the rule cut at its first 00", |came, left, told| {
        respelled(came, left, told, |objects| {
            with_value(objects, 0x8C, |v| {
                let zero = v.iter().position(|&byte| byte == 0).unwrap_or(v.len());
                v.truncate(zero.max(1));
            })
        })
    }),
];

#[test]
fn every_wrong_template_is_found() {
    for (title, command) in TEMPLATES {
        found_small(title, command);
    }
}

/// Held against itself, a card with a wrong template is found because a file
/// is not made again by it, one by one and in whole trees. What is told of it
/// can be read again.
#[test]
fn a_template_that_makes_no_such_file_is_found() {
    for kind in [Kind::FilesAgain, Kind::TreeAgain] {
        for (title, command) in TEMPLATES {
            let wrong = Impostor { command, ..HONEST };
            let found = found(Pair { card: &wrong, model: &wrong }, Some(kind));
            let found = found.unwrap_or_else(|| panic!("{title} is not found by {kind:?}"));
            let told: Vec<_> = case_lines(&found.to_string()).map(Line::parse).collect();
            let Disagreement::Again { lines, again, complaint } = found else {
                panic!("{title}: found otherwise: {found}");
            };
            assert_eq!(told, lines.into_iter().map(Some).collect::<Vec<_>>(), "{title}");
            assert!(told.len() < 20, "{title}: {complaint}: {} lines", told.len());
            assert!(again.image.len() <= 16 + 64 * 8, "{title}: {complaint}");
        }
    }
}

/// The card before a CREATE that was done, and the file that it makes.
fn creation(came: &Came, told: Told) -> Option<(Card, NewFile)> {
    let [0x00, 0xE0, 0x00, 0x00, _, data @ ..] = came.command else { return None };
    let card = sound_card(came.image).filter(|_| told.word == SUCCESS)?;
    let file = template::read(data, card.edition)?;
    Some((card, file))
}

fn refused(came: &Came, left: &mut Left, refusal: u16) -> Told {
    left.restore(came);
    word(refusal)
}

/// Cards that refuse a CREATE for what does not matter.
const STRICT: [(&str, Spoil); 4] = [
    ("a directory above is deactivated", |came, left, told| {
        let closed = creation(came, told).is_some_and(|(card, _)| {
            let deactivated = |&slot: &usize| is_deactivated(card.record(slot).life_cycle);
            card.above(card.current_df).iter().any(deactivated)
        });
        if closed {
            refused(came, left, 0x6985)
        } else {
            told
        }
    }),
    ("the identifier stands elsewhere", |came, left, told| {
        let taken = creation(came, told).is_some_and(|(card, file)| {
            card.used_slots().any(|slot| card.record(slot).identifier == file.identifier)
        });
        if taken {
            refused(came, left, 0x6A89)
        } else {
            told
        }
    }),
    ("a name begins alike", |came, left, told| {
        let taken = creation(came, told).is_some_and(|(card, file)| {
            let alike = |name: &[u8]| !name.is_empty() && file.name.starts_with(name);
            card.used_slots().any(|slot| alike(&card.record(slot).name))
        });
        if taken {
            refused(came, left, 0x6A8A)
        } else {
            told
        }
    }),
    ("both rights are asked for", |came, left, told| {
        let decided = creation(came, told).map_or(Decision::Granted, |(card, _)| {
            let (df, both) = (card.current_df, [Right::CreateDf, Right::CreateEf]);
            let decided = both.map(|right| decide(&card, came.pool, df, right, came.state));
            Decision::of_all_together(decided)
        });
        match decided {
            Decision::Granted => told,
            denied => {
                Told { numbers: [0, denied.number().into(), 0], ..refused(came, left, 0x6982) }
            }
        }
    }),
];

/// Held against itself, such a card is found because some file is not made
/// again on the card that is made for it.
#[test]
fn a_card_that_asks_more_than_the_ticket_is_found() {
    for (title, command) in STRICT {
        let wrong = Impostor { command, ..HONEST };
        match found(Pair { card: &wrong, model: &wrong }, Some(Kind::FilesAgain)) {
            Some(Disagreement::Again { .. }) => {}
            other => panic!("{title}: {other:?}"),
        }
    }
}

#[test]
fn right_templates_make_every_file_again() {
    for kind in [Kind::FilesAgain, Kind::TreeAgain] {
        assert_eq!(found(Pair { card: &HONEST, model: &HONEST }, Some(kind)), None);
    }
}
