//! Wrong cards are found, and told in their smallest form: the impostors of
//! 01, "What the statements must tie down", and a few more.

use crate::impostor::{found, found_line, word, Impostor, Spoil, HONEST};
use cases::Kind;
use compare::{check_line, Disagreement, Model, Pair, Tally, Told};
use model::lines::Case as Line;
use model::State;

#[test]
fn the_honest_card_is_not_accused() {
    assert_eq!(found(Pair { card: &HONEST, model: &Model }, None), None);
}

/// Wrong commands, each with what is wrong about it.
const SPOILS: [(&str, Spoil); 6] = [
    ("refuses always", |came, left, _| {
        left.restore(came);
        word(0x6985)
    }),
    ("answers 9000 always", |_, _, told| Told { word: 0x9000, ..told }),
    ("touches nothing", |came, left, told| {
        left.image.copy_from_slice(came.image);
        told
    }),
    ("has a word beside answer 1", |_, _, told| match told.answer {
        1 => Told { word: 0x6985, ..told },
        _ => told,
    }),
    ("forgets the rule's last byte", |came, left, told| {
        if let (true, Some(byte)) = (came.image != left.image, left.image.get_mut(16 + 64 + 49)) {
            *byte = 0x99;
        }
        told
    }),
    ("keeps a deleted current EF", |came, left, told| {
        if let (Some(0xE4), 0x9000) = (came.command.get(1), told.word) {
            left.image[9..11].copy_from_slice(&came.image[9..11]);
        }
        told
    }),
];

#[test]
fn every_wrong_command_is_found() {
    for (title, command) in SPOILS {
        let line = found_line(title, &Impostor { command, ..HONEST }, None);
        let shown = matches!(line, Line::Command { .. } | Line::Replay { .. });
        assert!(shown && line.line().len() < 1000, "{title}: {}", line.line());
    }
}

#[test]
fn wrong_reports_soundness_and_makers_are_found() {
    let counts = Impostor { report: |n| [n[0], n[1], n[2], n[3] ^ 1], ..HONEST };
    assert!(matches!(found_line("counts", &counts, None), Line::Report { .. }));
    let lenient = Impostor { sound: |_| true, ..HONEST };
    assert!(matches!(found_line("lenient", &lenient, None), Line::Report { .. }));
    let dirty =
        Impostor { make: |buffer| buffer.iter_mut().skip(79).for_each(|b| *b = 1), ..HONEST };
    assert!(matches!(found_line("dirty", &dirty, Some(Kind::Make)), Line::Make { .. }));
}

/// SELECT of what is not there is answered 9000: four bytes of head, Lc and
/// an identifier on the smallest card are enough to show it.
#[test]
fn a_disagreement_is_shrunk_and_replays() {
    let impostor = Impostor {
        command: |_, _, told| if told.word == 0x6A82 { word(0x9000) } else { told },
        ..HONEST
    };
    let line = found_line("answers 9000 for 6A82", &impostor, None);
    let Line::Command { image, command, state, response, .. } = &line else {
        panic!("not a command: {}", line.line());
    };
    assert_eq!((image.len(), command.len(), *state), (144, 7, State::FULL), "{}", line.line());
    assert_eq!(response.len(), 0, "{}", line.line());
    let pair = Pair { card: &impostor, model: &Model };
    assert!(check_line(pair, &line, &mut Tally::default()).is_err(), "it shows again");
}

/// The largest cards are shrunk too, to a few slots.
#[test]
fn a_disagreement_on_a_large_card_is_shrunk() {
    let impostor = Impostor {
        command: |_, _, told| match told.word {
            0x9000 => Told { word: 0x6F00, ..told },
            _ => told,
        },
        ..HONEST
    };
    let pair = Pair { card: &impostor, model: &Model };
    let Some(Disagreement::Line { line, .. }) = found(pair, Some(Kind::Worst)) else {
        panic!("it must be found");
    };
    assert!(line.line().len() < 1000, "{} characters are left", line.line().len());
}

/// A card that charges every new file one byte, held against itself: only the
/// ledger can find it.
#[test]
fn the_ledger_finds_what_both_sides_do_wrong() {
    let cheap = Impostor {
        command: |came, left, told| {
            let slot = (1..came.image.len() / 64).find(|slot| came.image[16 + 64 * slot] == 0);
            if let (Some(0xE0), 0x9000, Some(slot)) = (came.command.get(1), told.word, slot) {
                let size = 16 + 64 * slot + 12;
                left.image[size..size + 4].copy_from_slice(&[0, 0, 0, 1]);
            }
            told
        },
        ..HONEST
    };
    let pair = Pair { card: &cheap, model: &cheap };
    let Some(Disagreement::Ledger { history, complaint }) = found(pair, Some(Kind::History)) else {
        panic!("the ledger must disagree");
    };
    assert!(history.steps.len() <= 2, "shrunk to {} steps: {complaint}", history.steps.len());
    assert_eq!(found(Pair { card: &HONEST, model: &HONEST }, Some(Kind::History)), None);
}
