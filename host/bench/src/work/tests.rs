//! The cards are prepared for what is measured.

use card::{Security, State};

use super::*;
use crate::shapes::shapes;

/// The two SELECTs that are compared start alike and select the same file.
#[test]
fn a_template_is_compared_with_the_same_select_without() {
    for worst in shapes(64) {
        for (_, without, with) in Task::TEMPLATES {
            let (start, one) = without.prepared(&worst.start);
            let (same_start, other) = with.prepared(&worst.start);
            assert_eq!(start, same_start, "{}, {with:?}", worst.title);
            let (Call::Command(one), Call::Command(other)) = (one, other) else {
                panic!("{with:?} is no command");
            };
            assert_eq!((one[3], other[3], other[7]), (0x0C, 0x04, 0x00), "{with:?}");
            assert_eq!(one[4..], other[4..7], "{with:?}");
        }
    }
}

/// Every command has its effect, but for those that a shape cannot have: no EF
/// to terminate, nothing to select; and those that a rule refuses.
#[test]
fn the_commands_do_what_their_titles_say() {
    for worst in shapes(64) {
        let has_ef = ["identifier", "files", "version 2"].map(|part| worst.title.contains(part));
        let has_ef = has_ef.contains(&true);
        let starts = [Some(&worst.start), worst.own.as_ref()].into_iter().flatten();
        for (start, task) in starts.flat_map(|start| worst.tasks.iter().map(move |t| (start, t))) {
            let (Lent { mut image, mut pool }, call) = task.prepared(start);
            assert!(card::lent::is_sound(&image), "{}, {task:?}", worst.title);
            let (bytes, state) = match call {
                Call::Command(bytes) => (bytes, State::FULL),
                Call::Unauthenticated(bytes) => (bytes, State::EMPTY),
                Call::Sound | Call::Report | Call::Rule(_) => continue,
            };
            let wanted = match task {
                Task::UnknownInstruction => (0x6D00, Security::NoRefusal),
                Task::SelectNothing => (0x6A82, Security::NoRefusal),
                Task::TerminateEf if !has_ef => (0x6986, Security::NoRefusal),
                Task::Lacking | Task::RuledLacking => (0x6982, Security::Lacking),
                Task::Closed | Task::RuledClosed => (0x6982, Security::Closed),
                _ => (0x9000, Security::NoRefusal),
            };
            let mut response = [0; card::LONGEST_RESPONSE];
            let answer = card::lent::command(&mut image, &mut pool, &bytes, &mut response, &state);
            let answer = answer.expect("a sound card, its pool and a long response");
            let given = (answer.word.0, answer.security);
            assert_eq!(given, wanted, "{}, {task:?}", worst.title);
            let has_data = format!("{task:?}").contains("Template")
                || matches!(task, Task::Read | Task::ReadRecord);
            assert_eq!(answer.data_length > 0, has_data, "{}, {task:?}", worst.title);
        }
    }
}

/// What a CREATE on a card with bodies does to those that are there.
#[test]
fn bodies_are_moved_by_one_create_and_not_by_the_other() {
    let shapes = [16, 128, 1023].into_iter().flat_map(shapes);
    for worst in shapes.filter(|shape| shape.tasks == Task::BODIED) {
        for (task, moves) in [(Task::CreateInGap, false), (Task::CreateMoving, true)] {
            let (Lent { mut image, mut pool }, call) = task.prepared(&worst.start);
            let before = Card::decode(&image).expect("a card");
            let Call::Command(bytes) = call else { panic!("no command") };
            model::command(&mut image, &mut pool, &bytes, &mut [], &model::State::FULL);
            let after = Card::decode(&image).expect("a card");
            for slot in model::bodies::in_order(&before) {
                let moved = before.record(slot).start != after.record(slot).start;
                assert_eq!(moved, moves, "{}, {task:?}, slot {slot}", worst.title);
            }
        }
    }
}
