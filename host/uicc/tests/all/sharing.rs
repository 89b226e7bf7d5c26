//! Several processes on one card: each waits for the other, and nothing is
//! lost.

use std::io::{BufRead, BufReader};
use std::process::{Child, Stdio};
use std::time::{Duration, Instant};

use files::{Held, Use};

use crate::folder::Folder;

const PROCESSES: u16 = 2;
const COMMANDS_EACH: u16 = 500;

/// CREATE of an EF of one byte, which takes 65 of the root's total.
fn create(identifier: u16) -> String {
    format!("00E0000015 6213 82024121 8302{identifier:04X} 8A0105 8C020100 80020001\n")
}

/// Two processes at a time, a thousand commands in all, each in a run of its
/// own, and every file is there in the end.
#[test]
fn a_thousand_commands_of_two_processes_are_all_kept() {
    let folder = Folder::new("thousand");
    folder.done(&["new", "card", "--slots", "1023"]);
    std::thread::scope(|scope| {
        for process in 0..PROCESSES {
            let folder = &folder;
            scope.spawn(move || {
                let script = format!("script-{process}");
                for number in 0..COMMANDS_EACH {
                    folder.write(&script, create(0x1000 * (process + 1) + number));
                    let ran = folder.uicc(&["run", &script, "--image", "card"]);
                    assert_eq!(ran.status, 0, "{}", ran.err);
                    assert!(ran.out.contains("9000") && ran.out.contains("card saved"));
                }
            });
        }
    });
    let all = u32::from(PROCESSES * COMMANDS_EACH);
    let shown = folder.done(&["show", "card"]);
    assert!(shown.contains(&format!(" 1023 slots: {} used", all + 1)), "{shown:.60}");
    assert_eq!(folder.names(), ["card", "script-0", "script-1"], "no temporary file is left");
}

/// Starts the program and waits until it says that it waits; gives it and what
/// it said.
fn waiting(folder: &Folder, arguments: &[&str]) -> (Child, String) {
    let mut child = folder.command(arguments).stderr(Stdio::piped()).spawn().expect("it starts");
    let mut said = String::new();
    let err = child.stderr.take().expect("it has a standard error");
    BufReader::new(err).read_line(&mut said).expect("it says something or ends");
    (child, said)
}

#[test]
fn who_waits_says_for_whom_and_gets_the_card_then() {
    let folder = Folder::new("waits");
    folder.done(&["new", "card"]);
    folder.write("script", "00040000\n");
    let own = std::process::id();
    for arguments in [
        &["run", "script", "--image", "card"][..],
        &["show", "card"],
        &["export", "card"],
        &["new", "card", "--force"],
    ] {
        let held = hold(&folder, Use::Write);
        let (mut child, said) = waiting(&folder, arguments);
        let told = format!("uicc: card: waiting for process {own} (");
        assert!(said.starts_with(&told), "{arguments:?}: {said}");
        assert!(child.try_wait().expect("it runs").is_none(), "{arguments:?} did not wait");
        drop(held);
        assert!(child.wait().expect("it ends").success(), "{arguments:?}");
    }
}

#[test]
fn readers_share_and_who_writes_waits_for_them() {
    let folder = Folder::new("readers");
    folder.done(&["new", "card"]);
    folder.write("script", "00040000\n");
    let held = hold(&folder, Use::Read);
    assert!(folder.done(&["show", "card"]).starts_with("card of version 3, 64 slots"));
    assert!(folder.done(&["export", "card"]).contains("--slots 64"));
    let (mut child, said) = waiting(&folder, &["run", "script", "--image", "card"]);
    assert!(said.contains("waiting for process"), "{said}");
    drop(held);
    assert!(child.wait().expect("it ends").success());
    assert!(folder.done(&["show", "card"]).contains("deactivated"));
}

/// A killed process holds no lock any more.
#[test]
fn a_lock_dies_with_its_process() {
    let folder = Folder::new("dead");
    folder.done(&["new", "card"]);
    folder.write("script", "00040000\n");
    let begun = Instant::now();
    for _ in 0..20 {
        let mut child =
            folder.command(&["run", "script", "--image", "card"]).spawn().expect("it starts");
        std::thread::sleep(Duration::from_micros(700));
        child.kill().expect("it can be killed");
        child.wait().expect("it ends");
        folder.done(&["show", "card"]);
    }
    assert!(begun.elapsed() < Duration::from_secs(20), "somebody waited");
}

/// Of processes that make the same new card at the same time, one makes it.
#[test]
fn a_new_card_takes_no_name_that_was_taken_meanwhile() {
    let folder = Folder::new("meanwhile");
    for round in 0..40 {
        let name = format!("card-{round}");
        let start = |slots: &str| {
            let arguments = ["new", &name, "--slots", slots];
            folder.command(&arguments).stderr(Stdio::piped()).spawn().expect("it starts")
        };
        let children: Vec<_> = ["2", "3", "4", "5"].into_iter().map(start).collect();
        let ended: Vec<_> =
            children.into_iter().map(|child| child.wait_with_output().expect("it ends")).collect();
        let winners: Vec<_> =
            (2..).zip(&ended).filter(|(_, ended)| ended.status.success()).collect();
        assert_eq!(winners.len(), 1, "round {round}");
        let slots = winners[0].0;
        let wanted = 16 + 64 * slots + 64 * (slots - 1);
        assert_eq!(folder.read(&name).len(), wanted, "round {round}: image and pool");
        for loser in ended.iter().filter(|ended| !ended.status.success()) {
            let err = String::from_utf8_lossy(&loser.stderr);
            assert!(err.contains("exists already"), "round {round}: {err}");
        }
    }
    assert_eq!(folder.names().len(), 40, "no temporary file is left");
}

fn hold(folder: &Folder, purpose: Use) -> Held {
    let waits = &mut |told: &str| panic!("the card is in use: {told}");
    Held::new(&folder.path("card"), purpose, waits).expect("the card is free")
}
