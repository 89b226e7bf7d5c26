//! Processes that end in the middle of a save: the card is the old one or the
//! new one, and the next save removes what is left.

use std::time::Instant;

use crate::folder::Folder;

const KILLS: u64 = 150;

/// A number up to 1.2 without a pattern, the same in every run.
fn draw(number: u64) -> f64 {
    let drawn = (number + 1).wrapping_mul(0x9E37_79B9_7F4A_7C15) >> 48;
    f64::from(drawn as u16) * 1.2 / f64::from(u16::MAX)
}

#[test]
fn a_kill_leaves_the_old_card_or_the_new_one() {
    let folder = Folder::new("killed");
    folder.done(&["new", "card", "--slots", "1023"]);
    let active = folder.read("card");
    // One makes of each card the other, so that either may be the old one.
    folder.write("down", "00040000\n");
    folder.write("up", "00440000\n");
    folder.done(&["run", "down", "--image", "card"]);
    let inactive = folder.read("card");
    // The kills are spread over the time of a run and a little more, so that
    // they meet every part of it on a slow machine too.
    let start = Instant::now();
    folder.done(&["run", "up", "--image", "card"]);
    let whole = start.elapsed();
    let mut left = 0;
    for number in 0..KILLS {
        let old = folder.read("card");
        let script = if old == active { "down" } else { "up" };
        let mut child =
            folder.command(&["run", script, "--image", "card"]).spawn().expect("it starts");
        std::thread::sleep(whole.mul_f64(draw(number)));
        child.kill().expect("it can be killed");
        child.wait().expect("it ends");
        let found = folder.read("card");
        assert!(found == active || found == inactive, "kill {number}: neither old nor new");
        left = left.max(folder.names().len() - 3);
    }
    assert!(left <= 1, "{left} temporary files at once: a save did not clean up");
    folder.done(&["new", "card", "--force"]);
    assert_eq!(folder.names(), ["card", "down", "up"], "a temporary file is left");
}

/// The limit on a file's size fails a write truly: with the signal the process
/// ends in the middle of it, without the signal the write is refused.
#[test]
fn a_write_that_the_system_refuses_leaves_the_card() {
    let folder = Folder::new("limit");
    folder.done(&["new", "card", "--slots", "1023"]);
    folder.write("script", "00040000\n");
    let before = folder.read("card");
    let line = "ulimit -f 8; exec $UICC run script --image card";
    let refused = folder.shell(&format!("trap '' XFSZ; {line}"));
    assert_eq!(refused.status, 1, "{}", refused.err);
    assert!(refused.err.contains("nothing was saved"), "{}", refused.err);
    assert_eq!(folder.names(), ["card", "script"], "a temporary file is left");
    let ended = folder.shell(&format!("({line}) 2>&1; test $? -gt 128"));
    assert_eq!(ended.status, 0, "the signal did not end it: {}", ended.out);
    assert_eq!(folder.read("card"), before);
    assert_eq!(folder.names().len(), 3, "the process left a temporary file");
    folder.done(&["run", "script", "--image", "card"]);
    assert_eq!(folder.names(), ["card", "script"], "it is removed by the next save");
}

/// Before, a temporary file's name was made of the process and a number, and
/// a hundred of them were in the way.
#[test]
fn left_files_are_in_nobodys_way() {
    let folder = Folder::new("in-the-way");
    folder.done(&["new", "card"]);
    folder.write("script", "00040000\n");
    let line = "n=0; while [ $n -lt 100 ]; do : >.card.$$-$n.new; n=$((n + 1)); done; \
                exec $UICC run script --image card";
    let ran = folder.shell(line);
    assert_eq!((ran.status, ran.err.as_str()), (0, ""));
}

#[test]
fn a_name_of_250_bytes_can_be_saved() {
    let folder = Folder::new("long-name");
    let name = "n".repeat(250);
    folder.write("script", "00040000\n");
    folder.done(&["new", &name]);
    folder.done(&["run", "script", "--image", &name]);
    assert!(folder.done(&["show", &name]).contains("deactivated"));
}
