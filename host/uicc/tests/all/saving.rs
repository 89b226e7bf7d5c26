//! What saving keeps of a file, and which files it refuses.

use std::fs::{self, Permissions};
use std::os::unix::fs::{chown, symlink, MetadataExt, PermissionsExt};
use std::os::unix::process::CommandExt;
use std::path::Path;
use std::process::{Command, Stdio};

use crate::folder::Folder;
use crate::skip;

/// A user and a group that are not the tests' own.
const OTHER: u32 = 54_321;

/// A folder with a card of a mode and a script that changes it.
fn with_card(name: &str, mode: u32) -> Folder {
    let folder = Folder::new(name);
    prepare(&folder, mode);
    folder
}

fn prepare(folder: &Folder, mode: u32) {
    folder.done(&["new", "card"]);
    folder.write("script", "00040000\n");
    permit(&folder.path("card"), mode);
}

fn permit(path: &Path, mode: u32) {
    fs::set_permissions(path, Permissions::from_mode(mode)).expect("the mode can be set");
}

/// Owner, group and mode of a file.
fn marks(path: &Path) -> (u32, u32, u32) {
    let found = path.metadata().expect("the file is there");
    (found.uid(), found.gid(), found.mode() & 0o7777)
}

fn is_root(folder: &Folder) -> bool {
    folder.path("").metadata().expect("it is there").uid() == 0
}

#[test]
fn the_mode_is_kept() {
    for mode in [0o600, 0o640, 0o664, 0o666, 0o4755] {
        let folder = with_card(&format!("mode-{mode:o}"), mode);
        let before = marks(&folder.path("card"));
        for arguments in [&["run", "script", "--image", "card"][..], &["new", "card", "--force"]] {
            folder.done(arguments);
            assert_eq!(marks(&folder.path("card")), before, "{arguments:?}");
        }
    }
}

#[test]
fn owner_and_group_are_kept() {
    let folder = with_card("owner", 0o644);
    if !is_root(&folder) {
        return skip("owner and group of a saved card: only root can give a file away");
    }
    chown(folder.path("card"), Some(OTHER), Some(OTHER + 1)).expect("root gives it away");
    permit(&folder.path("card"), 0o6755);
    let before = marks(&folder.path("card"));
    folder.done(&["run", "script", "--image", "card"]);
    assert_eq!(marks(&folder.path("card")), before);
    assert!(folder.done(&["show", "card"]).contains("deactivated"));
}

/// A user who may write the file, but cannot give it to its owner, saves
/// nothing; least of all a file of the user's own with the owner's setuid.
/// One who may not write it, in a folder where all may write, saves nothing
/// either.
#[test]
fn another_user_cannot_take_a_file_over() {
    for (mode, told) in [(0o4666, "owner 0"), (0o644, "the file may not be written")] {
        let folder = Folder::for_all(&format!("other-{mode:o}"));
        prepare(&folder, mode);
        if !is_root(&folder) {
            return skip("a save by another user: only root can run as another");
        }
        permit(&folder.path(""), 0o777);
        let before = (marks(&folder.path("card")), folder.read("card"));
        // By its open file the program starts also where the user cannot
        // reach its name.
        let program = fs::File::open(env!("CARGO_BIN_EXE_uicc")).expect("it is there");
        let mut run = Command::new("/proc/self/fd/0");
        run.stdin(program).current_dir(folder.path(""));
        run.args(["run", "script", "--image", "card"]).uid(OTHER).gid(OTHER);
        let ran = run.stdout(Stdio::null()).output().expect("it starts");
        let err = String::from_utf8_lossy(&ran.stderr);
        assert_eq!(ran.status.code(), Some(1), "{err}");
        assert!(err.contains(told), "{err}");
        assert_eq!((marks(&folder.path("card")), folder.read("card")), before);
        assert_eq!(folder.names(), ["card", "script"], "no temporary file is left");
    }
}

#[test]
fn what_is_no_regular_file_is_refused() {
    let folder = with_card("irregular", 0o644);
    let link = |to: &str, name: &str| symlink(to, folder.path(name)).expect("a link");
    link("nowhere", "dangling");
    link("circle", "circle");
    link("/proc/self/fd/0", "stream");
    let shell = |line: &str| assert_eq!(folder.shell(line).status, 0, "{line}");
    shell("mkfifo fifo");
    let mut refused = vec![
        ("dangling", "leads to no file"),
        ("circle", "leads in a circle"),
        ("stream", "open file"),
        ("fifo", "a FIFO"),
    ];
    if is_root(&folder) {
        shell("mknod device c 1 3");
        refused.push(("device", "a device"));
    }
    let names = folder.names();
    for (name, told) in refused {
        let kind = folder.path(name).symlink_metadata().expect("it is there").file_type();
        for arguments in [&["run", "script", "--image", name][..], &["new", name, "--force"]] {
            let err = folder.refused(1, arguments);
            assert!(err.contains(told), "{arguments:?}: {err}");
        }
        let after = folder.path(name).symlink_metadata().expect("it is there").file_type();
        assert_eq!(after, kind, "{name} was replaced");
    }
    assert_eq!(folder.names(), names);
    for name in ["card/", "card/.", "."] {
        folder.refused(1, &["run", "script", "--image", name]);
    }
}

/// What is only looked at may come through a pipe.
#[test]
fn a_pipe_is_shown() {
    let folder = with_card("pipe", 0o644);
    for line in ["cat card | $UICC show /dev/stdin", "$UICC show /dev/fd/0 <card"] {
        let ran = folder.shell(line);
        assert!(
            ran.status == 0 && ran.out.starts_with("card of version 3, 64 slots"),
            "{line}: {}",
            ran.err
        );
    }
    let ran = folder.shell("cat card | $UICC export /dev/stdin");
    assert!(ran.status == 0 && ran.out.contains("--slots 64"), "{}", ran.err);
    assert_eq!(folder.shell("$UICC show /dev/null").status, 1);
}

#[test]
fn a_second_name_is_told() {
    let folder = with_card("hard-link", 0o644);
    fs::hard_link(folder.path("card"), folder.path("second")).expect("a second name");
    let before = folder.read("second");
    let ran = folder.uicc(&["run", "script", "--image", "card"]);
    assert_eq!(ran.status, 0);
    assert!(ran.err.contains("hard links"), "{}", ran.err);
    assert_eq!(folder.read("second"), before, "what was told is so");
    assert!(folder.done(&["show", "card"]).contains("deactivated"));
    assert_eq!(folder.uicc(&["new", "card", "--force"]).err, "", "it has one name now");
}
