//! Each request that fails, and a kill before each request.

use std::collections::BTreeSet;
use std::path::Path;

use files::disk::{Disk, Real};
use files::{create, Held, Saved, Trouble, Use};

use crate::faulty::{Fault, Faulty};
use crate::folder::Folder;

const OLD: &[u8] = b"the old card";
const NEW: &[u8] = b"the new card, which is longer";

fn replace(disk: &dyn Disk, path: &Path) -> Result<Saved, Trouble> {
    let held = Held::new(path, Use::Write, &mut |told| panic!("it waits: {told}"))?;
    held.replace(disk, NEW)
}

/// Saves with a fault at every request in turn until nothing is refused any
/// more; gives the requests that were refused.
fn at_every_request(
    fault: Fault,
    mut save: impl FnMut(&Faulty) -> Result<Saved, Trouble>,
    mut look: impl FnMut(&'static str, Result<Saved, Trouble>),
) -> BTreeSet<&'static str> {
    let mut refused = BTreeSet::new();
    for at in 0.. {
        let disk = Faulty::new(fault, at);
        let saved = save(&disk);
        let Some(request) = disk.refused() else {
            assert_eq!(saved, Ok(Saved::default()), "nothing was refused");
            break;
        };
        refused.insert(request);
        look(request, saved);
    }
    refused
}

#[test]
fn a_replaced_file_is_old_or_new_whatever_fails() {
    let folder = Folder::new("replace-fails");
    let path = folder.path("card");
    let fresh = |disk: &Faulty| {
        folder.write("card", OLD);
        replace(disk, &path)
    };
    let refused = at_every_request(Fault::Once, fresh, |request, saved| {
        match saved {
            Ok(Saved { notes }) => {
                assert_eq!((request, notes.len()), ("sync_folder", 1), "{notes:?}");
                assert_eq!(folder.read("card"), NEW);
            }
            Err(trouble) => {
                assert!(trouble.to_string().contains("injected"), "{request}: {trouble}");
                assert_eq!(folder.read("card"), OLD, "{request}");
            }
        }
        assert_eq!(folder.count(), 1, "{request}: a temporary file is left");
    });
    assert_eq!(
        Vec::from_iter(refused),
        ["make", "permit", "rename", "sync", "sync_folder", "write"]
    );
}

#[test]
fn a_new_file_is_there_as_a_whole_or_not_at_all() {
    let folder = Folder::new("create-fails");
    let path = folder.path("card");
    let fresh = |disk: &Faulty| {
        let _ = std::fs::remove_file(&path);
        create(disk, &path, NEW)
    };
    let refused = at_every_request(Fault::Once, fresh, |request, saved| match saved {
        Ok(_) => assert_eq!((request, folder.read("card")), ("sync_folder", NEW.to_vec())),
        Err(_) => assert_eq!(folder.count(), 0, "{request}: something is left"),
    });
    assert_eq!(Vec::from_iter(refused), ["make", "rename_new", "sync", "sync_folder", "write"]);
}

#[test]
fn what_a_killed_process_left_is_removed_by_the_next_save() {
    let folder = Folder::new("killed");
    let path = folder.path("card");
    let mut left = 0;
    folder.write("card", OLD);
    at_every_request(
        Fault::Killed,
        |disk| replace(disk, &path),
        |request, _| {
            let found = folder.read("card");
            assert!(found == OLD || found == NEW, "{request}: {found:?}");
            left = left.max(folder.count() - 1);
            folder.write("card", OLD);
        },
    );
    assert!(left > 0, "no kill left a temporary file");
    assert_eq!((folder.count(), folder.read("card")), (1, NEW.to_vec()));
}

#[test]
fn a_hundred_left_files_block_no_save() {
    let folder = Folder::new("hundred");
    let path = folder.path("card");
    folder.write("card", OLD);
    let stuck = Faulty::new(Fault::Stuck, 0);
    for _ in 0..110 {
        replace(&stuck, &path).expect_err("writing is refused");
    }
    assert_eq!(folder.count(), 111, "they are left");
    assert_eq!(replace(&Real, &path), Ok(Saved::default()));
    assert_eq!((folder.count(), folder.read("card")), (1, NEW.to_vec()));
}

#[test]
fn the_longest_names_can_be_saved() {
    let folder = Folder::new("long");
    for length in [1, 250, 255] {
        let path = folder.path(&"n".repeat(length));
        assert_eq!(create(&Real, &path, OLD), Ok(Saved::default()), "{length}");
        assert_eq!(replace(&Real, &path), Ok(Saved::default()), "{length}");
    }
    assert_eq!(folder.count(), 3);
}

#[test]
fn a_file_that_another_program_put_there_is_not_replaced() {
    let folder = Folder::new("exchanged");
    let path = folder.path("card");
    folder.write("card", OLD);
    let held = Held::new(&path, Use::Write, &mut |_| ()).expect("it is free");
    folder.write("other", b"of another program");
    std::fs::rename(folder.path("other"), &path).expect("it is replaced");
    let told = held.replace(&Real, NEW).expect_err("it is another file").to_string();
    assert!(told.contains("takes no lock"), "{told}");
    assert_eq!(folder.read("card"), b"of another program");
}
