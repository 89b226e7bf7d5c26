//! Names that are free and names that are taken. Locks exclude processes, not
//! threads of one: `uicc` has the tests with several.

use files::disk::Real;
use files::{create, Held, Trouble, Use};

use crate::folder::Folder;

#[test]
fn a_missing_file_and_one_that_is_there_are_told_apart() {
    let folder = Folder::new("missing");
    let path = folder.path("card");
    let hold = || Held::new(&path, Use::Read, &mut |_| ()).map(|_| ());
    assert_eq!(hold(), Err(Trouble::Missing));
    create(&Real, &path, b"one").expect("the name is free");
    assert_eq!(hold(), Ok(()));
    assert_eq!(create(&Real, &path, b"two"), Err(Trouble::Exists));
    assert_eq!(folder.read("card"), b"one");
}
