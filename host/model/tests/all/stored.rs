//! The stored cases of the program `replay`, in `tests/replay` of the
//! repository: the model writes the same.

use std::fs;
use std::path::Path;

#[test]
fn the_stored_streams_are_replayed_alike() {
    let folder = Path::new(env!("CARGO_MANIFEST_DIR")).join("../../tests/replay");
    let mut played = 0;
    for entry in fs::read_dir(folder).expect("the folder is there") {
        let input = entry.expect("it can be listed").path();
        if input.extension().is_some_and(|extension| extension == "in") {
            let wanted = fs::read(input.with_extension("out")).expect("each has its output");
            let given = model::replay(&fs::read(&input).expect("it can be read"));
            assert_eq!(
                String::from_utf8_lossy(&given),
                String::from_utf8_lossy(&wanted),
                "{input:?}"
            );
            played += 1;
        }
    }
    assert!(played > 20, "{played} streams");
}
