//! The stored event files: still made, and still printed, as they stand.
#![forbid(unsafe_code)]

use model::{panel, vectors};
use std::path::{Path, PathBuf};

fn place(name: &str) -> PathBuf {
    Path::new(env!("CARGO_MANIFEST_DIR"))
        .join("../vectors")
        .join(name)
}

#[test]
fn stored_files_print_the_same() {
    let mut files = 0;
    for entry in std::fs::read_dir(place(".")).unwrap() {
        let path = entry.unwrap().path();
        if path.extension().is_some_and(|extension| extension == "bin") {
            let bytes = std::fs::read(&path).unwrap();
            let lines = std::fs::read_to_string(path.with_extension("txt")).unwrap();
            assert!(panel::print(&bytes) == lines, "{}", path.display());
            files += 1;
        }
    }
    assert_eq!(files, vectors::all().len());
}

#[test]
fn stored_files_are_those_that_makevectors_writes() {
    for (name, bytes) in vectors::all() {
        let stored = std::fs::read(place(&format!("{name}.bin"))).unwrap();
        assert!(stored == bytes, "{name}");
    }
}
