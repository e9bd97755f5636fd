//! The stored texts, each with its outcome beside it: the one set of worked cases.

use driftpocket_reference::outcome::outcome;
use std::fs;
use std::path::{Path, PathBuf};

/// At least so many texts must be found.
const FEWEST: usize = 80;

/// The texts in a folder and in the folders inside it.
fn texts(folder: &Path) -> Vec<PathBuf> {
    let mut found = Vec::new();
    for entry in fs::read_dir(folder).unwrap() {
        let path = entry.unwrap().path();
        if path.is_dir() {
            found.extend(texts(&path));
        } else if path
            .extension()
            .is_some_and(|end| end == "sheet" || end == "txt")
        {
            found.push(path);
        }
    }
    found
}

#[test]
fn every_stored_text_has_its_outcome() {
    let texts = texts(&Path::new(env!("CARGO_MANIFEST_DIR")).join("../../sheets"));
    assert!(texts.len() >= FEWEST, "{} texts", texts.len());
    for path in texts {
        let text = fs::read(&path).unwrap();
        let stored = path.with_extension("outcome");
        let wanted = fs::read_to_string(&stored);
        let wanted = wanted.unwrap_or_else(|error| panic!("{}: {error}", stored.display()));
        assert_eq!(outcome(&text), wanted, "{}", path.display());
    }
}
