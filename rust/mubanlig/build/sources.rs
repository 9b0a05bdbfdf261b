//! The Rattle sources that the libraries are made of, and how old they are.

use std::fs;
use std::io;
use std::path::{Path, PathBuf};
use std::time::SystemTime;

/// A file or folder and when it was last changed.
#[derive(Debug, Clone)]
pub struct Changed {
    pub path: PathBuf,
    pub at: SystemTime,
}

/// What the libraries are made of, seen from the project's root.
pub const SOURCES: [&str; 2] = ["crates", "crates.txt"];

/// The project that this crate stands in, if it does.
pub fn project(crate_folder: &Path) -> Option<PathBuf> {
    let root = fs::canonicalize(crate_folder.join("../..")).ok()?;
    SOURCES
        .iter()
        .all(|source| root.join(source).exists())
        .then_some(root)
}

/// What stands below these is read: the list of the crates, and each crate's code, definitions and proofs. What `rt` leaves beside them is not.
pub fn parts(root: &Path) -> Vec<PathBuf> {
    let mut parts = vec![root.join("crates.txt")];
    for folder in fs::read_dir(root.join("crates")).into_iter().flatten().flatten() {
        for part in ["src", "specs", "proofs"] {
            let part = folder.path().join(part);
            if part.exists() {
                parts.push(part);
            }
        }
    }
    parts
}

/// The source that was changed last. A folder counts too: a file taken out of it changes it.
pub fn newest(root: &Path) -> io::Result<Changed> {
    let mut newest: Option<Changed> = None;
    let mut left = parts(root);
    while let Some(path) = left.pop() {
        // An editor's own file may be gone by now.
        let Ok(about) = fs::metadata(&path) else {
            continue;
        };
        if about.is_dir() {
            for entry in fs::read_dir(&path)? {
                left.push(entry?.path());
            }
        }
        let at = about.modified()?;
        if newest.as_ref().is_none_or(|last| last.at < at) {
            newest = Some(Changed { path, at });
        }
    }
    Ok(newest.expect("a project has sources"))
}

/// The first of the libraries that is not there or older than the source.
pub fn stale(folder: &Path, libraries: &[&str], source: &Changed) -> Option<PathBuf> {
    libraries
        .iter()
        .map(|library| folder.join(library))
        .find(|library| {
            fs::metadata(library)
                .and_then(|about| about.modified())
                .map_or(true, |at| at < source.at)
        })
}
