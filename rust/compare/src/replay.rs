//! Replays a stored list on the Rust.

use crate::case::Outcome;
use crate::kind::Kind;
use crate::rules::expected;
use crate::stored::{self, Stored};
use std::panic::{AssertUnwindSafe, catch_unwind};
use std::path::Path;
use std::process::ExitCode;

/// Replayed and differing answers of each kind.
pub fn counts(list: &[Stored]) -> [[u64; 2]; Kind::STORED] {
    let mut counts = [[0; 2]; Kind::STORED];
    for stored in list {
        let [replayed, differing] = &mut counts[stored.case.kind as usize];
        *replayed += 1;
        *differing += u64::from(!agrees(stored));
    }
    counts
}

/// Whether the Rust gives the stored outcome. A panic is a difference.
pub fn agrees(stored: &Stored) -> bool {
    let mut outcome = Outcome::default();
    catch_unwind(AssertUnwindSafe(|| {
        expected(&stored.case, &mut outcome);
        stored::numbers(&stored.case, &outcome) == stored.outcome
    }))
    .unwrap_or(false)
}

/// Prints the counts; the last line is 'N of M stored answers differ'.
pub fn print(file: &Path) -> ExitCode {
    std::panic::set_hook(Box::new(|_| {}));
    let list = match std::fs::read(file) {
        Ok(bytes) => stored::list(&bytes),
        Err(e) => {
            eprintln!("{}: {e}", file.display());
            return ExitCode::from(2);
        }
    };
    let counts = counts(&list);
    for (kind, [replayed, differing]) in Kind::ALL.iter().zip(counts) {
        println!("{} {replayed} {differing}", kind.name());
    }
    let differing: u64 = counts.iter().map(|count| count[1]).sum();
    println!("{differing} of {} stored answers differ", list.len());
    if differing == 0 {
        ExitCode::SUCCESS
    } else {
        ExitCode::FAILURE
    }
}
