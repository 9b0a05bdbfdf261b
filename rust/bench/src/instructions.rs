//! Instructions of a call, counted by valgrind in a run of this program on one row of one library.

use crate::inputs::Inputs;
use crate::library::{Ours, Theirs};
use crate::rows::Row;
use std::process::{Command, Stdio};

/// The word by which a run for valgrind is told: then the row, the library and the calls.
pub const COUNTED: &str = "--counted";

pub fn valgrind_is_there() -> bool {
    Command::new("valgrind")
        .arg("--version")
        .stdout(Stdio::null())
        .stderr(Stdio::null())
        .status()
        .is_ok_and(|status| status.success())
}

/// Runs a row for valgrind and prints the calls made.
pub fn counted_run(words: &[String]) -> Option<()> {
    let row = Row::ALL[words.first()?.parse::<usize>().ok()?];
    let calls = words.get(2)?.parse().ok()?;
    let inputs = Inputs::new();
    let (made, _) = match words.get(1)?.as_str() {
        "ours" => row.run::<Ours>(&inputs, calls),
        _ => row.run::<Theirs>(&inputs, calls),
    };
    println!("{made}");
    Some(())
}

/// Instructions of one call: two runs of different length, so that what stands around the calls falls out.
pub fn of_call(row: Row, library: &str) -> Option<f64> {
    let (few_calls, few) = count(row, library, 1)?;
    let (many_calls, many) = count(row, library, 4 * few_calls)?;
    Some((many - few) as f64 / (many_calls - few_calls) as f64)
}

/// Calls made and instructions of the whole run.
fn count(row: Row, library: &str, calls: u64) -> Option<(u64, u64)> {
    let index = Row::ALL.iter().position(|&r| r == row)?;
    let run = Command::new("valgrind")
        .args(["--tool=callgrind", "--callgrind-out-file=/dev/null"])
        .arg(std::env::current_exe().ok()?)
        .args([COUNTED, &index.to_string(), library, &calls.to_string()])
        .output()
        .ok()?;
    let made = String::from_utf8_lossy(&run.stdout).trim().parse().ok()?;
    let log = String::from_utf8_lossy(&run.stderr);
    let line = log.lines().find(|line| line.contains("Collected :"))?;
    let instructions = line.rsplit(':').next()?.trim().parse().ok()?;
    Some((made, instructions))
}
