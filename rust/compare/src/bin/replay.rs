//! Replays a stored list on the Rust that is compiled in; it needs no library of ours.

use std::process::ExitCode;

fn main() -> ExitCode {
    let words: Vec<String> = std::env::args().skip(1).collect();
    let [file] = &words[..] else {
        eprintln!("usage: replay FILE");
        return ExitCode::from(2);
    };
    compare::replay::print(file.as_ref())
}
