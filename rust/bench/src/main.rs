//! Times the proved library and the Rust on the same inputs, in turns, and prints a table of ratios.

mod inputs;
mod instructions;
mod library;
mod rows;

use inputs::Inputs;
use library::{Library, Ours, Theirs};
use rows::Row;
use std::process::ExitCode;
use std::time::{Duration, Instant};

const USAGE: &str = "\
usage: bench [--rounds N] [--milliseconds N] [--instructions yes|no]

Times our library and the Rust on the same inputs, in turns.
  --rounds N               rounds of each row, at least 9 (15)
  --milliseconds N         about how long a library's turn is (20)
  --instructions yes|no    count instructions by valgrind (yes where it is there)";

struct Options {
    rounds: usize,
    turn: Duration,
    instructions: bool,
}

fn main() -> ExitCode {
    let words: Vec<String> = std::env::args().skip(1).collect();
    if words
        .first()
        .is_some_and(|word| word == instructions::COUNTED)
    {
        return match instructions::counted_run(&words[1..]) {
            Some(()) => ExitCode::SUCCESS,
            None => ExitCode::from(2),
        };
    }
    if words.iter().any(|word| word == "--help") {
        println!("{USAGE}");
        return ExitCode::SUCCESS;
    }
    match options(&words) {
        Some(options) => bench(&options),
        None => {
            eprintln!("{USAGE}");
            ExitCode::from(2)
        }
    }
}

fn options(words: &[String]) -> Option<Options> {
    let mut options = Options {
        rounds: 15,
        turn: Duration::from_millis(20),
        instructions: instructions::valgrind_is_there(),
    };
    for pair in words.chunks(2) {
        let [word, value] = pair else { return None };
        match (word.as_str(), value.as_str()) {
            ("--rounds", n) => options.rounds = n.parse::<usize>().ok()?.max(9),
            ("--milliseconds", n) => options.turn = Duration::from_millis(n.parse().ok()?),
            ("--instructions", "yes") => options.instructions = true,
            ("--instructions", "no") => options.instructions = false,
            _ => return None,
        }
    }
    Some(options)
}

fn bench(options: &Options) -> ExitCode {
    let inputs = Inputs::new();
    println!(
        "Nanoseconds of a call, the median of {} rounds.\n",
        options.rounds
    );
    println!("| call | ours | the Rust | ours / the Rust | instructions | the Rust's | ratio |");
    println!("|---|---:|---:|---:|---:|---:|---:|");
    for row in Row::ALL {
        let times = match time(row, &inputs, options) {
            Ok(times) => times,
            Err(why) => {
                eprintln!("bench: {}: {why}", row.name());
                return ExitCode::FAILURE;
            }
        };
        let counts = options
            .instructions
            .then(|| {
                let ours = instructions::of_call(row, "ours")?;
                Some([ours, instructions::of_call(row, "theirs")?])
            })
            .flatten();
        print_row(row, times, counts);
    }
    ExitCode::SUCCESS
}

fn print_row(row: Row, [ours, theirs, ratio]: [f64; 3], counts: Option<[f64; 2]>) {
    print!("| {} | {ours:.1} | {theirs:.1} | {ratio:.2} |", row.name());
    match counts {
        Some([ours, theirs]) => println!(" {ours:.0} | {theirs:.0} | {:.2} |", ours / theirs),
        None => println!(" | | |"),
    }
}

/// The medians of both times and of the ratio, in nanoseconds of a call.
fn time(row: Row, inputs: &Inputs, options: &Options) -> Result<[f64; 3], String> {
    let calls = calls_for(row, inputs, options.turn);
    let (_, our_mark) = row.run::<Ours>(inputs, calls);
    let (_, their_mark) = row.run::<Theirs>(inputs, calls);
    if our_mark != their_mark {
        return Err("the libraries read different numbers".to_string());
    }
    let mut rounds = [vec![], vec![], vec![]];
    for _ in 0..options.rounds {
        let ours = turn::<Ours>(row, inputs, calls);
        let theirs = turn::<Theirs>(row, inputs, calls);
        rounds[0].push(ours);
        rounds[1].push(theirs);
        rounds[2].push(ours / theirs);
    }
    Ok(rounds.map(median))
}

/// Nanoseconds of a call in one turn.
fn turn<L: Library>(row: Row, inputs: &Inputs, calls: u64) -> f64 {
    let start = Instant::now();
    let (made, _) = row.run::<L>(inputs, calls);
    start.elapsed().as_nanos() as f64 / made as f64
}

/// The calls that take the Rust about as long as a turn.
fn calls_for(row: Row, inputs: &Inputs, turn: Duration) -> u64 {
    let mut calls = 1;
    loop {
        let start = Instant::now();
        let (made, _) = row.run::<Theirs>(inputs, calls);
        let took = start.elapsed();
        if took * 4 >= turn {
            return (made as f64 * turn.as_secs_f64() / took.as_secs_f64()) as u64;
        }
        calls = 4 * made;
    }
}

fn median(mut list: Vec<f64>) -> f64 {
    list.sort_by(f64::total_cmp);
    list[list.len() / 2]
}

#[cfg(test)]
mod tests {
    use super::*;

    #[test]
    fn both_libraries_read_the_same() {
        let inputs = Inputs::new();
        for row in Row::ALL {
            let ours = row.run::<Ours>(&inputs, 100);
            assert_eq!(ours, row.run::<Theirs>(&inputs, 100), "{}", row.name());
        }
    }
}
