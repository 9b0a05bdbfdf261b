//! The comparison, and the stored list of the Rust's answers.

use compare::case::Outcome;
use compare::options::{Options, USAGE};
use compare::programs::{self, Refusal};
use compare::rule::Rule;
use compare::run::{Plan, differs, run};
use compare::stored::{self, Stored};
use compare::{choice, rebuild, replay, report, rules, shrink, wrong};
use std::path::Path;
use std::process::ExitCode;

fn main() -> ExitCode {
    let words: Vec<String> = std::env::args().skip(1).collect();
    if words.iter().any(|word| word == "--help") {
        println!("{USAGE}");
        return ExitCode::SUCCESS;
    }
    let options = match Options::parse(&words) {
        Ok(options) => options,
        Err(why) => {
            eprintln!("compare: {why}\n{USAGE}");
            return ExitCode::from(2);
        }
    };
    let other = options.folder.as_ref().filter(|dir| rebuild::is_other(dir));
    match (other, &options.replay) {
        (Some(folder), Some(file)) => rebuild::replay(folder, file),
        (None, Some(file)) => replay::print(file),
        (Some(folder), None) => rebuild::run_over(folder, &options.rest),
        (None, None) => run_here(&options),
    }
}

fn run_here(options: &Options) -> ExitCode {
    if let Some(file) = &options.vectors {
        return write_vectors(file, options.seed);
    }
    if let Some(folder) = &options.programs {
        return run_programs(folder, options, options.inputs);
    }
    let Some(file) = &options.wrong_versions else {
        return compare(options);
    };
    match wrong::table(file, options.threads) {
        Ok(table) => {
            print!("{table}");
            ExitCode::SUCCESS
        }
        Err(why) => {
            eprintln!("compare: {why}");
            ExitCode::FAILURE
        }
    }
}

fn write_vectors(file: &Path, seed: u64) -> ExitCode {
    let list = choice::list(seed);
    let bytes = stored::file(&list);
    if let Err(e) = std::fs::write(file, &bytes) {
        eprintln!("compare: {}: {e}", file.display());
        return ExitCode::from(2);
    }
    println!(
        "{} answers, {} of them by document 01 alone, {} bytes",
        list.len(),
        list.iter().filter(|stored| by_document(stored)).count(),
        bytes.len()
    );
    ExitCode::SUCCESS
}

/// Whether document 01 alone decides a case.
fn by_document(stored: &Stored) -> bool {
    let mut outcome = Outcome::default();
    rules::expected(&stored.case, &mut outcome);
    outcome.rule.is_some_and(Rule::decides)
}

fn compare(options: &Options) -> ExitCode {
    // A panic is reported as a difference.
    std::panic::set_hook(Box::new(|_| {}));
    println!(
        "seed {}, {} random cases of each kind, all inputs of up to {} bytes",
        options.seed,
        report::grouped(options.cases),
        options.exhaustive_bytes
    );
    let mut tallies = Vec::new();
    for &kind in &options.kinds {
        let plan = Plan {
            kind,
            seed: options.seed,
            cases: options.cases,
            exhaustive_bytes: options.exhaustive_bytes,
            threads: options.threads,
        };
        match run(&plan) {
            Ok(tally) => tallies.push((kind, tally)),
            Err(case) => {
                println!("a difference; the smallest input that shows it:\n");
                print!("{}", report::difference(&shrink::shrink(case, differs)));
                return ExitCode::FAILURE;
            }
        }
    }
    println!("\n{}", report::summary(&tallies));
    println!("no difference but the known ones");
    if options.all {
        run_built(options)
    } else {
        ExitCode::SUCCESS
    }
}

/// The project's programs, if they are built.
fn run_built(options: &Options) -> ExitCode {
    let built = programs::built();
    match programs::standing_in(&built) {
        Err(Refusal::None(why)) => {
            println!("the programs are left out, since none is built: {why}");
            ExitCode::SUCCESS
        }
        _ => run_programs(&built, options, options.inputs_behind()),
    }
}

/// Runs the programs that stand in a folder, each with so many random inputs.
fn run_programs(folder: &Path, options: &Options, inputs: u64) -> ExitCode {
    let fail = |why: String, status: u8| {
        eprintln!("compare: {why}");
        ExitCode::from(status)
    };
    let standing = match programs::standing_in(folder) {
        Ok(standing) => standing,
        Err(Refusal::Unknown(why)) => return fail(why, 1),
        Err(Refusal::None(why)) => return fail(why, 2),
    };
    // No input makes the Rust panic: it would be said.
    let _ = std::panic::take_hook();
    println!(
        "seed {}, {} random inputs of each program beside those made by a rule",
        options.seed,
        report::grouped(inputs)
    );
    let mut tallies = Vec::new();
    for (program, path) in &standing {
        let plan = programs::Plan {
            program: *program,
            path,
            seed: options.seed,
            cases: inputs,
            threads: options.threads,
        };
        match programs::run(&plan) {
            Ok(Ok(tally)) => tallies.push((*program, tally)),
            Ok(Err(difference)) => {
                println!("a program differs; the smallest input that shows it:\n");
                print!("{}", programs::report::difference(*program, &difference));
                return ExitCode::FAILURE;
            }
            Err(e) => return fail(format!("{}: {e}", path.display()), 2),
        }
    }
    println!("\n{}", programs::report::summary(&tallies));
    println!("each program prints what it has to");
    ExitCode::SUCCESS
}
