//! Runs a program on all its inputs, on all cores. The result depends on the seed alone.

use super::{Answer, Inputs, Printed, Program, Room, answer, small};
use crate::run::Progress;
use std::io;
use std::path::Path;
use std::sync::Mutex;
use std::sync::atomic::{AtomicBool, AtomicU64, Ordering::Relaxed};
use std::thread;
use std::time::Duration;

/// What to run of a program.
pub struct Plan<'a> {
    pub program: Program,
    pub path: &'a Path,
    pub seed: u64,
    /// Inputs made at random, beside those made by a rule.
    pub cases: u64,
    pub threads: usize,
}

/// Counts of answers.
#[derive(Debug, Clone, Default, PartialEq)]
pub struct Tally {
    pub inputs: u64,
    pub accepted: u64,
    /// Refusals 1 to 8.
    pub refused: [u64; 8],
    /// The lists of stored answers in which some are wrong.
    pub told: u64,
}

impl Tally {
    fn count(&mut self, program: Program, answer: &Answer) {
        self.inputs += 1;
        match answer.number {
            0 => self.accepted += 1,
            _ if program == Program::Vectors => self.told += 1,
            refusal => self.refused[refusal as usize - 1] += 1,
        }
    }

    fn add(&mut self, other: &Self) {
        self.inputs += other.inputs;
        self.accepted += other.accepted;
        self.told += other.told;
        for (sum, n) in self.refused.iter_mut().zip(other.refused) {
            *sum += n;
        }
    }
}

/// An input of which a program printed something else.
#[derive(Debug)]
pub struct Difference {
    pub input: Vec<u8>,
    pub expected: Answer,
    pub printed: Printed,
}

/// The counts, or the smallest input found of which the program prints something else.
pub fn run(plan: &Plan) -> io::Result<Result<Tally, Box<Difference>>> {
    let inputs = Inputs::of(plan.program, plan.seed, plan.cases);
    let count = inputs.count();
    let next = AtomicU64::new(0);
    let stop = AtomicBool::new(false);
    let total = Mutex::new(Tally::default());
    let found: Mutex<Option<(u64, Vec<u8>)>> = Mutex::new(None);

    let work = |worker: usize| -> io::Result<()> {
        let room = Room::new(&worker.to_string())?;
        let mut tally = Tally::default();
        while !stop.load(Relaxed) {
            let i = next.fetch_add(1, Relaxed);
            if i >= count {
                break;
            }
            let input = inputs.input(i);
            let expected = answer(plan.program, &input);
            let printed = room.run(plan.program, plan.path, &input);
            if printed.as_ref().is_ok_and(|p| p.is(&expected.text)) {
                tally.count(plan.program, &expected);
                continue;
            }
            stop.store(true, Relaxed);
            printed?;
            let mut found = found.lock().unwrap();
            if found.as_ref().is_none_or(|(earlier, _)| i < *earlier) {
                *found = Some((i, input));
            }
        }
        total.lock().unwrap().add(&tally);
        Ok(())
    };

    thread::scope(|scope| {
        let threads: Vec<_> = (0..plan.threads)
            .map(|worker| scope.spawn(move || work(worker)))
            .collect();
        let mut progress = Progress::new(plan.program.name());
        while !threads.iter().all(thread::ScopedJoinHandle::is_finished) {
            thread::sleep(Duration::from_millis(5));
            progress.show(next.load(Relaxed).min(count), count);
        }
        progress.clear();
        threads
            .into_iter()
            .try_for_each(|thread| thread.join().unwrap())
    })?;
    match found.into_inner().unwrap() {
        Some((_, input)) => Ok(Err(Box::new(difference(plan, &input)?))),
        None => Ok(Ok(total.into_inner().unwrap())),
    }
}

/// The input made small, with what is expected and what is printed.
fn difference(plan: &Plan, input: &[u8]) -> io::Result<Difference> {
    let room = Room::new("small")?;
    let differs = |input: &[u8]| {
        let expected = answer(plan.program, input);
        let printed = room.run(plan.program, plan.path, input);
        printed.is_ok_and(|printed| !printed.is(&expected.text))
    };
    let input = small::smallest(plan.program, input, differs);
    Ok(Difference {
        expected: answer(plan.program, &input),
        printed: room.run(plan.program, plan.path, &input)?,
        input,
    })
}
