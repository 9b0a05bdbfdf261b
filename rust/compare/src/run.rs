//! Runs all cases of a kind on all cores. The result depends on the seed alone.

use crate::case::{Case, Outcome, Source};
use crate::exhaustive::Exhaustive;
use crate::kind::Kind;
use crate::make;
use crate::ours;
use crate::rng::Rng;
use crate::rules;
use crate::tally::Tally;
use std::io::IsTerminal;
use std::panic::{AssertUnwindSafe, catch_unwind};
use std::sync::Mutex;
use std::sync::atomic::{AtomicBool, AtomicU64, Ordering::Relaxed};
use std::thread;
use std::time::{Duration, Instant};

/// The cases that a thread takes at a time, made by a generator of their own.
const PART: u64 = 4096;

/// A difference, with the number of the part that it was found in.
struct Found {
    part: u64,
    case: Case,
}

/// What to run of a kind.
pub struct Plan {
    pub kind: Kind,
    pub seed: u64,
    /// Made at random, beside the exhaustive ones.
    pub cases: u64,
    pub exhaustive_bytes: u32,
    pub threads: usize,
}

/// The counts, or a case on which the libraries differ.
pub fn run(plan: &Plan) -> Result<Tally, Case> {
    let exhaustive = Exhaustive::of(plan.kind, plan.exhaustive_bytes);
    let exhaustive_parts = exhaustive.cases().div_ceil(PART);
    let parts = exhaustive_parts + plan.cases.div_ceil(PART);
    let next = AtomicU64::new(0);
    let done = AtomicU64::new(0);
    let stop = AtomicBool::new(false);
    let total = Mutex::new(Tally::default());
    let found: Mutex<Option<Found>> = Mutex::new(None);

    let work = || {
        let mut worker = Worker::new(plan, &exhaustive);
        loop {
            let part = next.fetch_add(1, Relaxed);
            if part >= parts || stop.load(Relaxed) {
                break;
            }
            let agreed = if part < exhaustive_parts {
                worker.exhaustive_part(part)
            } else {
                worker.random_part(part - exhaustive_parts)
            };
            if !agreed {
                stop.store(true, Relaxed);
                let mut found = found.lock().unwrap();
                if found.as_ref().is_none_or(|earlier| part < earlier.part) {
                    *found = Some(Found {
                        part,
                        case: worker.case.clone(),
                    });
                }
                break;
            }
            done.store(done.load(Relaxed).max(part + 1), Relaxed);
        }
        total.lock().unwrap().add(&worker.tally);
    };

    thread::scope(|scope| {
        let threads: Vec<_> = (0..plan.threads).map(|_| scope.spawn(work)).collect();
        let mut progress = Progress::new(plan.kind.name());
        while !threads.iter().all(thread::ScopedJoinHandle::is_finished) {
            thread::sleep(Duration::from_millis(5));
            progress.show(done.load(Relaxed), parts);
        }
        progress.clear();
    });

    match found.into_inner().unwrap() {
        Some(found) => Err(found.case),
        None => Ok(total.into_inner().unwrap()),
    }
}

/// A progress line, at most once a second; where no one looks at it, a line every ten seconds.
pub struct Progress {
    name: &'static str,
    terminal: bool,
    shown: Instant,
}

impl Progress {
    pub fn new(name: &'static str) -> Self {
        Self {
            name,
            terminal: std::io::stderr().is_terminal(),
            shown: Instant::now(),
        }
    }

    pub fn show(&mut self, done: u64, parts: u64) {
        let pause = if self.terminal { 1 } else { 10 };
        if self.shown.elapsed() < Duration::from_secs(pause) {
            return;
        }
        self.shown = Instant::now();
        let line = format!("{}: {} of 100", self.name, 100 * done / parts.max(1));
        if self.terminal {
            eprint!("\r{line}\x1b[K");
        } else {
            eprintln!("{line}");
        }
    }

    pub fn clear(&self) {
        if self.terminal {
            eprint!("\r\x1b[K");
        }
    }
}

struct Worker<'a> {
    plan: &'a Plan,
    exhaustive: &'a Exhaustive,
    case: Case,
    expected: Outcome,
    got: Outcome,
    tally: Tally,
}

impl<'a> Worker<'a> {
    fn new(plan: &'a Plan, exhaustive: &'a Exhaustive) -> Self {
        Self {
            plan,
            exhaustive,
            case: Case::of(plan.kind),
            expected: Outcome::default(),
            got: Outcome::default(),
            tally: Tally::default(),
        }
    }

    fn exhaustive_part(&mut self, part: u64) -> bool {
        let end = self.exhaustive.cases().min((part + 1) * PART);
        (part * PART..end).all(|index| {
            self.exhaustive.fill(index, &mut self.case);
            self.agrees(Source::Exhaustive)
        })
    }

    fn random_part(&mut self, part: u64) -> bool {
        let mut rng = Rng::of_part(self.plan.seed, self.plan.kind.number(), part);
        let cases = PART.min(self.plan.cases - part * PART);
        (0..cases).all(|_| {
            let source = make::make(&mut rng, &mut self.case, &mut self.expected);
            self.agrees(source)
        })
    }

    fn agrees(&mut self, source: Source) -> bool {
        let agreed = compared(&self.case, &mut self.expected, &mut self.got);
        if agreed {
            self.tally.count(&self.case, source, &self.expected);
        }
        agreed
    }
}

/// Whether both give one outcome. A panic is a difference.
fn compared(case: &Case, wanted: &mut Outcome, got: &mut Outcome) -> bool {
    catch_unwind(AssertUnwindSafe(|| {
        rules::expected(case, wanted);
        ours::run(case, got);
        wanted.agrees(got)
    }))
    .unwrap_or(false)
}

pub fn differs(case: &Case) -> bool {
    !compared(case, &mut Outcome::default(), &mut Outcome::default())
}
