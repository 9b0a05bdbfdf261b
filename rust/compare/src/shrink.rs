//! The smallest case that still fails.

use crate::case::Case;
use crate::kind::Kind;

/// Makes a failing case smaller, step by step, until no step leaves it failing.
pub fn shrink(mut case: Case, fails: impl Fn(&Case) -> bool) -> Case {
    loop {
        let before = case.clone();
        shorten(&mut case, &fails);
        lower_place(&mut case, &fails);
        lower_bytes(&mut case, &fails);
        lower_args(&mut case, &fails);
        if case == before {
            return case;
        }
    }
}

/// Takes the step if the case still fails with it.
fn attempt(case: &mut Case, fails: &impl Fn(&Case) -> bool, step: impl FnOnce(&mut Case)) -> bool {
    let mut next = case.clone();
    step(&mut next);
    let taken = next != *case && fails(&next);
    if taken {
        *case = next;
    }
    taken
}

/// Drops bytes, and calls of a row.
fn shorten(case: &mut Case, fails: &impl Fn(&Case) -> bool) {
    let mut size = case.data.len().next_power_of_two();
    while size > 0 {
        let mut at = case.data.len();
        while at > 0 {
            at = at.saturating_sub(size);
            attempt(case, fails, |c| {
                let end = (at + size).min(c.data.len());
                c.data.drain(at.min(end)..end);
            });
        }
        size /= 2;
    }
    if case.kind == Kind::Rows {
        for call in (0..case.args.len() / 4).rev() {
            attempt(case, fails, |c| {
                c.args.drain(4 * call..4 * call + 4);
            });
        }
    }
}

fn lower_place(case: &mut Case, fails: &impl Fn(&Case) -> bool) {
    attempt(case, fails, |c| c.place.error = false);
    attempt(case, fails, |c| c.place.byte = 0);
    attempt(case, fails, |c| {
        c.place.byte = c.place.byte.min(c.data.len())
    });
    while attempt(case, fails, |c| {
        c.place.byte = c.place.byte.saturating_sub(1)
    }) {}
    attempt(case, fails, |c| c.place.used = 0);
    attempt(case, fails, |c| c.place.used = c.place.used.min(8));
    while attempt(case, fails, |c| {
        c.place.used = c.place.used.saturating_sub(1)
    }) {}
}

fn lower_bytes(case: &mut Case, fails: &impl Fn(&Case) -> bool) {
    for at in 0..case.data.len() {
        if !attempt(case, fails, |c| c.data[at] = 0) {
            for bit in (0..8).rev() {
                attempt(case, fails, |c| c.data[at] &= !(1 << bit));
            }
            while attempt(case, fails, |c| c.data[at] >>= 1) {}
        }
    }
}

fn lower_args(case: &mut Case, fails: &impl Fn(&Case) -> bool) {
    // Whole records first: they have many numbers.
    for size in [139, 16] {
        for start in (0..case.args.len()).step_by(size) {
            attempt(case, fails, |c| {
                let end = (start + size).min(c.args.len());
                c.args[start..end].fill(0);
            });
        }
    }
    for at in 0..case.args.len() {
        lower_arg(case, fails, at);
    }
}

/// The first of some small numbers that still fails, or else ever smaller steps towards 0.
fn lower_arg(case: &mut Case, fails: &impl Fn(&Case) -> bool, at: usize) {
    let now = case.args[at];
    // A size often fails only at one distance from a whole number of superblocks.
    let beside = (0..80).flat_map(|n| [64 * n, 64 * n + now.rem_euclid(64)]);
    let small = (0..20).chain(beside);
    for number in small.take_while(|&n| n < now.abs()) {
        if attempt(case, fails, |c| c.args[at] = number) {
            return;
        }
    }
    let mut step = now.abs() / 2;
    while step > 0 {
        while attempt(case, fails, |c| {
            c.args[at] -= c.args[at].signum() * step.min(c.args[at].abs());
        }) {}
        step /= 2;
    }
}
