//! The cases of the stored list: document 01's readings, then each operation around each of its boundaries.
//!
//! They are chosen so that a wrong line shows: `compare --wrong-versions` counts for each wrong version of the Rust
//! how many stored answers differ.

mod by_rule;
mod cleared;
mod document;
mod frames;
mod grain;
mod headers;
mod layouts;
mod readings;
mod segments;
mod within;
mod writing;

use crate::bits::BitWriter;
use crate::case::{Case, Outcome, Place};
use crate::kind::Kind;
use crate::make::make;
use crate::rng::Rng;
use crate::rules::expected;
use crate::stored::{self, Stored};

/// The cases; the seed is that of the numbers that are left to chance.
pub fn cases(seed: u64) -> Vec<Case> {
    let mut list = document::readings();
    readings::add(&mut list, seed);
    segments::add(&mut list, seed);
    layouts::add(&mut list, seed);
    headers::add(&mut list, seed);
    frames::add(&mut list, seed);
    by_rule::add(&mut list, seed);
    within::add(&mut list, seed);
    grain::add(&mut list, seed);
    writing::add(&mut list, seed);
    cleared::add(&mut list, seed);
    list
}

/// Each case with the outcome expected of it.
pub fn list(seed: u64) -> Vec<Stored> {
    let mut outcome = Outcome::default();
    cases(seed)
        .into_iter()
        .map(|case| {
            expected(&case, &mut outcome);
            let outcome = stored::numbers(&case, &outcome);
            Stored { case, outcome }
        })
        .collect()
}

/// So many cases as the comparison makes them, of those that the Rust decides; none is far past the end.
fn made(list: &mut Vec<Case>, rng: &mut Rng, kind: Kind, wanted: usize) {
    let mut case = Case::of(kind);
    let mut outcome = Outcome::default();
    let end = list.len() + wanted;
    while list.len() < end {
        make(rng, &mut case, &mut outcome);
        expected(&case, &mut outcome);
        let near = case.place.byte <= case.data.len() + 4 && case.place.used < 8;
        if near && outcome.rule.is_none_or(|rule| !rule.decides()) {
            list.push(case.clone());
        }
    }
}

/// A case whose data ends a few bits before the last one that its reading uses, or anywhere before it.
fn cut(rng: &mut Rng, whole: &Case, anywhere: bool) -> Case {
    let mut outcome = Outcome::default();
    expected(whole, &mut outcome);
    let read = outcome.place.bits() as i64;
    let kept = if anywhere {
        rng.range(0, read)
    } else {
        read - rng.range(0, 4)
    };
    let kept = kept.max(0) as usize;
    let mut bits = BitWriter::of(&whole.data);
    bits.truncate(kept);
    // The data ends with the last bit kept.
    let before = (8 - kept % 8) % 8;
    let mut shifted = BitWriter::default();
    shifted.bits(rng.number(), before as u32);
    shifted.append(&bits);
    Case {
        data: shifted.into_bytes(),
        place: Place::behind(before),
        ..whole.clone()
    }
}
