//! Compares the proved library with the Rust: value, bits used, error, refusal and record of each operation.
//!
//! Without the feature `ours` it has what replays stored answers on the Rust, and needs no library.

#[cfg(feature = "ours")]
pub mod bits;
mod by_rule;
#[cfg(feature = "ours")]
mod callers;
pub mod case;
#[cfg(feature = "ours")]
pub mod choice;
#[cfg(feature = "ours")]
mod exhaustive;
pub mod kind;
#[cfg(feature = "ours")]
pub mod make;
#[cfg(feature = "ours")]
pub mod options;
#[cfg(feature = "ours")]
mod ours;
#[cfg(feature = "ours")]
pub mod programs;
#[cfg(feature = "ours")]
pub mod rebuild;
pub mod records;
pub mod replay;
#[cfg(feature = "ours")]
pub mod report;
#[cfg(feature = "ours")]
pub mod rng;
pub mod rule;
pub mod rules;
#[cfg(feature = "ours")]
pub mod run;
#[cfg(feature = "ours")]
pub mod shrink;
pub mod stored;
#[cfg(feature = "ours")]
pub mod tally;
pub mod theirs;
#[cfg(feature = "ours")]
pub mod wrong;

// The rules that stand beside the Rust's reading, from the files that the build script names: of old starts, of a limit, of
// rectangles, and of writing.
mod cleared {
    include!(env!("CLEARED_RULE"));
}
pub mod within {
    include!(env!("WITHIN_RULE"));
}
mod rectangles {
    include!(env!("RECTANGLES_RULE"));
}
mod writing {
    include!(env!("WRITING_RULE"));
}

// The Rust's callers name these by their paths in its crate.
#[cfg(feature = "ours")]
use callers::{error, headers, intops};
