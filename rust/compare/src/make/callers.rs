//! The Rust's own callers of the reader: which of them, and on what.

use super::{bytes, header};
use crate::case::Case;
use crate::rng::Rng;

/// The number of the caller, and its argument.
pub fn case(rng: &mut Rng, case: &mut Case) {
    let which = rng.below(oracle::CALLERS.len() as u64) as usize;
    case.args.extend([which as i64, rng.range(0, 3)]);
    if oracle::CALLERS[which] == "parse_seq_hdr" && rng.percent(90) {
        case.data = header::header(rng);
    } else if rng.flag() {
        let len = rng.below(200);
        case.data.extend((0..len).map(|_| rng.byte() & rng.byte()));
    } else {
        bytes::fill(rng, &mut case.data, 200);
    }
}
