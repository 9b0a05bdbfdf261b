//! What our library has to answer: by a rule of document 01, else the Rust's answer; of an accepted layout without old starts;
//! and within a limit, what its rule makes of that. An outcome has the last of the rules that changed it.

use crate::case::{Case, Outcome};
use crate::{by_rule, cleared, theirs, within};

pub fn expected(case: &Case, out: &mut Outcome) {
    out.clear();
    if !by_rule::decided(case, out) {
        theirs::run(case, out);
    }
    cleared::clear(case, out);
    if let Some(limit) = case.limit() {
        within::hold(case, limit, out);
    }
}
