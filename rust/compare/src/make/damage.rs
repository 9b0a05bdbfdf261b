//! Damaged copies.

use crate::rng::Rng;

/// Flips bits, drops bytes or adds some.
pub fn damage(rng: &mut Rng, data: &mut Vec<u8>) {
    for _ in 0..rng.range(1, 3) {
        let len = data.len() as u64;
        if len == 0 {
            data.push(rng.byte());
            continue;
        }
        let at = rng.below(len) as usize;
        match rng.below(8) {
            0..=3 => data[at] ^= 1 << rng.below(8),
            4 => data[at] = rng.byte(),
            5 => data.truncate(at),
            6 => {
                data.remove(at);
            }
            _ => data.insert(at, rng.byte()),
        }
    }
}
