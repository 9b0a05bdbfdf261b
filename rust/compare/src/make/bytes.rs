//! Byte strings and places.

use crate::bits::BitWriter;
use crate::case::{Case, Place};
use crate::rng::Rng;

/// Bytes of several kinds, at most `most`; mostly few.
pub fn fill(rng: &mut Rng, data: &mut Vec<u8>, most: u64) {
    let len = if rng.percent(70) {
        rng.below(most.min(10) + 1)
    } else {
        rng.below(most + 1)
    };
    let kind = rng.below(7);
    data.extend((0..len).map(|_| match kind {
        0 | 1 => rng.byte(),
        2 => rng.byte() & rng.byte() & rng.byte(),
        3 => rng.byte() | rng.byte() | rng.byte(),
        4 => 0x00,
        5 => 0xFF,
        _ => rng.byte() | 0x80,
    }));
    // One odd bit in a run of equal ones.
    if kind > 3 && len > 0 && rng.flag() {
        let at = data.len() - 1 - rng.below(len) as usize;
        data[at] ^= 1 << rng.below(8);
    }
}

/// Any place: inside, at the end, past it.
pub fn any_place(rng: &mut Rng, case: &mut Case) {
    let len = case.data.len();
    (case.place.byte, case.place.used) = match rng.below(4) {
        0 => (rng.below(len as u64 + 1) as usize, rng.below(8) as u32),
        1 => (len, 0),
        2 => (len + rng.below(4) as usize, rng.below(10) as u32),
        _ => (rng.wide(63) as usize, rng.pick(&[0, 7, 8, 9, 64, u32::MAX])),
    };
}

/// Puts the first bits of the data behind others that are used already. With `kept` only so many, and the data
/// ends with the last of them.
pub fn put_behind(rng: &mut Rng, case: &mut Case, kept: Option<usize>) {
    let (bits, before) = match kept {
        Some(kept) => (kept, (8 - kept % 8) % 8 + 8 * rng.below(4) as usize),
        None => (8 * case.data.len(), rng.below(32) as usize),
    };
    let mut shifted = BitWriter::default();
    shifted.bits(rng.number(), before as u32);
    for i in 0..bits.div_ceil(8) {
        let byte = case.data.get(i).copied().unwrap_or(0);
        let taken = 8.min(bits - 8 * i) as u32;
        shifted.bits(u64::from(byte) >> (8 - taken), taken);
    }
    case.data = shifted.into_bytes();
    case.place = Place {
        byte: before / 8,
        used: (before % 8) as u32,
        error: case.place.error,
    };
}
