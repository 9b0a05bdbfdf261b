//! Segments: deltas around both ends of what they are held to, over masks given.

use crate::bits::BitWriter;
use crate::case::{Case, Place};
use crate::kind::Kind;
use crate::records::SEG;
use crate::rng::Rng;

/// Ten bits with a sign.
const DELTAS: [i64; 14] = [
    -512, -511, -400, -353, -352, -351, -350, -1, 0, 1, 350, 351, 352, 511,
];

pub fn add(list: &mut Vec<Case>, seed: u64) {
    let mut rng = Rng::of_part(seed, 101, 0);
    for i in 0..200 {
        let ext = i % 2;
        let mut bits = BitWriter::default();
        let before = rng.below(10) as usize;
        bits.bits(rng.number(), before as u32);
        for segment in 0..8 << ext {
            let sent = rng.percent(60);
            bits.bit(sent);
            if sent {
                let delta = if (i + segment) % 3 == 0 {
                    rng.range(-512, 511)
                } else {
                    rng.pick(&DELTAS)
                };
                bits.bits(delta as u64, 10);
            }
            bits.bits(rng.number(), 2);
        }
        // Some end early.
        if i % 5 == 4 {
            let kept = rng.below(bits.used() as u64 + 1) as usize;
            bits.truncate(kept.max(before));
        }
        bits.bits(rng.number(), if i % 4 == 0 { 20 } else { 0 });
        let mut args = vec![0; SEG];
        if i % 4 > 1 {
            args[..16].fill_with(|| rng.range(-351, 351));
            args[16..].fill_with(|| rng.range(0, 65_535));
        }
        args.push(ext);
        list.push(Case {
            data: bits.into_bytes(),
            place: Place {
                error: i % 11 == 10,
                ..Place::behind(before)
            },
            args,
            ..Case::of(Kind::ParseSegInfo)
        });
    }
}
