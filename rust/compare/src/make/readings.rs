//! Arguments and data of the readings.

use super::bytes;
use crate::case::Case;
use crate::kind::Kind;
use crate::rng::Rng;

/// Arguments of every kind: inside the limits, at them and past them.
pub fn args(rng: &mut Rng, kind: Kind, args: &mut Vec<i64>) {
    match kind {
        Kind::GetBits | Kind::GetSbits => args.push(width(rng)),
        Kind::GetUniform => args.push(rng.wide(32) as i64),
        Kind::GetRefUniform => {
            let max = rng.wide(32) as i64;
            args.extend([max, near(rng, max)]);
        }
        Kind::GetGolomb => args.push(if rng.percent(95) {
            rng.range(0, 33)
        } else {
            rng.wide(32) as i64
        }),
        Kind::GetBitsSubexpU => {
            let n = rng.wide(32) as i64;
            let k = if rng.percent(90) {
                rng.range(0, 31)
            } else {
                signed(rng)
            };
            args.extend([near(rng, n), n, k]);
        }
        Kind::GetBitsSubexp => {
            let n = rng.wide(32) as i64;
            let ref_val = match rng.below(8) {
                0..=4 => {
                    let edge = n.clamp(1, 1 << 30) - 1;
                    rng.range(-edge, edge)
                }
                5 => -n + rng.range(-2, 2),
                6 => n + rng.range(-2, 2),
                _ => signed(rng),
            };
            args.extend([i64::from(ref_val as i32), n]);
        }
        _ => {}
    }
}

fn width(rng: &mut Rng) -> i64 {
    if rng.percent(95) {
        rng.range(-1, 33)
    } else {
        signed(rng)
    }
}

/// Any signed number, often an extreme one.
fn signed(rng: &mut Rng) -> i64 {
    let n = rng.wide(31) as i64;
    if rng.flag() { n } else { -n - 1 }
}

/// A number below n, mostly; else one beside n, or any.
fn near(rng: &mut Rng, n: i64) -> i64 {
    let number = match rng.below(8) {
        0..=3 => rng.below(n.max(1) as u64) as i64,
        4 => 0,
        5 => n / 2 + rng.range(-1, 1),
        6 => n + rng.range(-2, 1),
        _ => rng.wide(32) as i64,
    };
    number.clamp(0, i64::from(u32::MAX))
}

pub fn data(rng: &mut Rng, case: &mut Case) {
    match case.kind {
        // A number sent in one to nine bytes, some longer than needed.
        Kind::GetUleb128 if rng.flag() => {
            let more = rng.below(9) as usize;
            case.data
                .extend((0..more).map(|_| 0x80 | if rng.flag() { rng.byte() } else { 0 }));
            case.data.push(if rng.flag() {
                rng.byte()
            } else {
                rng.byte() & 0x0F
            });
        }
        // Zeros, or ones, of every length with something behind them.
        Kind::GetVlc | Kind::GetGolomb if rng.flag() => {
            let run = rng.below(36) as usize;
            let flip = if case.kind == Kind::GetVlc {
                0x00
            } else {
                0xFF
            };
            case.data.resize(run / 8, flip);
            let mask = 0xFFu8 >> (run % 8);
            case.data
                .push((flip & !mask) | ((!flip & mask) & (rng.byte() | 0x80 >> (run % 8))));
            bytes::fill(rng, &mut case.data, 8);
        }
        _ => bytes::fill(rng, &mut case.data, 24),
    }
}

/// Up to twelve readings by one reader, each inside its limits: number of the kind, then three arguments.
pub fn row(rng: &mut Rng, case: &mut Case) {
    bytes::fill(rng, &mut case.data, 48);
    for _ in 0..rng.range(1, 12) {
        let kind = Kind::ALL[rng.below(Kind::READINGS as u64) as usize];
        let mut call = vec![kind.number() as i64];
        args(rng, kind, &mut call);
        match kind {
            Kind::GetUniform | Kind::GetRefUniform => call[1] %= 1 << 31,
            Kind::GetBitsSubexp => call[2] %= (1 << 30) + 1,
            Kind::GetBitsSubexpU => call[2] %= 1 << 31,
            _ => {}
        }
        call.resize(4, 0);
        case.args.extend(call);
    }
}
