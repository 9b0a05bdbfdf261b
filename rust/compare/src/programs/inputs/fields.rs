//! The inputs of seqhdr and of grain: a byte, then what is read.

use super::{behind, bytes, lengths};
use crate::case::Case;
use crate::kind::Kind;
use crate::make::{grain, header};
use crate::rng::Rng;

/// The input of a case that reads a header or film grain parameters.
pub fn of_case(case: &Case) -> Vec<u8> {
    behind(case.args[0] as u8, &case.data)
}

/// Each level and tier, each first byte and each length of a header, and each of its bytes at its edges.
pub fn headers(rng: &mut Rng) -> Vec<Vec<u8>> {
    let mut list = vec![];
    for level in 0..32 {
        for tier in 0..2 {
            let wishes = [("level", level), ("tier", tier), ("reduced", 0)];
            let data = header::wished(rng, &wishes);
            list.push(behind(rng.below(2) as u8, &data));
        }
    }
    let tiling = [("tiling", 1), ("trailing", 1), ("reduced", 1)];
    let good = behind(1, &header::wished(rng, &tiling));
    list.extend(bytes(&good, 0..1));
    list.extend(bytes(&good, 1..good.len().min(12)));
    list.extend(lengths(&good, 0));
    list
}

/// Each layout, and some that there are not, each length of some parameters, and each of their first bytes at its edges.
pub fn grain(rng: &mut Rng) -> Vec<Vec<u8>> {
    let mut list = vec![];
    for layout in 0..4 {
        for points in 0..16 {
            let wishes = grain::PLANES.map(|plane| (plane, points));
            let data = grain::wished(rng, layout, &wishes);
            list.push(behind(layout as u8, &data));
        }
    }
    let wishes = [("y", 2), ("u", 1), ("v", 1), ("lag", 1), ("from_luma", 0)];
    let good = behind(1, &grain::wished(rng, grain::I420, &wishes));
    list.extend(bytes(&good, 0..good.len().min(12)));
    list.extend(lengths(&good, 0));
    list
}

pub fn random_header(rng: &mut Rng) -> Vec<u8> {
    random(rng, Kind::ParseSeqHdr)
}

pub fn random_grain(rng: &mut Rng) -> Vec<u8> {
    random(rng, Kind::ParseFilmGrainData)
}

/// As the comparison makes them: written field by field, damaged, or any bytes.
fn random(rng: &mut Rng, kind: Kind) -> Vec<u8> {
    let mut case = Case::of(kind);
    match kind {
        Kind::ParseSeqHdr => header::case(rng, &mut case),
        _ => grain::case(rng, &mut case),
    };
    if rng.percent(1) {
        case.args[0] = i64::from(rng.byte());
    }
    of_case(&case)
}
