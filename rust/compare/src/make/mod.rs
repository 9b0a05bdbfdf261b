//! Cases made at random, of each kind.

mod bytes;
mod callers;
pub mod damage;
pub mod frames;
pub mod grain;
pub mod header;
pub mod layouts;
mod readings;
pub mod within;
pub mod writing;

use crate::case::{Case, Outcome, Place, Source};
use crate::kind::Kind;
use crate::records::SEG;
use crate::rng::Rng;
use crate::rules::expected;

/// Makes a case of the kind that `case` has, in place of what is in it.
pub fn make(rng: &mut Rng, case: &mut Case, scratch: &mut Outcome) -> Source {
    let source = made(rng, case, scratch);
    if case.kind.is_limited() {
        within::limit(rng, case, scratch);
    }
    source
}

fn made(rng: &mut Rng, case: &mut Case, scratch: &mut Outcome) -> Source {
    case.args.clear();
    case.data.clear();
    let mut source = Source::Random;
    match case.kind {
        Kind::ParseSeqHdr => source = header::case(rng, case),
        Kind::ParseFilmGrainData => source = grain::case(rng, case),
        Kind::ParseTileInfo => layouts::layout_case(rng, case),
        Kind::ParseTileInfoFrmhdr => frames::case(rng, case),
        Kind::ParseTileInfoWithin => within::layout_case(rng, case),
        Kind::ParseTileInfoFrmhdrWithin => within::frame_case(rng, case),
        Kind::TileRectangles => layouts::rectangles_case(rng, case),
        Kind::WriteTileInfo => return writing::case(rng, case),
        Kind::ParseSegInfo => {
            seg_args(rng, case);
            bytes::fill(rng, &mut case.data, 40);
        }
        Kind::Rows => readings::row(rng, case),
        Kind::Callers => callers::case(rng, case),
        kind => {
            readings::args(rng, kind, &mut case.args);
            readings::data(rng, case);
        }
    }
    case.place = Place {
        error: rng.percent(4),
        ..Place::default()
    };
    match rng.below(100) {
        _ if case.kind == Kind::TileRectangles => {}
        0..25 => {
            cut_at_boundary(rng, case, scratch);
            return Source::Boundary;
        }
        25..40 => bytes::put_behind(rng, case, None),
        40..44 => bytes::any_place(rng, case),
        _ => {}
    }
    source
}

fn seg_args(rng: &mut Rng, case: &mut Case) {
    if rng.flag() {
        case.args.resize(SEG, 0);
    } else {
        case.args
            .extend((0..16).map(|_| i64::from(rng.number() as i16)));
        case.args
            .extend((16..SEG).map(|_| i64::from(rng.number() as u16)));
    }
    case.args.push(rng.flag().into());
}

/// Makes the data end within three bits of the last bit that is read.
fn cut_at_boundary(rng: &mut Rng, case: &mut Case, scratch: &mut Outcome) {
    expected(case, scratch);
    let read = scratch.place.bits() as i64;
    let kept = (read + rng.range(-3, 3)).max(0) as usize;
    bytes::put_behind(rng, case, Some(kept));
}
