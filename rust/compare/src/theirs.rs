//! A case run by the Rust, in document 01's terms: its places, its numbers, and the record that comes back.

use crate::case::{Case, Outcome, Place};
use crate::kind::Kind;
use crate::records::{Numbers, SEG, TILE, from::theirs as from};
use crate::rule::Rule;
use oracle::Reader;
use oracle::error::TealdustError;
use oracle::headers::{SequenceHeader, TileInfo};

/// Not for cases that a rule of document 01 decides: there the Rust may panic.
pub fn run(case: &Case, out: &mut Outcome) {
    out.clear();
    let a = &case.args;
    let Place { byte, used, error } = case.place;
    let gb = &mut Reader::at_place(&case.data, byte, used, error);
    if case.is_past_end() {
        out.rule = Some(Rule::PastEnd);
    }
    match case.kind {
        Kind::ParseTileInfo | Kind::ParseTileInfoWithin => parse_tile_info(case, gb, out),
        Kind::ParseSeqHdr => match gb.parse_seq_hdr(a[0] != 0) {
            Ok(hdr) => hdr.numbers(&mut out.record),
            Err(refusal) => out.answer = number(Err(refusal)),
        },
        Kind::ParseTileInfoFrmhdr | Kind::ParseTileInfoFrmhdrWithin => {
            parse_tile_info_frmhdr(case, gb, out);
        }
        Kind::ParseFilmGrainData => match gb.parse_film_grain_data(from::pixel_layout(a[0])) {
            Ok(fgd) => fgd.numbers(&mut out.record),
            Err(refusal) => out.answer = number(Err(refusal)),
        },
        Kind::ParseSegInfo => {
            let mut seg = from::seg_info(a);
            gb.parse_seg_info(&mut seg, if a[SEG] != 0 { 16 } else { 8 });
            seg.numbers(&mut out.record);
        }
        Kind::Positions => {
            out.answer = gb.byte_pos() as i64;
            out.record.push(gb.remaining_bytes() as i64);
            let rest = gb.remaining_slice();
            out.record.extend(rest.iter().map(|&byte| i64::from(byte)));
            return;
        }
        Kind::Callers => {
            let mut text = String::new();
            gb.call(a[0] as usize, a[1] as usize, &mut text);
            text.numbers(&mut out.record);
        }
        Kind::Rows => {
            for call in a.chunks_exact(4) {
                let kind = Kind::ALL[call[0] as usize];
                let value = reading(kind, gb, &call[1..]);
                let place = gb.place();
                out.record.extend([
                    value,
                    place.0 as i64,
                    i64::from(place.1),
                    i64::from(place.2),
                ]);
            }
        }
        Kind::TileRectangles => unreachable!("the Rust has no rectangles"),
        Kind::WriteTileInfo => unreachable!("the Rust writes no layout"),
        kind => out.answer = reading(kind, gb, a),
    }
    let (byte, used, error) = gb.place();
    out.place = Place { byte, used, error };
}

fn reading(kind: Kind, gb: &mut Reader, a: &[i64]) -> i64 {
    match kind {
        Kind::GetBit => gb.get_bit().into(),
        Kind::GetBits => gb.get_bits(a[0] as i32).into(),
        Kind::GetSbits => gb.get_sbits(a[0] as i32).into(),
        Kind::GetVlc => gb.get_vlc().into(),
        Kind::GetUniform => gb.get_uniform(a[0] as u32).into(),
        Kind::GetRefUniform => gb.get_ref_uniform(a[0] as u32, a[1] as u32).into(),
        Kind::GetUleb128 => gb.get_uleb128().into(),
        Kind::GetGolomb => gb.get_golomb(a[0] as u32).into(),
        Kind::GetBitsSubexpU => gb
            .get_bits_subexp_u(a[0] as u32, a[1] as u32, a[2] as i32)
            .into(),
        Kind::GetBitsSubexp => gb.get_bits_subexp(a[0] as i32, a[1] as u32).into(),
        Kind::Bytealign => {
            gb.bytealign();
            0
        }
        kind => unreachable!("{} is no reading", kind.name()),
    }
}

fn number(answer: Result<(), TealdustError>) -> i64 {
    match answer {
        Ok(()) => 0,
        Err(TealdustError::InvalidSequenceHeader) => 1,
        Err(TealdustError::InvalidTileInfo) => 2,
        Err(TealdustError::InvalidTrailingBits) => 3,
        Err(TealdustError::InvalidFilmGrainData) => 7,
        Err(other) => unreachable!("{other:?} is no refusal of these functions"),
    }
}

/// Document 01: a refusal hands back the record given. The Rust leaves it half changed.
fn whole_if_refused(out: &mut Outcome, given: &[i64]) {
    if out.answer != 0 && out.record != given {
        out.rule = Some(Rule::WholeRecord);
        out.record.clear();
        out.record.extend(given);
    }
}

fn parse_tile_info(case: &Case, gb: &mut Reader, out: &mut Outcome) {
    let a = &case.args;
    let mut t = from::tile_info(a);
    let b = &a[TILE..];
    out.answer = number(gb.parse_tile_info(
        &mut t,
        b[0] as i32,
        b[1] as u8,
        b[2] as u8,
        b[3] as i32,
        b[4] as i32,
        b[5] as u8,
        b[6] as u8,
    ));
    t.numbers(&mut out.record);
    whole_if_refused(out, case.given());
}

fn parse_tile_info_frmhdr(case: &Case, gb: &mut Reader, out: &mut Outcome) {
    let a = &case.args;
    let mut hdr = from::frame(a);
    let seqhdr = from::sequence(&a[4 + TILE..]);
    out.answer = number(gb.parse_tile_info_frmhdr(&mut hdr, &seqhdr));
    hdr.sb128.numbers(&mut out.record);
    hdr.tiling.t.numbers(&mut out.record);
    whole_if_refused(out, case.given());
}

/// The frame of a case over a sequence header that the Rust reads itself, not strict: the header, and the frame's outcome; or the
/// number of the header's refusal. The case has of its arguments only the frame's.
pub fn frame_over(header: &[u8], case: &Case, out: &mut Outcome) -> Result<SequenceHeader, i64> {
    let seqhdr = Reader::new(header)
        .parse_seq_hdr(false)
        .map_err(|refusal| number(Err(refusal)))?;
    out.clear();
    let gb = &mut Reader::new(&case.data);
    let mut hdr = from::frame(&case.args);
    out.answer = number(gb.parse_tile_info_frmhdr(&mut hdr, &seqhdr));
    hdr.sb128.numbers(&mut out.record);
    hdr.tiling.t.numbers(&mut out.record);
    let (byte, used, error) = gb.place();
    out.place = Place { byte, used, error };
    Ok(seqhdr)
}

/// The layout that bytes read as over the zero record, and how many bits were used, if it is accepted without the reader's
/// error. It is read with multiplier, codes, width, height, level and tier.
pub fn fresh_layout(b: &[i64], data: &[u8]) -> Option<(Vec<i64>, usize)> {
    let mut t = TileInfo::default();
    let mut gb = Reader::new(data);
    let answer = gb.parse_tile_info(
        &mut t,
        b[0] as i32,
        b[1] as u8,
        b[2] as u8,
        b[3] as i32,
        b[4] as i32,
        b[5] as u8,
        b[6] as u8,
    );
    let (byte, used, error) = gb.place();
    (answer.is_ok() && !error).then(|| {
        let mut row = Vec::with_capacity(TILE);
        t.numbers(&mut row);
        (row, 8 * byte + used as usize)
    })
}
