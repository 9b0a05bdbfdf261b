//! A case run by our library.

use crate::callers;
use crate::case::{Case, Outcome, Place};
use crate::kind::Kind;
use crate::records::{Numbers, SEG, TILE, from::ours as from};
use crate::theirs::fresh_layout;
use mubanlig::{Error, GetBits, TileLimit};

pub fn run(case: &Case, out: &mut Outcome) {
    out.clear();
    let a = &case.args;
    let Place { byte, used, error } = case.place;
    let gb = &mut GetBits::at_place(&case.data, mubanlig::Place { byte, used, error });
    match case.kind {
        Kind::ParseTileInfo | Kind::ParseTileInfoWithin => parse_tile_info(case, gb, out),
        Kind::ParseSeqHdr => match mubanlig::parse_seq_hdr(gb, a[0] != 0) {
            Ok(hdr) => hdr.numbers(&mut out.record),
            Err(refusal) => out.answer = i64::from(refusal.number()),
        },
        Kind::ParseTileInfoFrmhdr | Kind::ParseTileInfoFrmhdrWithin => {
            parse_tile_info_frmhdr(case, gb, out);
        }
        Kind::ParseFilmGrainData => {
            match mubanlig::parse_film_grain_data(gb, from::pixel_layout(a[0])) {
                Ok(fgd) => fgd.numbers(&mut out.record),
                Err(refusal) => out.answer = i64::from(refusal.number()),
            }
        }
        Kind::ParseSegInfo => {
            let mut seg = from::seg_info(a);
            mubanlig::parse_seg_info(&mut seg, gb, a[SEG] != 0);
            seg.numbers(&mut out.record);
        }
        Kind::Positions => {
            let rest = gb.remaining_slice();
            out.answer = gb.byte_pos() as i64;
            out.record.push(gb.remaining_bytes() as i64);
            out.record.extend(rest.iter().map(|&byte| i64::from(byte)));
            return; // these don't move the reader
        }
        Kind::Rows => {
            for call in a.chunks_exact(4) {
                let kind = Kind::ALL[call[0] as usize];
                let value = reading(kind, gb, &call[1..]);
                let place = gb.place();
                out.record.extend([
                    value,
                    place.byte as i64,
                    i64::from(place.used),
                    i64::from(place.error),
                ]);
            }
        }
        Kind::Callers => {
            let mut text = String::new();
            callers::call(a[0] as usize, a[1] as usize, gb, &mut text);
            text.numbers(&mut out.record);
        }
        Kind::TileRectangles => return tile_rectangles(a, out),
        Kind::WriteTileInfo => return write_tile_info(a, out),
        kind => out.answer = reading(kind, gb, a),
    }
    let mubanlig::Place { byte, used, error } = gb.place();
    out.place = Place { byte, used, error };
}

fn reading(kind: Kind, gb: &mut GetBits, a: &[i64]) -> i64 {
    match kind {
        Kind::GetBit => gb.get_bit().into(),
        Kind::GetBits => gb.get_bits(a[0] as i32).into(),
        Kind::GetSbits => gb.get_sbits(a[0] as i32).into(),
        Kind::GetVlc => gb.get_vlc().into(),
        Kind::GetUniform => gb.get_uniform(a[0] as u32).into(),
        Kind::GetRefUniform => gb.get_ref_uniform(a[0] as u32, a[1] as u32).into(),
        Kind::GetUleb128 => gb.get_uleb128().into(),
        Kind::GetGolomb => gb.get_golomb(a[0] as u32).into(),
        Kind::GetBitsSubexpU => gb
            .get_bits_subexp_u(a[0] as u32, a[1] as u32, a[2] as i32)
            .into(),
        Kind::GetBitsSubexp => gb.get_bits_subexp(a[0] as i32, a[1] as u32).into(),
        Kind::Bytealign => {
            gb.bytealign();
            0
        }
        kind => unreachable!("{} is no reading", kind.name()),
    }
}

fn number(answer: Result<(), Error>) -> i64 {
    answer.map_or_else(|refusal| i64::from(refusal.number()), |()| 0)
}

fn limit(case: &Case) -> Option<TileLimit> {
    case.limit().map(|limit| TileLimit {
        cols: limit.cols as u8,
        rows: limit.rows as u8,
    })
}

fn parse_tile_info(case: &Case, gb: &mut GetBits, out: &mut Outcome) {
    let mut t = from::tile_info(&case.args);
    let b = &case.args[TILE..];
    let [sbmul, w, h] = [b[0], b[3], b[4]].map(|n| n as i32);
    let [sb128, seq_sb128, level, tier] = [b[1], b[2], b[5], b[6]].map(|n| n as u8);
    out.answer = number(match limit(case) {
        None => mubanlig::parse_tile_info(&mut t, gb, sbmul, sb128, seq_sb128, w, h, level, tier),
        Some(limit) => mubanlig::parse_tile_info_within(
            &mut t, gb, sbmul, sb128, seq_sb128, w, h, level, tier, limit,
        ),
    });
    t.numbers(&mut out.record);
}

fn parse_tile_info_frmhdr(case: &Case, gb: &mut GetBits, out: &mut Outcome) {
    let mut hdr = from::frame(&case.args);
    let seqhdr = from::sequence(&case.args[4 + TILE..]);
    out.answer = number(match limit(case) {
        None => mubanlig::parse_tile_info_frmhdr(&mut hdr, &seqhdr, gb),
        Some(limit) => mubanlig::parse_tile_info_frmhdr_within(&mut hdr, &seqhdr, gb, limit),
    });
    hdr.sb128.numbers(&mut out.record);
    hdr.tiling.t.numbers(&mut out.record);
}

fn tile_rectangles(a: &[i64], out: &mut Outcome) {
    let t = from::tile_info(a);
    let [code, w, h, len, first] = [0, 1, 2, 3, 4].map(|i| a[TILE + i]);
    let mut buffer: Vec<u32> = (0..len).map(|i| (first + i) as u32).collect();
    out.answer = number(mubanlig::tile_rectangles(
        &t,
        code as u8,
        w as i32,
        h as i32,
        &mut buffer,
    ));
    out.record.extend(buffer.iter().map(|&n| i64::from(n)));
}

/// What is written is read back by the Rust.
fn write_tile_info(a: &[i64], out: &mut Outcome) {
    let t = from::tile_info(a);
    let b = &a[TILE..];
    let [sbmul, w, h] = [b[0], b[3], b[4]].map(|n| n as i32);
    let [sb128, seq_sb128, level, tier] = [b[1], b[2], b[5], b[6]].map(|n| n as u8);
    let mut buffer: Vec<u8> = (0..b[7]).map(|i| (b[8] + i) as u8).collect();
    let written =
        mubanlig::write_tile_info(&t, sbmul, sb128, seq_sb128, w, h, level, tier, &mut buffer);
    out.record.push(written.unwrap_or(0) as i64);
    out.record
        .extend(buffer.iter().map(|&byte| i64::from(byte)));
    match written {
        Ok(_) => {
            if let Some((read, used)) = fresh_layout(b, &buffer) {
                out.record.push(used as i64);
                out.record.extend(read);
            }
        }
        Err(refusal) => out.answer = i64::from(refusal.number()),
    }
}
