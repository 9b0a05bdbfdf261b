//! The rows of the table: loops over whole calls.

use crate::inputs::{FrameInput, GrainInput, Inputs, LayoutInput};
use crate::library::{LayoutArgs, Library};
use std::hint::black_box;

#[derive(Debug, Clone, Copy, PartialEq, Eq)]
pub enum Row {
    GetBit,
    GetBits,
    GetUniform,
    TileInfoUniform,
    TileInfoNonUniform,
    TileInfoWithinUniform,
    TileInfoWithinNonUniform,
    SeqHdr,
    TileInfoFrmhdr,
    TileInfoFrmhdrWithin,
    FilmGrainData,
}

impl Row {
    pub const ALL: [Self; 11] = [
        Self::GetBit,
        Self::GetBits,
        Self::GetUniform,
        Self::TileInfoUniform,
        Self::TileInfoNonUniform,
        Self::TileInfoWithinUniform,
        Self::TileInfoWithinNonUniform,
        Self::SeqHdr,
        Self::TileInfoFrmhdr,
        Self::TileInfoFrmhdrWithin,
        Self::FilmGrainData,
    ];

    pub fn name(self) -> &'static str {
        match self {
            Self::GetBit => "get_bit",
            Self::GetBits => "get_bits, mixed widths",
            Self::GetUniform => "get_uniform",
            Self::TileInfoUniform => "parse_tile_info, uniform",
            Self::TileInfoNonUniform => "parse_tile_info, non-uniform",
            Self::TileInfoWithinUniform => "parse_tile_info_within, uniform",
            Self::TileInfoWithinNonUniform => "parse_tile_info_within, non-uniform",
            Self::SeqHdr => "parse_seq_hdr",
            Self::TileInfoFrmhdr => "parse_tile_info_frmhdr",
            Self::TileInfoFrmhdrWithin => "parse_tile_info_frmhdr_within",
            Self::FilmGrainData => "parse_film_grain_data",
        }
    }

    /// Runs at least `calls` calls of the row. The calls made, and a number of what was read.
    pub fn run<L: Library>(self, inputs: &Inputs, calls: u64) -> (u64, u64) {
        match self {
            Self::GetBit => get_bit::<L>(&inputs.bytes, calls),
            Self::GetBits => get_bits::<L>(&inputs.bytes, &inputs.widths, calls),
            Self::GetUniform => get_uniform::<L>(&inputs.bytes, &inputs.maxima, calls),
            Self::TileInfoUniform => parse_tile_info::<L>(&inputs.uniform, calls),
            Self::TileInfoNonUniform => parse_tile_info::<L>(&inputs.non_uniform, calls),
            Self::TileInfoWithinUniform => parse_tile_info_within::<L>(&inputs.uniform, calls),
            Self::TileInfoWithinNonUniform => {
                parse_tile_info_within::<L>(&inputs.non_uniform, calls)
            }
            Self::SeqHdr => parse_seq_hdr::<L>(&inputs.headers, calls),
            Self::TileInfoFrmhdr => parse_tile_info_frmhdr::<L>(&inputs.frames, calls),
            Self::TileInfoFrmhdrWithin => parse_tile_info_frmhdr_within::<L>(&inputs.frames, calls),
            Self::FilmGrainData => parse_film_grain_data::<L>(&inputs.grain, calls),
        }
    }
}

// Each row is a function of its own for each library: in a larger one its sum may be kept in memory.

#[inline(never)]
fn get_bit<L: Library>(bytes: &[u8], calls: u64) -> (u64, u64) {
    let (mut made, mut mark) = (0, 0_u64);
    while made < calls {
        let gb = &mut L::reader(black_box(bytes));
        for _ in 0..8 * bytes.len() {
            mark = mark.wrapping_add(u64::from(black_box(L::get_bit(gb))));
        }
        made += 8 * bytes.len() as u64;
    }
    (made, mark)
}

#[inline(never)]
fn get_bits<L: Library>(bytes: &[u8], widths: &[i32], calls: u64) -> (u64, u64) {
    let (mut made, mut mark) = (0, 0_u64);
    while made < calls {
        let gb = &mut L::reader(black_box(bytes));
        for &n in widths {
            mark = mark.wrapping_add(u64::from(black_box(L::get_bits(gb, n))));
        }
        made += widths.len() as u64;
    }
    (made, mark)
}

#[inline(never)]
fn get_uniform<L: Library>(bytes: &[u8], maxima: &[u32], calls: u64) -> (u64, u64) {
    let (mut made, mut mark) = (0, 0_u64);
    while made < calls {
        let gb = &mut L::reader(black_box(bytes));
        for &max in maxima {
            mark = mark.wrapping_add(u64::from(black_box(L::get_uniform(gb, max))));
        }
        made += maxima.len() as u64;
    }
    (made, mark)
}

#[inline(never)]
fn parse_tile_info<L: Library>(list: &[LayoutInput], calls: u64) -> (u64, u64) {
    layouts::<L>(list, calls, L::parse_tile_info)
}

#[inline(never)]
fn parse_tile_info_within<L: Library>(list: &[LayoutInput], calls: u64) -> (u64, u64) {
    layouts::<L>(list, calls, L::parse_tile_info_within)
}

#[inline(always)]
fn layouts<L: Library>(
    list: &[LayoutInput],
    calls: u64,
    call: impl Fn(&mut L::Tile, &mut L::Reader<'_>, &LayoutArgs) -> bool,
) -> (u64, u64) {
    let (mut made, mut mark) = (0, 0_u64);
    let mut t = L::Tile::default();
    while made < calls {
        for input in list {
            let gb = &mut L::reader(black_box(&input.data));
            call(&mut t, gb, black_box(&input.args));
            mark = mark.wrapping_add(L::tile_mark(black_box(&t)));
        }
        made += list.len() as u64;
    }
    (made, mark)
}

#[inline(never)]
fn parse_seq_hdr<L: Library>(list: &[Vec<u8>], calls: u64) -> (u64, u64) {
    let (mut made, mut mark) = (0, 0_u64);
    while made < calls {
        for data in list {
            let hdr = L::parse_seq_hdr(&mut L::reader(black_box(data)));
            if let Some(hdr) = black_box(&hdr) {
                mark = mark.wrapping_add(L::header_mark(hdr));
            }
        }
        made += list.len() as u64;
    }
    (made, mark)
}

#[inline(never)]
fn parse_tile_info_frmhdr<L: Library>(list: &[FrameInput], calls: u64) -> (u64, u64) {
    frames::<L>(list, calls, L::parse_tile_info_frmhdr)
}

#[inline(never)]
fn parse_tile_info_frmhdr_within<L: Library>(list: &[FrameInput], calls: u64) -> (u64, u64) {
    frames::<L>(list, calls, L::parse_tile_info_frmhdr_within)
}

#[inline(always)]
fn frames<L: Library>(
    list: &[FrameInput],
    calls: u64,
    call: impl Fn(&mut L::Frame, &L::Header, &mut L::Reader<'_>) -> bool,
) -> (u64, u64) {
    let (mut made, mut mark) = (0, 0_u64);
    let mut list: Vec<_> = list
        .iter()
        .map(|input| (L::frame(&input.args), &input.data))
        .collect();
    while made < calls {
        for ((hdr, seqhdr), data) in &mut list {
            let gb = &mut L::reader(black_box(data));
            call(hdr, black_box(seqhdr), gb);
            mark = mark.wrapping_add(L::frame_mark(black_box(hdr)));
        }
        made += list.len() as u64;
    }
    (made, mark)
}

#[inline(never)]
fn parse_film_grain_data<L: Library>(list: &[GrainInput], calls: u64) -> (u64, u64) {
    let (mut made, mut mark) = (0, 0_u64);
    while made < calls {
        for input in list {
            let gb = &mut L::reader(black_box(&input.data));
            let fgd = L::parse_film_grain_data(gb, black_box(input.layout));
            if let Some(fgd) = black_box(&fgd) {
                mark = mark.wrapping_add(L::grain_mark(fgd));
            }
        }
        made += list.len() as u64;
    }
    (made, mark)
}
