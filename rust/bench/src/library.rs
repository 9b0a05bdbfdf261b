//! Both libraries behind one face, so that one loop runs both.

use compare::records::{TILE, from};
use mubanlig as ours;
use oracle::headers as theirs;

/// What a layout is read for.
#[derive(Debug, Clone, Copy)]
pub struct LayoutArgs {
    pub sbmul: i32,
    pub sb128: u8,
    pub seq_sb128: u8,
    pub w: i32,
    pub h: i32,
    pub level: u8,
    pub tier: u8,
}

/// The limit of the rows that have one: the panel's.
const LIMIT: ours::TileLimit = ours::TileLimit::PANEL;

pub trait Library {
    type Reader<'a>;
    type Tile: Default;
    type Header;
    type Frame;
    type Grain;

    fn reader(data: &[u8]) -> Self::Reader<'_>;
    fn get_bit(gb: &mut Self::Reader<'_>) -> u32;
    fn get_bits(gb: &mut Self::Reader<'_>, n: i32) -> u32;
    fn get_uniform(gb: &mut Self::Reader<'_>, max: u32) -> u32;
    fn parse_tile_info(t: &mut Self::Tile, gb: &mut Self::Reader<'_>, a: &LayoutArgs) -> bool;
    fn parse_seq_hdr(gb: &mut Self::Reader<'_>) -> Option<Self::Header>;
    fn parse_tile_info_frmhdr(
        hdr: &mut Self::Frame,
        seqhdr: &Self::Header,
        gb: &mut Self::Reader<'_>,
    ) -> bool;
    fn parse_tile_info_within(
        t: &mut Self::Tile,
        gb: &mut Self::Reader<'_>,
        a: &LayoutArgs,
    ) -> bool;
    fn parse_tile_info_frmhdr_within(
        hdr: &mut Self::Frame,
        seqhdr: &Self::Header,
        gb: &mut Self::Reader<'_>,
    ) -> bool;
    fn parse_film_grain_data(gb: &mut Self::Reader<'_>, layout: i64) -> Option<Self::Grain>;

    /// A frame and a sequence header from the arguments of a case.
    fn frame(args: &[i64]) -> (Self::Frame, Self::Header);

    /// A number of what was read, by which the two are held against each other.
    fn tile_mark(t: &Self::Tile) -> u64;
    fn header_mark(hdr: &Self::Header) -> u64;
    fn frame_mark(hdr: &Self::Frame) -> u64;
    fn grain_mark(fgd: &Self::Grain) -> u64;
}

/// The proved library, through the safe crate.
pub struct Ours;
/// The Rust.
pub struct Theirs;

/// What is the same text for both: the records have the same fields.
macro_rules! same_for_both {
    ($library:ident) => {
        type Tile = $library::TileInfo;
        type Header = $library::SequenceHeader;
        type Frame = $library::FrameHeader;
        type Grain = $library::FilmGrainData;

        #[inline(always)]
        fn get_bit(gb: &mut Self::Reader<'_>) -> u32 {
            gb.get_bit()
        }

        #[inline(always)]
        fn get_bits(gb: &mut Self::Reader<'_>, n: i32) -> u32 {
            gb.get_bits(n)
        }

        #[inline(always)]
        fn get_uniform(gb: &mut Self::Reader<'_>, max: u32) -> u32 {
            gb.get_uniform(max)
        }

        fn frame(args: &[i64]) -> (Self::Frame, Self::Header) {
            (
                from::$library::frame(args),
                from::$library::sequence(&args[4 + TILE..]),
            )
        }

        fn tile_mark(t: &Self::Tile) -> u64 {
            u64::from(t.cols) + 100 * u64::from(t.rows) + 10_000 * u64::from(t.col_start_sb[1])
        }

        fn header_mark(hdr: &Self::Header) -> u64 {
            hdr.max_width as u64 + u64::from(hdr.df_par_bits) + Self::tile_mark(&hdr.tiling.t)
        }

        fn frame_mark(hdr: &Self::Frame) -> u64 {
            u64::from(hdr.sb128) + Self::tile_mark(&hdr.tiling.t)
        }

        fn grain_mark(fgd: &Self::Grain) -> u64 {
            let points = fgd.points.iter().map(|plane| i64::from(plane[0][0]));
            let coeffs = fgd.ar_coeffs.iter().map(|plane| i64::from(plane[0]));
            (i64::from(fgd.block_size) + points.chain(coeffs).sum::<i64>()) as u64
        }
    };
}

impl Library for Ours {
    type Reader<'a> = ours::GetBits<'a>;
    same_for_both!(ours);

    #[inline(always)]
    fn reader(data: &[u8]) -> Self::Reader<'_> {
        ours::GetBits::new(data)
    }

    #[inline(always)]
    fn parse_tile_info(t: &mut Self::Tile, gb: &mut Self::Reader<'_>, a: &LayoutArgs) -> bool {
        ours::parse_tile_info(
            t,
            gb,
            a.sbmul,
            a.sb128,
            a.seq_sb128,
            a.w,
            a.h,
            a.level,
            a.tier,
        )
        .is_ok()
    }

    #[inline(always)]
    fn parse_seq_hdr(gb: &mut Self::Reader<'_>) -> Option<Self::Header> {
        ours::parse_seq_hdr(gb, false).ok()
    }

    #[inline(always)]
    fn parse_tile_info_frmhdr(
        hdr: &mut Self::Frame,
        seqhdr: &Self::Header,
        gb: &mut Self::Reader<'_>,
    ) -> bool {
        ours::parse_tile_info_frmhdr(hdr, seqhdr, gb).is_ok()
    }

    #[inline(always)]
    fn parse_tile_info_within(
        t: &mut Self::Tile,
        gb: &mut Self::Reader<'_>,
        a: &LayoutArgs,
    ) -> bool {
        ours::parse_tile_info_within(
            t,
            gb,
            a.sbmul,
            a.sb128,
            a.seq_sb128,
            a.w,
            a.h,
            a.level,
            a.tier,
            LIMIT,
        )
        .is_ok()
    }

    #[inline(always)]
    fn parse_tile_info_frmhdr_within(
        hdr: &mut Self::Frame,
        seqhdr: &Self::Header,
        gb: &mut Self::Reader<'_>,
    ) -> bool {
        ours::parse_tile_info_frmhdr_within(hdr, seqhdr, gb, LIMIT).is_ok()
    }

    #[inline(always)]
    fn parse_film_grain_data(gb: &mut Self::Reader<'_>, layout: i64) -> Option<Self::Grain> {
        ours::parse_film_grain_data(gb, from::ours::pixel_layout(layout)).ok()
    }
}

/// The numbers of a layout that is written over, kept beside it without an allocation.
struct Kept {
    uniform: bool,
    numbers: [u8; 8],
    starts: [[u16; 65]; 2],
}

impl Kept {
    #[inline(always)]
    fn of(t: &theirs::TileInfo) -> Self {
        Self {
            uniform: t.uniform,
            numbers: [
                t.min_log2_cols,
                t.max_log2_cols,
                t.log2_cols,
                t.cols,
                t.min_log2_rows,
                t.max_log2_rows,
                t.log2_rows,
                t.rows,
            ],
            starts: [*t.col_start_sb, *t.row_start_sb],
        }
    }

    #[inline(always)]
    fn put_back(&self, t: &mut theirs::TileInfo) {
        t.uniform = self.uniform;
        [
            t.min_log2_cols,
            t.max_log2_cols,
            t.log2_cols,
            t.cols,
            t.min_log2_rows,
            t.max_log2_rows,
            t.log2_rows,
            t.rows,
        ] = self.numbers;
        [*t.col_start_sb, *t.row_start_sb] = self.starts;
    }
}

/// The rule of the limit over a reading of the Rust.
#[inline(always)]
fn is_too_many(t: &theirs::TileInfo) -> bool {
    t.cols > LIMIT.cols || t.rows > LIMIT.rows
}

impl Library for Theirs {
    type Reader<'a> = oracle::Reader<'a>;
    same_for_both!(theirs);

    #[inline(always)]
    fn reader(data: &[u8]) -> Self::Reader<'_> {
        oracle::Reader::new(data)
    }

    #[inline(always)]
    fn parse_tile_info(t: &mut Self::Tile, gb: &mut Self::Reader<'_>, a: &LayoutArgs) -> bool {
        gb.parse_tile_info(t, a.sbmul, a.sb128, a.seq_sb128, a.w, a.h, a.level, a.tier)
            .is_ok()
    }

    #[inline(always)]
    fn parse_seq_hdr(gb: &mut Self::Reader<'_>) -> Option<Self::Header> {
        gb.parse_seq_hdr(false).ok()
    }

    #[inline(always)]
    fn parse_tile_info_frmhdr(
        hdr: &mut Self::Frame,
        seqhdr: &Self::Header,
        gb: &mut Self::Reader<'_>,
    ) -> bool {
        gb.parse_tile_info_frmhdr(hdr, seqhdr).is_ok()
    }

    #[inline(always)]
    fn parse_tile_info_within(
        t: &mut Self::Tile,
        gb: &mut Self::Reader<'_>,
        a: &LayoutArgs,
    ) -> bool {
        let given = Kept::of(t);
        let accepted = Self::parse_tile_info(t, gb, a);
        if accepted && is_too_many(t) {
            given.put_back(t);
            return false;
        }
        accepted
    }

    #[inline(always)]
    fn parse_tile_info_frmhdr_within(
        hdr: &mut Self::Frame,
        seqhdr: &Self::Header,
        gb: &mut Self::Reader<'_>,
    ) -> bool {
        let (sb128, given) = (hdr.sb128, Kept::of(&hdr.tiling.t));
        let accepted = Self::parse_tile_info_frmhdr(hdr, seqhdr, gb);
        if accepted && is_too_many(&hdr.tiling.t) {
            hdr.sb128 = sb128;
            given.put_back(&mut hdr.tiling.t);
            return false;
        }
        accepted
    }

    #[inline(always)]
    fn parse_film_grain_data(gb: &mut Self::Reader<'_>, layout: i64) -> Option<Self::Grain> {
        gb.parse_film_grain_data(from::theirs::pixel_layout(layout))
            .ok()
    }
}
