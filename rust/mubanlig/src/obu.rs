//! The functions that read a record.

use crate::error::{Error, answer};
use crate::ffi;
use crate::getbits::GetBits;
use crate::headers::{
    FilmGrainData, FrameHeader, FrameType, PixelLayout, SegmentationDataSet, SequenceHeader,
    TileInfo, TileLimit,
};

/// Reads the features of 8 segments, or of 16 with the extension. The masks are added to those of `seg`, by OR.
///
/// ```
/// use mubanlig::{GetBits, SegmentationDataSet, parse_seg_info};
///
/// let mut seg = SegmentationDataSet::default();
/// // Segment 0: a delta of -1, skipped; all other flags 0.
/// let mut gb = GetBits::new(&[0xFF, 0xF0, 0x00, 0x00, 0x00]);
/// parse_seg_info(&mut seg, &mut gb, false);
/// assert_eq!((seg.delta_q[0], seg.delta_q_mask, seg.skip_mask, seg.globalmv_mask), (-1, 1, 1, 0));
/// ```
pub fn parse_seg_info(seg: &mut SegmentationDataSet, gb: &mut GetBits, ext: bool) {
    let mut masks = [seg.delta_q_mask, seg.skip_mask, seg.globalmv_mask];
    let (data, position, error) = gb.parts();
    // Both buffers have their full length, so the answer is always 0.
    ffi::parse_seg_info(data, position, error, &mut seg.delta_q, &mut masks, ext);
    [seg.delta_q_mask, seg.skip_mask, seg.globalmv_mask] = masks;
}

/// Reads a tile layout into `thdr`. In an accepted one zeros stand behind the closing starts, whatever stood there before. A
/// refusal leaves `thdr` as it was.
///
/// `sbmul` is 2 for the frame's code 1 with the sequence's code 2, else 1 and both codes are equal. Width and height are
/// 1 to 65,536, the level at most 31, the tier at most 1.
///
/// The reader's error isn't looked at: short data may be accepted with the error set.
///
/// # Errors
///
/// [`WrongArguments`](Error::WrongArguments) for other arguments, and no bit is used;
/// [`InvalidTileInfo`](Error::InvalidTileInfo) if 64 columns, or then 64 rows, leave superblocks over.
///
/// ```
/// use mubanlig::{GetBits, TileInfo, parse_tile_info};
///
/// // A uniform layout of 330 by 64 samples: six superblocks, the last of which isn't counted first.
/// let mut gb = GetBits::new(&[0xE0]);
/// let mut layout = TileInfo::default();
/// parse_tile_info(&mut layout, &mut gb, 1, 0, 0, 330, 64, 0, 0)?;
/// assert!(layout.uniform);
/// assert_eq!(layout.col_starts(), [0, 2, 3, 4, 6]);
///
/// // One of 256 by 128 that tells each size, over the longer one: no start of that is left.
/// let mut gb = GetBits::new(&[0x28]);
/// parse_tile_info(&mut layout, &mut gb, 1, 0, 0, 256, 128, 0, 0)?;
/// assert_eq!((layout.cols, layout.rows), (3, 1));
/// assert_eq!(layout.col_starts(), [0, 2, 3, 4]);
/// assert_eq!(layout.col_start_sb[4..], [0; 61]);
///
/// // 65 superblocks without data: 64 columns of one don't suffice.
/// let refusal = parse_tile_info(&mut layout, &mut GetBits::new(&[]), 1, 0, 0, 4160, 64, 0, 0);
/// assert_eq!(refusal.unwrap_err().number(), 2);
/// assert_eq!(layout.cols, 3);
/// # Ok::<(), mubanlig::Error>(())
/// ```
///
/// Over a record full of old numbers:
///
/// ```
/// use mubanlig::{GetBits, TileInfo, parse_tile_info};
///
/// let mut layout = TileInfo::default();
/// layout.min_log2_rows = 5;
/// layout.col_start_sb.fill(1000);
/// layout.row_start_sb.fill(1000);
/// let old = layout.clone();
///
/// // Refused, the record comes back whole.
/// assert!(parse_tile_info(&mut layout, &mut GetBits::new(&[]), 1, 0, 0, 4160, 64, 0, 0).is_err());
/// assert_eq!(layout, old);
///
/// // Accepted, no old start is left. `min_log2_rows` is no start: a layout that is not uniform leaves it.
/// parse_tile_info(&mut layout, &mut GetBits::new(&[0x28]), 1, 0, 0, 256, 128, 0, 0)?;
/// assert_eq!(layout.col_start_sb[..4], [0, 2, 3, 4]);
/// assert_eq!(layout.col_start_sb[4..], [0; 61]);
/// assert_eq!(layout.row_start_sb[..2], [0, 2]);
/// assert_eq!(layout.row_start_sb[2..], [0; 63]);
/// assert_eq!(layout.min_log2_rows, 5);
/// # Ok::<(), mubanlig::Error>(())
/// ```
#[allow(clippy::too_many_arguments)]
pub fn parse_tile_info(
    thdr: &mut TileInfo,
    gb: &mut GetBits,
    sbmul: i32,
    sb128: u8,
    seq_sb128: u8,
    w: i32,
    h: i32,
    level: u8,
    tier: u8,
) -> Result<(), Error> {
    read_layout(thdr, gb, sbmul, sb128, seq_sb128, w, h, level, tier, None)
}

/// As [`parse_tile_info`], for a viewer that can show only so many columns and rows. A layout that is read and has more is
/// refused: `thdr` is left as it was, and the reader stands behind the layout.
///
/// # Errors
///
/// As those of [`parse_tile_info`], which come first; then [`TooManyTiles`](Error::TooManyTiles) if the layout has more
/// columns or more rows than the limit.
///
/// ```
/// use mubanlig::{Error, GetBits, TileInfo, TileLimit, parse_tile_info_within};
///
/// // 4096 samples without data: 64 columns, which a wall shows.
/// let mut wall = GetBits::new(&[]);
/// let mut layout = TileInfo::default();
/// parse_tile_info_within(&mut layout, &mut wall, 1, 0, 0, 4096, 64, 0, 0, TileLimit::WALL)?;
/// assert_eq!(layout.cols, 64);
///
/// // A panel doesn't. The record is left as it was, and the reader is where the wall's reading leaves it.
/// let mut panel = GetBits::new(&[]);
/// let mut layout = TileInfo { cols: 3, ..Default::default() };
/// let given = layout.clone();
/// let refusal =
///     parse_tile_info_within(&mut layout, &mut panel, 1, 0, 0, 4096, 64, 0, 0, TileLimit::PANEL);
/// assert_eq!(refusal, Err(Error::TooManyTiles));
/// assert_eq!(layout, given);
/// assert_eq!(panel.place(), wall.place());
///
/// // 16 columns and 8 rows are not too many.
/// let mut gb = GetBits::new(&[]);
/// parse_tile_info_within(&mut layout, &mut gb, 1, 0, 0, 1024, 512, 0, 0, TileLimit::PANEL)?;
/// assert_eq!((layout.cols, layout.rows), (16, 8));
/// # Ok::<(), mubanlig::Error>(())
/// ```
#[allow(clippy::too_many_arguments)]
pub fn parse_tile_info_within(
    thdr: &mut TileInfo,
    gb: &mut GetBits,
    sbmul: i32,
    sb128: u8,
    seq_sb128: u8,
    w: i32,
    h: i32,
    level: u8,
    tier: u8,
    limit: TileLimit,
) -> Result<(), Error> {
    read_layout(
        thdr,
        gb,
        sbmul,
        sb128,
        seq_sb128,
        w,
        h,
        level,
        tier,
        Some(limit),
    )
}

/// Within the limit, if there is one.
#[inline]
#[allow(clippy::too_many_arguments)]
fn read_layout(
    thdr: &mut TileInfo,
    gb: &mut GetBits,
    sbmul: i32,
    sb128: u8,
    seq_sb128: u8,
    w: i32,
    h: i32,
    level: u8,
    tier: u8,
    limit: Option<TileLimit>,
) -> Result<(), Error> {
    let (data, position, error) = gb.parts();
    answer(ffi::parse_tile_info(
        data, position, error, thdr, sbmul, sb128, seq_sb128, w, h, level, tier, limit,
    ))
}

/// Reads a sequence header. If `strict`, a trailing one bit has to stand behind the extension bit.
///
/// # Errors
///
/// [`InvalidSequenceHeader`](Error::InvalidSequenceHeader) for a profile, layout, bit depth or number of reference frames
/// that there is not, or data that ran out; [`InvalidTileInfo`](Error::InvalidTileInfo) for a tile layout that does not
/// cover the picture; [`InvalidTrailingBits`](Error::InvalidTrailingBits) only if `strict`.
///
/// ```
/// use mubanlig::{Error, GetBits, parse_seq_hdr};
///
/// let mut data = [0x82, 0x05, 0x00, 0x00, 0x00, 0x80, 0x10, 0x02];
/// assert!(parse_seq_hdr(&mut GetBits::new(&data), true).is_ok());
///
/// // Without the trailing bit a strict header is refused, any other accepted.
/// data[7] = 0x00;
/// let refusal = parse_seq_hdr(&mut GetBits::new(&data), true);
/// assert_eq!(refusal, Err(Error::InvalidTrailingBits));
/// assert!(parse_seq_hdr(&mut GetBits::new(&data), false).is_ok());
///
/// // Without its last byte both are.
/// let refusal = parse_seq_hdr(&mut GetBits::new(&data[..7]), false);
/// assert_eq!(refusal, Err(Error::InvalidSequenceHeader));
/// ```
pub fn parse_seq_hdr(gb: &mut GetBits, strict: bool) -> Result<SequenceHeader, Error> {
    let (data, position, error) = gb.parts();
    ffi::parse_seq_hdr(data, position, error, strict)
}

/// Sets a frame's superblock code and its layout, which is the sequence's or is read. Either way zeros stand behind the
/// closing starts, also where the sequence's record has other numbers there. A refusal leaves `hdr` as it was.
///
/// The reader's error isn't looked at: short data may be accepted with the error set.
///
/// # Errors
///
/// [`WrongArguments`](Error::WrongArguments) if the frame's size is outside the domain or the sequence header can't be
/// used for a frame, and no bit is used; [`InvalidTileInfo`](Error::InvalidTileInfo) if 64 columns, or then 64 rows,
/// leave superblocks over.
///
/// ```
/// use mubanlig::{
///     AdaptiveBoolean, FrameHeader, FrameType, GetBits, SequenceHeader, parse_tile_info,
///     parse_tile_info_frmhdr,
/// };
///
/// let mut seqhdr = SequenceHeader { max_width: 256, max_height: 64, ..Default::default() };
/// seqhdr.tiling.present = AdaptiveBoolean::On;
/// let t = &mut seqhdr.tiling.t;
/// parse_tile_info(t, &mut GetBits::new(&[0xC0]), 1, 0, 0, 256, 64, 0, 0)?;
/// assert_eq!(t.col_starts(), [0, 2, 4]);
///
/// let mut hdr = FrameHeader {
///     frame_type: FrameType::Inter,
///     width: 192,
///     height: 64,
///     ..Default::default()
/// };
/// parse_tile_info_frmhdr(&mut hdr, &seqhdr, &mut GetBits::new(&[]))?;
/// // Reused whole, though the frame has three superblocks.
/// assert_eq!(hdr.tiling.t.col_starts(), [0, 2, 4]);
///
/// // A number that someone left behind the sequence's closing start is not handed on.
/// seqhdr.tiling.t.col_start_sb[3] = 9;
/// parse_tile_info_frmhdr(&mut hdr, &seqhdr, &mut GetBits::new(&[]))?;
/// assert_eq!(hdr.tiling.t.col_start_sb[..5], [0, 2, 4, 0, 0]);
/// # Ok::<(), mubanlig::Error>(())
/// ```
pub fn parse_tile_info_frmhdr(
    hdr: &mut FrameHeader,
    seqhdr: &SequenceHeader,
    gb: &mut GetBits,
) -> Result<(), Error> {
    read_frame(hdr, seqhdr, gb, None)
}

/// As [`parse_tile_info_frmhdr`], for a viewer that can show only so many columns and rows: a layout with more is refused,
/// whether it was read or is the sequence's. Then `hdr` is left as it was, and the reader is where
/// [`parse_tile_info_frmhdr`] leaves it.
///
/// # Errors
///
/// As those of [`parse_tile_info_frmhdr`], which come first; then [`TooManyTiles`](Error::TooManyTiles) if the layout has
/// more columns or more rows than the limit.
///
/// ```
/// use mubanlig::{
///     AdaptiveBoolean, Error, FrameHeader, FrameType, GetBits, SequenceHeader, TileLimit,
///     parse_tile_info, parse_tile_info_frmhdr_within,
/// };
///
/// // A sequence of 17 columns, which its frames reuse.
/// let mut seqhdr = SequenceHeader { max_width: 1088, max_height: 64, ..Default::default() };
/// seqhdr.tiling.present = AdaptiveBoolean::On;
/// let t = &mut seqhdr.tiling.t;
/// parse_tile_info(t, &mut GetBits::new(&[]), 1, 0, 0, 1088, 64, 0, 0)?;
/// assert_eq!(t.cols, 17);
///
/// let mut hdr = FrameHeader {
///     frame_type: FrameType::Inter,
///     width: 1088,
///     height: 64,
///     ..Default::default()
/// };
/// let given = hdr.clone();
/// let gb = &mut GetBits::new(&[]);
/// let refusal = parse_tile_info_frmhdr_within(&mut hdr, &seqhdr, gb, TileLimit::PANEL);
/// assert_eq!(refusal, Err(Error::TooManyTiles));
/// assert_eq!(hdr, given);
///
/// parse_tile_info_frmhdr_within(&mut hdr, &seqhdr, gb, TileLimit { cols: 17, rows: 1 })?;
/// assert_eq!(hdr.tiling.t, seqhdr.tiling.t);
/// # Ok::<(), mubanlig::Error>(())
/// ```
pub fn parse_tile_info_frmhdr_within(
    hdr: &mut FrameHeader,
    seqhdr: &SequenceHeader,
    gb: &mut GetBits,
    limit: TileLimit,
) -> Result<(), Error> {
    read_frame(hdr, seqhdr, gb, Some(limit))
}

/// Within the limit, if there is one.
#[inline]
fn read_frame(
    hdr: &mut FrameHeader,
    seqhdr: &SequenceHeader,
    gb: &mut GetBits,
    limit: Option<TileLimit>,
) -> Result<(), Error> {
    read_frame_parts(
        hdr.frame_type,
        hdr.width,
        hdr.height,
        &mut hdr.sb128,
        &mut hdr.tiling.t,
        seqhdr,
        gb,
        limit,
    )
}

/// As [`parse_tile_info_frmhdr`], for a viewer that keeps a frame header of its own: over the parts that a layout needs.
/// A refusal leaves `sb128` and `tiling` as they were.
///
/// # Errors
///
/// As those of [`parse_tile_info_frmhdr`].
///
/// ```
/// use mubanlig::{FrameType, GetBits, SequenceHeader, TileInfo, parse_tile_info_frmhdr_parts};
///
/// let seqhdr = SequenceHeader { max_width: 256, max_height: 128, ..Default::default() };
/// let mut sb128 = 0;
/// let mut tiling = TileInfo::default();
/// let mut gb = GetBits::new(&[0x28]);
/// parse_tile_info_frmhdr_parts(
///     FrameType::Key, 256, 128, &mut sb128, &mut tiling, &seqhdr, &mut gb,
/// )?;
/// assert_eq!(tiling.col_starts(), [0, 2, 3, 4]);
/// # Ok::<(), mubanlig::Error>(())
/// ```
pub fn parse_tile_info_frmhdr_parts(
    frame_type: FrameType,
    width: i32,
    height: i32,
    sb128: &mut u8,
    tiling: &mut TileInfo,
    seqhdr: &SequenceHeader,
    gb: &mut GetBits,
) -> Result<(), Error> {
    read_frame_parts(frame_type, width, height, sb128, tiling, seqhdr, gb, None)
}

/// Within the limit, if there is one.
#[inline]
#[allow(clippy::too_many_arguments)]
fn read_frame_parts(
    frame_type: FrameType,
    width: i32,
    height: i32,
    sb128: &mut u8,
    tiling: &mut TileInfo,
    seqhdr: &SequenceHeader,
    gb: &mut GetBits,
    limit: Option<TileLimit>,
) -> Result<(), Error> {
    let (data, position, error) = gb.parts();
    answer(ffi::parse_tile_info_frmhdr(
        data, position, error, frame_type, width, height, sb128, tiling, seqhdr, limit,
    ))
}

/// Reads film grain parameters; `layout` is that of the sequence.
///
/// Unlike a layout's reading this one asks the reader's error, at its end: short data is refused, and so is all that is read
/// by a reader whose error was set before.
///
/// # Errors
///
/// [`InvalidFilmGrainData`](Error::InvalidFilmGrainData) for a list of more than 14 points or a position past 255, right
/// behind the bits that tell it; in I420 for one chroma list that is empty and another that is not, behind both; and at the
/// end for the reader's error.
///
/// ```
/// use mubanlig::{Error, GetBits, PixelLayout, parse_film_grain_data};
///
/// let data = [0x17, 0x84, 0x10, 0x20, 0x60, 0x00, 0xD1, 0xF1, 0x87, 0xDB, 0x40];
/// let fgd = parse_film_grain_data(&mut GetBits::new(&data), PixelLayout::I420)?;
/// assert_eq!(fgd.num_points, [2, 0, 0]);
/// assert_eq!(fgd.points[0][..2], [[16, 32], [80, 96]]);
/// assert_eq!((fgd.scaling_shift, fgd.ar_coeff_lag), (11, 1));
/// assert_eq!(fgd.ar_coeffs[0][..4], [-1, 1, 0, 15]);
///
/// // Without its last byte it is refused.
/// let mut gb = GetBits::new(&data[..10]);
/// let refusal = parse_film_grain_data(&mut gb, PixelLayout::I420);
/// assert_eq!(refusal, Err(Error::InvalidFilmGrainData));
/// assert!(gb.has_error());
///
/// // 15 points are refused behind the four bits, and are no error of the reader.
/// let mut gb = GetBits::new(&[0xF0]);
/// assert!(parse_film_grain_data(&mut gb, PixelLayout::I400).is_err());
/// assert_eq!((gb.place().used, gb.has_error()), (4, false));
/// # Ok::<(), mubanlig::Error>(())
/// ```
pub fn parse_film_grain_data(
    gb: &mut GetBits,
    layout: PixelLayout,
) -> Result<FilmGrainData, Error> {
    let (data, position, error) = gb.parts();
    ffi::parse_film_grain_data(data, position, error, layout)
}
