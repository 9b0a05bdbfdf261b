//! A layout as bits.

use crate::error::Error;
use crate::ffi;
use crate::headers::TileInfo;

/// So many bytes are enough for every layout that [`write_tile_info`] writes.
pub const LAYOUT_BYTES: usize = 177;

/// Writes a layout into a buffer, as the bits that [`parse_tile_info`](crate::parse_tile_info) reads for the same arguments,
/// and answers how many bits they are. They stand most significant first and are padded with zero bits to a byte; bytes
/// behind the last one stay. [`LAYOUT_BYTES`] are enough for every layout.
///
/// Read over `TileInfo::default()`, the bits give just this layout, use just so many bits and set no error. Bits that were read
/// so are written again as they were.
///
/// The whole record counts: its nine numbers and all 65 starts of the columns and of the rows, so zeros have to stand behind the
/// closing ones, as in every layout that was read. Two rows of bits can give the same tiles, so the layout's logarithms and its
/// flag decide what is written.
///
/// A refusal leaves the buffer as it was.
///
/// # Errors
///
/// In this order: [`WrongArguments`](Error::WrongArguments) for arguments that [`parse_tile_info`](crate::parse_tile_info)
/// doesn't take; [`NoSuchLayout`](Error::NoSuchLayout) if no bits read as this layout without error;
/// [`ShortBuffer`](Error::ShortBuffer) where the buffer has fewer bytes than the bits need.
///
/// ```
/// use mubanlig::{Error, GetBits, TileInfo, parse_tile_info, write_tile_info};
///
/// // 600 by 128 samples, the codes 1 and 2: 1110 is read, and written again.
/// let mut layout = TileInfo::default();
/// parse_tile_info(&mut layout, &mut GetBits::new(&[0xE0]), 2, 1, 2, 600, 128, 0, 0)?;
/// assert_eq!(layout.col_starts(), [0, 2, 4, 5]);
/// let mut out = [0xFF; 3];
/// let bits = write_tile_info(&layout, 2, 1, 2, 600, 128, 0, 0, &mut out)?;
/// assert_eq!((bits, out), (4, [0xE0, 0xFF, 0xFF]));
///
/// // 1111 and 00110 give the same tiles, by another logarithm and by their sizes.
/// for (byte, bits) in [(0xF0, 4), (0x30, 5)] {
///     let mut other = TileInfo::default();
///     parse_tile_info(&mut other, &mut GetBits::new(&[byte]), 2, 1, 2, 600, 128, 0, 0)?;
///     assert_eq!(other.col_starts(), layout.col_starts());
///     assert_eq!(write_tile_info(&other, 2, 1, 2, 600, 128, 0, 0, &mut out), Ok(bits));
///     assert_eq!(out[0], byte);
/// }
///
/// // For too short a buffer, and of no bits: another start, or a number behind the closing one.
/// assert_eq!(write_tile_info(&layout, 2, 1, 2, 600, 128, 0, 0, &mut []), Err(Error::ShortBuffer));
/// for at in [1, 4] {
///     let mut none = layout.clone();
///     none.col_start_sb[at] = 1;
///     let refusal = write_tile_info(&none, 2, 1, 2, 600, 128, 0, 0, &mut []);
///     assert_eq!(refusal, Err(Error::NoSuchLayout));
/// }
/// # Ok::<(), mubanlig::Error>(())
/// ```
#[allow(clippy::too_many_arguments)]
pub fn write_tile_info(
    t: &TileInfo,
    sbmul: i32,
    sb128: u8,
    seq_sb128: u8,
    w: i32,
    h: i32,
    level: u8,
    tier: u8,
    out: &mut [u8],
) -> Result<usize, Error> {
    ffi::write_tile_info(t, sbmul, sb128, seq_sb128, w, h, level, tier, out)
        .map(|bits| bits as usize)
}
