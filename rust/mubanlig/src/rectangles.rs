//! The tiles of a layout as rectangles.

use crate::error::{Error, answer};
use crate::ffi;
use crate::headers::TileInfo;

/// Writes left, top, width and height of each tile, in samples, into a buffer: four numbers a tile, and numbers behind the
/// last stay. The tiles come top row first, and left to right within a row: that of a column and a row, both counted from
/// 0, is number row * columns + column.
///
/// `sb128` is the superblock code that the layout's starts are counted in, `w` and `h` are the frame's width and height. A
/// tile reaches from its start to the next, and both ends are cut at the frame's edge. The tiles of a layout that was read
/// fresh for that code, width and height cover the frame: none is empty, and their areas add up to `w * h`. A layout that a
/// frame reuses from its sequence may end before the frame does, and may have tiles behind its edge: these begin at the
/// edge and are 0 wide or high.
///
/// A refusal leaves the buffer as it was.
///
/// # Errors
///
/// [`WrongArguments`](Error::WrongArguments) unless columns and rows are 1 to 64, the starts never fall and are at most
/// 1,024, the code is at most 2, and the width and the height are 1 to 65,536; [`ShortBuffer`](Error::ShortBuffer) where
/// the buffer has fewer than four numbers a tile.
///
/// ```
/// use mubanlig::{Error, GetBits, TileInfo, parse_tile_info, tile_rectangles};
///
/// // 330 by 64 samples in superblocks of 64: the last of four tiles stops at the picture's edge.
/// let mut layout = TileInfo::default();
/// parse_tile_info(&mut layout, &mut GetBits::new(&[0xE0]), 1, 0, 0, 330, 64, 0, 0)?;
/// let mut out = vec![0; 4 * layout.tiles()];
/// tile_rectangles(&layout, 0, 330, 64, &mut out)?;
/// let tiles: Vec<&[u32]> = out.chunks(4).collect();
/// assert_eq!(tiles, [[0, 0, 128, 64], [128, 0, 64, 64], [192, 0, 64, 64], [256, 0, 74, 64]]);
///
/// // The same layout in a frame 200 samples wide: the last tile is behind its edge.
/// tile_rectangles(&layout, 0, 200, 64, &mut out)?;
/// assert_eq!(out[8..], [192, 0, 8, 64, 200, 0, 0, 64]);
///
/// assert_eq!(tile_rectangles(&layout, 0, 330, 64, &mut out[..15]), Err(Error::ShortBuffer));
/// assert_eq!(tile_rectangles(&layout, 0, 65_537, 64, &mut out), Err(Error::WrongArguments));
///
/// // Three columns and two rows; the tile in the last column of the second row.
/// parse_tile_info(&mut layout, &mut GetBits::new(&[0x20]), 1, 0, 0, 256, 128, 0, 0)?;
/// let mut out = vec![0; 4 * layout.tiles()];
/// tile_rectangles(&layout, 0, 256, 128, &mut out)?;
/// let (col, row) = (2, 1);
/// let place = row * usize::from(layout.cols) + col;
/// assert_eq!(out[4 * place..4 * place + 4], [192, 64, 64, 64]);
/// # Ok::<(), mubanlig::Error>(())
/// ```
pub fn tile_rectangles(
    t: &TileInfo,
    sb128: u8,
    w: i32,
    h: i32,
    out: &mut [u32],
) -> Result<(), Error> {
    answer(ffi::tile_rectangles(t, sb128, w, h, out))
}
