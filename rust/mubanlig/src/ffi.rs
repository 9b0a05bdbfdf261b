//! The C interface of the proved library. All unsafe code of this crate is here.
//!
//! `include/mubanlig.h` says what each function does and what is owed to it: each pointer is good for its length, and
//! nothing lent for writing overlaps anything else lent. References owe the same, so each wrapper is safe. The library
//! stays inside what is lent, and writes into a layout's first byte nothing but 0 and 1.

use crate::error::{Error, answer};
use crate::flat;
use crate::headers::{
    FilmGrainData, FrameType, MAX_SEGMENTS, MAX_TILE_COLS, MAX_TILE_ROWS, PixelLayout,
    SequenceHeader, TileInfo, TileLimit,
};
use std::mem::{MaybeUninit, offset_of};
use std::ptr;

/// The bytes of a layout before its starts.
pub(crate) const INFO_BYTES: usize = 9;
/// The numbers of a sequence header.
pub(crate) const HEADER_NUMBERS: usize = 146;
/// The numbers of film grain parameters.
pub(crate) const GRAIN_NUMBERS: usize = 186;

// The first nine bytes of a `TileInfo` are those of the interface.
const _: () = assert!(offset_of!(TileInfo, uniform) == 0 && size_of::<bool>() == 1);
const _: () = assert!(offset_of!(TileInfo, min_log2_cols) == 1);
const _: () = assert!(offset_of!(TileInfo, max_log2_cols) == 2);
const _: () = assert!(offset_of!(TileInfo, log2_cols) == 3);
const _: () = assert!(offset_of!(TileInfo, cols) == 4);
const _: () = assert!(offset_of!(TileInfo, min_log2_rows) == 5);
const _: () = assert!(offset_of!(TileInfo, max_log2_rows) == 6);
const _: () = assert!(offset_of!(TileInfo, log2_rows) == 7);
const _: () = assert!(offset_of!(TileInfo, rows) == 8);
const _: () = assert!(offset_of!(TileInfo, col_start_sb) >= INFO_BYTES);
const _: () = assert!(offset_of!(TileInfo, row_start_sb) >= INFO_BYTES);

unsafe extern "C" {
    #[cfg(test)]
    fn mubanlig_bits_interface_3() -> u32;
    fn mubanlig_get_bit(s: *const u8, s_len: usize, position: *mut usize, error: *mut u8) -> u32;
    fn mubanlig_get_bits(
        s: *const u8,
        s_len: usize,
        position: *mut usize,
        error: *mut u8,
        n: i32,
    ) -> u32;
    fn mubanlig_get_sbits(
        s: *const u8,
        s_len: usize,
        position: *mut usize,
        error: *mut u8,
        n: i32,
    ) -> i32;
    fn mubanlig_get_vlc(s: *const u8, s_len: usize, position: *mut usize, error: *mut u8) -> u32;
    fn mubanlig_get_uniform(
        s: *const u8,
        s_len: usize,
        position: *mut usize,
        error: *mut u8,
        max: u32,
    ) -> u32;
    fn mubanlig_get_ref_uniform(
        s: *const u8,
        s_len: usize,
        position: *mut usize,
        error: *mut u8,
        max: u32,
        def: u32,
    ) -> u32;
    fn mubanlig_get_uleb128(
        s: *const u8,
        s_len: usize,
        position: *mut usize,
        error: *mut u8,
    ) -> u32;
    fn mubanlig_get_golomb(
        s: *const u8,
        s_len: usize,
        position: *mut usize,
        error: *mut u8,
        k: u32,
    ) -> u32;
    fn mubanlig_get_bits_subexp_u(
        s: *const u8,
        s_len: usize,
        position: *mut usize,
        error: *mut u8,
        ref_val: u32,
        n: u32,
        k: i32,
    ) -> u32;
    fn mubanlig_get_bits_subexp(
        s: *const u8,
        s_len: usize,
        position: *mut usize,
        error: *mut u8,
        ref_val: i32,
        n: u32,
    ) -> i32;
    fn mubanlig_bytealign(s: *const u8, s_len: usize, position: *mut usize);
    fn mubanlig_byte_pos(s: *const u8, s_len: usize, position: usize) -> usize;
    fn mubanlig_remaining_bytes(s: *const u8, s_len: usize, position: usize) -> usize;

    #[cfg(test)]
    fn mubanlig_interface_3() -> u32;
    #[cfg(test)]
    fn mubanlig_write_interface_3() -> u32;
    fn mubanlig_parse_seg_info(
        s: *const u8,
        s_len: usize,
        position: *mut usize,
        error: *mut u8,
        delta_q: *mut i16,
        delta_q_len: usize,
        masks: *mut u16,
        masks_len: usize,
        ext: u8,
    ) -> u32;
    fn mubanlig_parse_seq_hdr(
        s: *const u8,
        s_len: usize,
        position: *mut usize,
        error: *mut u8,
        strict: u8,
        hdr: *mut i64,
        hdr_len: usize,
        info: *mut u8,
        info_len: usize,
        col_start_sb: *mut u16,
        col_start_sb_len: usize,
        row_start_sb: *mut u16,
        row_start_sb_len: usize,
    ) -> u32;
    fn mubanlig_write_tile_info(
        info: *const u8,
        info_len: usize,
        col_start_sb: *const u16,
        col_start_sb_len: usize,
        row_start_sb: *const u16,
        row_start_sb_len: usize,
        sbmul: i32,
        sb128: u8,
        seq_sb128: u8,
        w: i32,
        h: i32,
        level: u8,
        tier: u8,
        out: *mut u8,
        out_len: usize,
        bits: *mut u32,
    ) -> u32;

    #[cfg(test)]
    fn mubanlig_tiles_interface_3() -> u32;
    fn mubanlig_parse_tile_info(
        s: *const u8,
        s_len: usize,
        position: *mut usize,
        error: *mut u8,
        info: *mut u8,
        info_len: usize,
        col_start_sb: *mut u16,
        col_start_sb_len: usize,
        row_start_sb: *mut u16,
        row_start_sb_len: usize,
        sbmul: i32,
        sb128: u8,
        seq_sb128: u8,
        w: i32,
        h: i32,
        level: u8,
        tier: u8,
    ) -> u32;
    fn mubanlig_tile_rectangles(
        info: *const u8,
        info_len: usize,
        col_start_sb: *const u16,
        col_start_sb_len: usize,
        row_start_sb: *const u16,
        row_start_sb_len: usize,
        sb128: u8,
        w: i32,
        h: i32,
        out: *mut u32,
        out_len: usize,
    ) -> u32;

    #[cfg(test)]
    fn mubanlig_frame_interface_3() -> u32;
    fn mubanlig_parse_tile_info_frmhdr(
        s: *const u8,
        s_len: usize,
        position: *mut usize,
        error: *mut u8,
        frame_type: u8,
        width: i32,
        height: i32,
        sb128: *mut u8,
        info: *mut u8,
        info_len: usize,
        col_start_sb: *mut u16,
        col_start_sb_len: usize,
        row_start_sb: *mut u16,
        row_start_sb_len: usize,
        seq_sb128: u8,
        max_width: i32,
        max_height: i32,
        level: u8,
        tier: u8,
        present: u8,
        seq_info: *const u8,
        seq_info_len: usize,
        seq_col_start_sb: *const u16,
        seq_col_start_sb_len: usize,
        seq_row_start_sb: *const u16,
        seq_row_start_sb_len: usize,
    ) -> u32;

    #[cfg(test)]
    fn mubanlig_within_interface_3() -> u32;
    fn mubanlig_parse_tile_info_within(
        s: *const u8,
        s_len: usize,
        position: *mut usize,
        error: *mut u8,
        info: *mut u8,
        info_len: usize,
        col_start_sb: *mut u16,
        col_start_sb_len: usize,
        row_start_sb: *mut u16,
        row_start_sb_len: usize,
        sbmul: i32,
        sb128: u8,
        seq_sb128: u8,
        w: i32,
        h: i32,
        level: u8,
        tier: u8,
        max_cols: u8,
        max_rows: u8,
    ) -> u32;
    fn mubanlig_parse_tile_info_frmhdr_within(
        s: *const u8,
        s_len: usize,
        position: *mut usize,
        error: *mut u8,
        frame_type: u8,
        width: i32,
        height: i32,
        sb128: *mut u8,
        info: *mut u8,
        info_len: usize,
        col_start_sb: *mut u16,
        col_start_sb_len: usize,
        row_start_sb: *mut u16,
        row_start_sb_len: usize,
        seq_sb128: u8,
        max_width: i32,
        max_height: i32,
        level: u8,
        tier: u8,
        present: u8,
        seq_info: *const u8,
        seq_info_len: usize,
        seq_col_start_sb: *const u16,
        seq_col_start_sb_len: usize,
        seq_row_start_sb: *const u16,
        seq_row_start_sb_len: usize,
        max_cols: u8,
        max_rows: u8,
    ) -> u32;

    #[cfg(test)]
    fn mubanlig_grain_interface_3() -> u32;
    fn mubanlig_parse_film_grain_data(
        s: *const u8,
        s_len: usize,
        position: *mut usize,
        error: *mut u8,
        layout: u8,
        fgd: *mut i16,
        fgd_len: usize,
    ) -> u32;
}

/// A safe wrapper for each reading: the bytes, the position, the error, then the arguments.
macro_rules! readings {
    ($($name:ident = $symbol:ident($($arg:ident: $type:ty),*) -> $answer:ty;)*) => {
        $(
            #[inline]
            pub(crate) fn $name(
                s: &[u8],
                position: &mut usize,
                error: &mut u8
                $(, $arg: $type)*
            ) -> $answer {
                // SAFETY: all is lent by references.
                unsafe { $symbol(s.as_ptr(), s.len(), position, error $(, $arg)*) }
            }
        )*
    };
}

readings! {
    get_bit = mubanlig_get_bit() -> u32;
    get_bits = mubanlig_get_bits(n: i32) -> u32;
    get_sbits = mubanlig_get_sbits(n: i32) -> i32;
    get_vlc = mubanlig_get_vlc() -> u32;
    get_uniform = mubanlig_get_uniform(max: u32) -> u32;
    get_ref_uniform = mubanlig_get_ref_uniform(max: u32, def: u32) -> u32;
    get_uleb128 = mubanlig_get_uleb128() -> u32;
    get_golomb = mubanlig_get_golomb(k: u32) -> u32;
    get_bits_subexp_u = mubanlig_get_bits_subexp_u(ref_val: u32, n: u32, k: i32) -> u32;
    get_bits_subexp = mubanlig_get_bits_subexp(ref_val: i32, n: u32) -> i32;
}

#[inline]
pub(crate) fn bytealign(s: &[u8], position: &mut usize) {
    // SAFETY: all is lent by references.
    unsafe { mubanlig_bytealign(s.as_ptr(), s.len(), position) }
}

#[inline]
pub(crate) fn byte_pos(s: &[u8], position: usize) -> usize {
    // SAFETY: `s` is lent by a reference.
    unsafe { mubanlig_byte_pos(s.as_ptr(), s.len(), position) }
}

#[inline]
pub(crate) fn remaining_bytes(s: &[u8], position: usize) -> usize {
    // SAFETY: `s` is lent by a reference.
    unsafe { mubanlig_remaining_bytes(s.as_ptr(), s.len(), position) }
}

#[inline]
pub(crate) fn parse_seg_info(
    s: &[u8],
    position: &mut usize,
    error: &mut u8,
    delta_q: &mut [i16; MAX_SEGMENTS],
    masks: &mut [u16; 3],
    ext: bool,
) -> u32 {
    // SAFETY: all is lent by references.
    unsafe {
        mubanlig_parse_seg_info(
            s.as_ptr(),
            s.len(),
            position,
            error,
            delta_q.as_mut_ptr(),
            delta_q.len(),
            masks.as_mut_ptr(),
            masks.len(),
            u8::from(ext),
        )
    }
}

/// Where the parts of a layout stand: its nine bytes, its column starts, its row starts.
#[inline]
fn parts(t: &TileInfo) -> (*const u8, *const u16, *const u16) {
    let (cols, rows) = (t.col_start_sb.as_ptr(), t.row_start_sb.as_ptr());
    (ptr::from_ref(t).cast(), cols, rows)
}

/// The same for writing. The starts stand in memory of their own, so no part overlaps another.
#[inline]
fn parts_mut(t: &mut TileInfo) -> (*mut u8, *mut u16, *mut u16) {
    let (cols, rows) = (t.col_start_sb.as_mut_ptr(), t.row_start_sb.as_mut_ptr());
    (ptr::from_mut(t).cast(), cols, rows)
}

/// With a limit the function that has one is called, with the limit behind the other arguments.
#[inline]
#[allow(clippy::too_many_arguments)]
pub(crate) fn parse_tile_info(
    s: &[u8],
    position: &mut usize,
    error: &mut u8,
    t: &mut TileInfo,
    sbmul: i32,
    sb128: u8,
    seq_sb128: u8,
    w: i32,
    h: i32,
    level: u8,
    tier: u8,
    limit: Option<TileLimit>,
) -> u32 {
    let (info, cols, rows) = parts_mut(t);
    macro_rules! call {
        ($symbol:ident $(, $limit:expr)*) => {
            // SAFETY: all is lent by references, the parts of `t` by the one to it.
            unsafe {
                $symbol(
                    s.as_ptr(),
                    s.len(),
                    position,
                    error,
                    info,
                    INFO_BYTES,
                    cols,
                    MAX_TILE_COLS + 1,
                    rows,
                    MAX_TILE_ROWS + 1,
                    sbmul,
                    sb128,
                    seq_sb128,
                    w,
                    h,
                    level,
                    tier,
                    $($limit,)*
                )
            }
        };
    }
    match limit {
        None => call!(mubanlig_parse_tile_info),
        Some(limit) => call!(mubanlig_parse_tile_info_within, limit.cols, limit.rows),
    }
}

#[inline]
pub(crate) fn parse_seq_hdr(
    s: &[u8],
    position: &mut usize,
    error: &mut u8,
    strict: bool,
) -> Result<SequenceHeader, Error> {
    let mut numbers = MaybeUninit::<[i64; HEADER_NUMBERS]>::uninit();
    let mut t = TileInfo::default();
    let (info, cols, rows) = parts_mut(&mut t);
    // SAFETY: all is lent by references, the parts of `t` by the one to it; the library reads none of the numbers.
    answer(unsafe {
        mubanlig_parse_seq_hdr(
            s.as_ptr(),
            s.len(),
            position,
            error,
            u8::from(strict),
            numbers.as_mut_ptr().cast(),
            HEADER_NUMBERS,
            info,
            INFO_BYTES,
            cols,
            MAX_TILE_COLS + 1,
            rows,
            MAX_TILE_ROWS + 1,
        )
    })?;
    // SAFETY: an accepted header writes every number.
    let numbers = unsafe { numbers.assume_init_ref() };
    Ok(flat::sequence_header(numbers, t))
}

/// With a limit as [`parse_tile_info`].
#[inline]
#[allow(clippy::too_many_arguments)]
pub(crate) fn parse_tile_info_frmhdr(
    s: &[u8],
    position: &mut usize,
    error: &mut u8,
    frame_type: FrameType,
    width: i32,
    height: i32,
    sb128: &mut u8,
    tiling: &mut TileInfo,
    seqhdr: &SequenceHeader,
    limit: Option<TileLimit>,
) -> u32 {
    let (info, cols, rows) = parts_mut(tiling);
    let (seq_info, seq_cols, seq_rows) = parts(&seqhdr.tiling.t);
    macro_rules! call {
        ($symbol:ident $(, $limit:expr)*) => {
            // SAFETY: all is lent by references, the parts of both layouts by those to them.
            unsafe {
                $symbol(
                    s.as_ptr(),
                    s.len(),
                    position,
                    error,
                    frame_type as u8,
                    width,
                    height,
                    sb128,
                    info,
                    INFO_BYTES,
                    cols,
                    MAX_TILE_COLS + 1,
                    rows,
                    MAX_TILE_ROWS + 1,
                    seqhdr.sb128,
                    seqhdr.max_width,
                    seqhdr.max_height,
                    seqhdr.level,
                    seqhdr.tier,
                    seqhdr.tiling.present as u8,
                    seq_info,
                    INFO_BYTES,
                    seq_cols,
                    MAX_TILE_COLS + 1,
                    seq_rows,
                    MAX_TILE_ROWS + 1,
                    $($limit,)*
                )
            }
        };
    }
    match limit {
        None => call!(mubanlig_parse_tile_info_frmhdr),
        Some(limit) => call!(
            mubanlig_parse_tile_info_frmhdr_within,
            limit.cols,
            limit.rows
        ),
    }
}

#[inline]
pub(crate) fn parse_film_grain_data(
    s: &[u8],
    position: &mut usize,
    error: &mut u8,
    layout: PixelLayout,
) -> Result<FilmGrainData, Error> {
    let mut numbers = MaybeUninit::<[i16; GRAIN_NUMBERS]>::uninit();
    // SAFETY: all is lent by references; the library reads none of the numbers.
    answer(unsafe {
        mubanlig_parse_film_grain_data(
            s.as_ptr(),
            s.len(),
            position,
            error,
            layout as u8,
            numbers.as_mut_ptr().cast(),
            GRAIN_NUMBERS,
        )
    })?;
    // SAFETY: accepted parameters write every number.
    let numbers = unsafe { numbers.assume_init_ref() };
    Ok(flat::film_grain_data(numbers))
}

#[inline]
pub(crate) fn tile_rectangles(t: &TileInfo, sb128: u8, w: i32, h: i32, out: &mut [u32]) -> u32 {
    let (info, cols, rows) = parts(t);
    // SAFETY: all is lent by references, the parts of `t` by the one to it.
    unsafe {
        mubanlig_tile_rectangles(
            info,
            INFO_BYTES,
            cols,
            MAX_TILE_COLS + 1,
            rows,
            MAX_TILE_ROWS + 1,
            sb128,
            w,
            h,
            out.as_mut_ptr(),
            out.len(),
        )
    }
}

/// How many bits were written.
#[inline]
#[allow(clippy::too_many_arguments)]
pub(crate) fn write_tile_info(
    t: &TileInfo,
    sbmul: i32,
    sb128: u8,
    seq_sb128: u8,
    w: i32,
    h: i32,
    level: u8,
    tier: u8,
    out: &mut [u8],
) -> Result<u32, Error> {
    let (info, cols, rows) = parts(t);
    let mut bits = 0;
    // SAFETY: all is lent by references, the parts of `t` by the one to it.
    answer(unsafe {
        mubanlig_write_tile_info(
            info,
            INFO_BYTES,
            cols,
            MAX_TILE_COLS + 1,
            rows,
            MAX_TILE_ROWS + 1,
            sbmul,
            sb128,
            seq_sb128,
            w,
            h,
            level,
            tier,
            out.as_mut_ptr(),
            out.len(),
            &raw mut bits,
        )
    })?;
    Ok(bits)
}

#[cfg(test)]
mod tests;
