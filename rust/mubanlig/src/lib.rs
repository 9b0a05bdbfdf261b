//! AV2 sequence headers, tile layouts and film grain parameters, read by a proved library, which writes layouts too.
//!
//! This crate stands where a viewer used tealdust's reader: the names of its functions, records and fields are
//! the same. The reading itself is done by a library written in Rattle, in which each function is proved to
//! meet its contract: every byte string and every argument is taken, and nothing outside the buffers is touched.
//!
//! ```
//! use mubanlig::{GetBits, PixelLayout, parse_seq_hdr};
//!
//! let data = [0x82, 0x05, 0x00, 0x00, 0x00, 0x80, 0x10, 0x02];
//! let hdr = parse_seq_hdr(&mut GetBits::new(&data), true)?;
//! assert_eq!((hdr.max_width, hdr.max_height), (1, 1));
//! assert_eq!(hdr.layout, PixelLayout::I400);
//! # Ok::<(), mubanlig::Error>(())
//! ```
//!
//! # Short data
//!
//! Data that runs out reads as zeros and sets the reader's error. It is not refused there: a refusal may come later,
//! from another check, or never. Ask [`GetBits::has_error`].
//!
//! ```
//! use mubanlig::{GetBits, TileInfo, parse_tile_info};
//!
//! let mut gb = GetBits::new(&[]);
//! let mut layout = TileInfo::default();
//! // 4096 samples are 64 superblocks, each a column of its own where no bit is left to read.
//! parse_tile_info(&mut layout, &mut gb, 1, 0, 0, 4096, 64, 0, 0)?;
//! assert_eq!(layout.cols, 64);
//! assert!(gb.has_error());
//! # Ok::<(), mubanlig::Error>(())
//! ```

#![deny(missing_docs)]
#![deny(unsafe_code)]

mod error;
#[allow(unsafe_code)]
mod ffi;
mod flat;
mod getbits;
mod headers;
mod obu;
mod rectangles;
mod writing;

pub use error::Error;
pub use getbits::{GetBits, Place};
pub use headers::{
    AdaptiveBoolean, CropInfo, FhTiling, FilmGrainData, FrameHeader, FrameType, MAX_SEGMENTS,
    MAX_TILE_COLS, MAX_TILE_ROWS, PixelLayout, SegmentationDataSet, SeqSegmentation, SeqTiling,
    SequenceHeader, TileInfo, TileLimit,
};
pub use obu::{
    parse_film_grain_data, parse_seg_info, parse_seq_hdr, parse_tile_info, parse_tile_info_frmhdr,
    parse_tile_info_frmhdr_parts, parse_tile_info_frmhdr_within, parse_tile_info_within,
};
pub use rectangles::tile_rectangles;
pub use writing::{LAYOUT_BYTES, write_tile_info};
