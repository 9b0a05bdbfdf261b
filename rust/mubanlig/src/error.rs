//! Why a call was refused.

use std::fmt;

/// A refusal. It knows its number, and prints a sentence.
///
/// ```
/// use mubanlig::{Error, GetBits, parse_seq_hdr};
///
/// let refusal = parse_seq_hdr(&mut GetBits::new(&[]), false).unwrap_err();
/// assert_eq!(refusal, Error::InvalidSequenceHeader);
/// assert_eq!(refusal.number(), 1);
/// assert_eq!(refusal.to_string(), "the sequence header is invalid or too short");
/// ```
#[derive(Debug, Clone, Copy, PartialEq, Eq, Hash)]
#[non_exhaustive]
pub enum Error {
    /// 1: profile, layout, bit depth or reference frames of a sequence header, or its data ran out.
    InvalidSequenceHeader,
    /// 2: 64 columns, or then 64 rows, leave superblocks over.
    InvalidTileInfo,
    /// 3: a strict sequence header has no trailing one bit.
    InvalidTrailingBits,
    /// 4: an argument is outside the domain, a sequence header can't be used for a frame, or a layout has no
    /// rectangles. No bit is used.
    WrongArguments,
    /// 5: a buffer has fewer than four numbers a tile, or fewer bytes than a layout's bits need.
    ShortBuffer,
    /// 6: a layout has more columns or more rows than the limit. Its bits are used.
    TooManyTiles,
    /// 7: of film grain more than 14 points in a list, a position past 255, in I420 one chroma list empty and the other not,
    /// or the reader's error.
    InvalidFilmGrainData,
    /// 8: no bits read as the layout that was to be written.
    NoSuchLayout,
}

impl Error {
    /// The number of this refusal, 1 to 8.
    #[must_use]
    pub fn number(self) -> u32 {
        match self {
            Self::InvalidSequenceHeader => 1,
            Self::InvalidTileInfo => 2,
            Self::InvalidTrailingBits => 3,
            Self::WrongArguments => 4,
            Self::ShortBuffer => 5,
            Self::TooManyTiles => 6,
            Self::InvalidFilmGrainData => 7,
            Self::NoSuchLayout => 8,
        }
    }
}

/// The library's answer: 0 is accepted, any other number a refusal.
#[inline]
pub(crate) fn answer(number: u32) -> Result<(), Error> {
    match number {
        0 => Ok(()),
        1 => Err(Error::InvalidSequenceHeader),
        2 => Err(Error::InvalidTileInfo),
        3 => Err(Error::InvalidTrailingBits),
        4 => Err(Error::WrongArguments),
        5 => Err(Error::ShortBuffer),
        6 => Err(Error::TooManyTiles),
        7 => Err(Error::InvalidFilmGrainData),
        8 => Err(Error::NoSuchLayout),
        _ => unreachable!("the library has no answer {number}"),
    }
}

impl fmt::Display for Error {
    fn fmt(&self, f: &mut fmt::Formatter<'_>) -> fmt::Result {
        f.write_str(match self {
            Self::InvalidSequenceHeader => "the sequence header is invalid or too short",
            Self::InvalidTileInfo => {
                "the tile layout does not cover the picture within 64 columns and 64 rows"
            }
            Self::InvalidTrailingBits => "the sequence header has no trailing one bit",
            Self::WrongArguments => "an argument is outside the domain",
            Self::ShortBuffer => "the buffer is too short for all tiles or bits",
            Self::TooManyTiles => "the tile layout has more columns or rows than the limit",
            Self::InvalidFilmGrainData => "the film grain parameters are invalid or too short",
            Self::NoSuchLayout => "no bits read as the tile layout",
        })
    }
}

impl std::error::Error for Error {}
