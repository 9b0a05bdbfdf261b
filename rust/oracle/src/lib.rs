//! The Rust reader (tealdust), built from its unchanged files without debug assertions.
//!
//! Its text is read from a folder at build time (`build.rs`), and none of it is kept here. `Reader` makes
//! its crate-private reader and functions public, and speaks of places as document 01 does.

/// The Rust's answers. Its own error type is not at hand; these are those that the items here give.
pub mod error {
    #[derive(Debug, Clone, Copy, PartialEq, Eq)]
    pub enum TealdustError {
        InvalidSequenceHeader,
        InvalidTileInfo,
        InvalidTrailingBits,
        InvalidFilmGrainData,
        InvalidContentInterpretation,
    }
}

#[allow(dead_code, clippy::all)]
mod intops {
    include!(concat!(env!("OUT_DIR"), "/intops.rs"));
}

#[allow(dead_code, clippy::all)]
pub mod headers {
    include!(concat!(env!("OUT_DIR"), "/headers.rs"));
}

#[allow(dead_code, clippy::all)]
mod getbits {
    include!(concat!(env!("OUT_DIR"), "/getbits.rs"));
}

#[allow(dead_code, unused_imports, private_interfaces, clippy::all)]
mod obu {
    include!(concat!(env!("OUT_DIR"), "/obu.rs"));
}

mod reader;

pub use obu::callers::NAMES as CALLERS;
pub use reader::Reader;

/// The folder that the Rust's files were read from.
pub const FOLDER: &str = env!("ORACLE_FOLDER");
