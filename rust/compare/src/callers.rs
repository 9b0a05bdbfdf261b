//! The Rust's own callers of the reader over our reader: its text with one import changed (`build.rs`).

#[allow(dead_code, unused_imports, private_interfaces, clippy::all)]
mod obu {
    include!(concat!(env!("OUT_DIR"), "/obu.rs"));
}

pub use obu::callers::call;

/// What the text imports beside the reader.
pub mod error {
    pub use oracle::error::TealdustError;
}

pub mod headers {
    pub use oracle::headers::*;
}

#[allow(dead_code, clippy::all)]
pub mod intops {
    include!(concat!(env!("OUT_DIR"), "/intops.rs"));
}
