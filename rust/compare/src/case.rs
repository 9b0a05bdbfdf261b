//! A case: what an operation is called on. An outcome: what it answers.

use crate::kind::Kind;
use crate::records::TILE;
use crate::rule::Rule;

/// The byte reached, the bits of it used, and the reader's error.
#[derive(Debug, Clone, Copy, Default, PartialEq, Eq)]
pub struct Place {
    pub byte: usize,
    pub used: u32,
    pub error: bool,
}

impl Place {
    /// The place behind so many bits.
    pub fn behind(bits: usize) -> Self {
        Self {
            byte: bits / 8,
            used: (bits % 8) as u32,
            error: false,
        }
    }

    /// The bits before it.
    pub fn bits(self) -> usize {
        8 * self.byte + self.used as usize
    }
}

/// The most columns and rows that a viewer can show.
#[derive(Debug, Clone, Copy, PartialEq, Eq)]
pub struct Limit {
    pub cols: i64,
    pub rows: i64,
}

/// The arguments are numbers in the order of the C interface; a record is given number by number.
#[derive(Debug, Clone, Default, PartialEq)]
pub struct Case {
    pub kind: Kind,
    pub data: Vec<u8>,
    pub place: Place,
    pub args: Vec<i64>,
    /// The lengths of the lent buffers, or nothing where each has its full length.
    pub lent: Vec<i64>,
}

impl Case {
    pub fn of(kind: Kind) -> Self {
        Self {
            kind,
            ..Self::default()
        }
    }

    /// The layout that a layout's or a frame's reading is given, a frame's behind its code: what a refusal hands back.
    pub fn given(&self) -> &[i64] {
        match self.kind {
            Kind::ParseTileInfo | Kind::ParseTileInfoWithin => &self.args[..TILE],
            _ => &self.args[3..4 + TILE],
        }
    }

    /// The limit, of a kind that has one.
    pub fn limit(&self) -> Option<Limit> {
        match self.args[..] {
            [.., cols, rows] if self.kind.is_limited() => Some(Limit { cols, rows }),
            _ => None,
        }
    }

    /// Document 01's end: a place past the last bit, or with more than 7 bits used.
    pub fn is_past_end(&self) -> bool {
        let Place { byte, used, .. } = self.place;
        used > 7 || byte > self.data.len() || (byte == self.data.len() && used > 0)
    }

    /// The place as an operation hands it back that uses no bit.
    pub fn settled(&self) -> Place {
        if self.is_past_end() {
            Place {
                byte: self.data.len(),
                used: 0,
                error: self.place.error,
            }
        } else {
            self.place
        }
    }
}

/// How a case was made.
#[derive(Debug, Clone, Copy, PartialEq, Eq)]
pub enum Source {
    /// One of all inputs up to two bytes.
    Exhaustive,
    /// Random bytes of several kinds.
    Random,
    /// The data ends within a few bits of the last bit that is read.
    Boundary,
    /// Written field by field.
    Made,
    /// A damaged copy of a made one.
    Damaged,
}

impl Source {
    pub const ALL: [Self; 5] = [
        Self::Exhaustive,
        Self::Random,
        Self::Boundary,
        Self::Made,
        Self::Damaged,
    ];

    pub fn name(self) -> &'static str {
        match self {
            Self::Exhaustive => "exhaustive",
            Self::Random => "random",
            Self::Boundary => "boundary",
            Self::Made => "made",
            Self::Damaged => "damaged",
        }
    }
}

/// A reading's value or a function's number, the place after it, and the record that comes back.
#[derive(Debug, Clone, Default)]
pub struct Outcome {
    pub answer: i64,
    pub place: Place,
    pub record: Vec<i64>,
    /// The rule by which the Rust's answer is not the one expected; of several the last one.
    pub rule: Option<Rule>,
}

impl Outcome {
    pub fn clear(&mut self) {
        self.answer = 0;
        self.place = Place::default();
        self.record.clear();
        self.rule = None;
    }

    pub fn agrees(&self, other: &Self) -> bool {
        self.answer == other.answer && self.place == other.place && self.same_record(other)
    }

    /// Most readings have no record: a comparison of nothing is slow on some machines.
    fn same_record(&self, other: &Self) -> bool {
        self.record.len() == other.record.len()
            && (self.record.is_empty() || self.record == other.record)
    }
}
