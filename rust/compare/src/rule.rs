//! Why an expected outcome is not simply the Rust's.

#[derive(Debug, Clone, Copy, PartialEq, Eq)]
pub enum Rule {
    /// An argument beyond a limit that document 01 adds: the error, 0, no bit used.
    Limit,
    /// A place past the last bit counts as the end; the Rust has no such places.
    PastEnd,
    /// An argument outside the domain, or a sequence header that can't be used for a frame: 4, no bit used.
    Domain,
    /// Refused with 2: the record given comes back. The Rust leaves it half changed.
    WholeRecord,
    /// The rectangles, row by row, are not the Rust's.
    Rectangles,
    /// A lent buffer is too short: 5, nothing changes.
    Short,
    /// More columns or rows than the limit: 6, and the record given comes back. The Rust knows no limit.
    TooMany,
    /// A layout is written, refused with 8 if no bits read as it. The Rust writes none.
    Writing,
    /// Accepted: zeros stand behind the closing starts. The Rust leaves what was there.
    Cleared,
}

impl Rule {
    pub const ALL: [Self; 9] = [
        Self::Limit,
        Self::PastEnd,
        Self::Domain,
        Self::WholeRecord,
        Self::Rectangles,
        Self::Short,
        Self::TooMany,
        Self::Writing,
        Self::Cleared,
    ];

    pub fn sentence(self) -> &'static str {
        match self {
            Self::Limit => "an argument beyond document 01's limit: error, 0, no bit used",
            Self::PastEnd => "a place past the last bit counts as the end",
            Self::Domain => "an argument outside the domain: 4, no bit used",
            Self::WholeRecord => "refused with 2: the record given comes back whole",
            Self::Rectangles => {
                "the rectangles are document 01's, in the order of #104 and cut as #105 says, and not the Rust's"
            }
            Self::Short => "a lent buffer too short: 5, nothing changes",
            Self::TooMany => "more columns or rows than the limit: 6, the record given comes back",
            Self::Writing => {
                "a layout's bits are those that the Rust reads as it, 8 if there are none, as #106 says"
            }
            Self::Cleared => {
                "accepted: zeros stand behind the closing starts, where the Rust leaves what was there"
            }
        }
    }

    /// Whether the whole answer is document 01's, whatever the Rust answers.
    pub fn decides(self) -> bool {
        !matches!(
            self,
            Self::PastEnd | Self::WholeRecord | Self::TooMany | Self::Cleared
        )
    }
}
