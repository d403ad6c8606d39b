//! Reasons and refusals.

/// Why a call refuses; the number is part of the format.
#[derive(Clone, Copy, Debug, PartialEq, Eq, PartialOrd, Ord)]
#[repr(u8)]
pub enum Reason {
    DictionarySize = 1,
    Layout = 2,
    LineShape = 3,
    LineName = 4,
    UnknownType = 5,
    LineGeometry = 6,
    FrameSize = 10,
    Encoding = 11,
    SchemaId = 12,
    UnknownTemplate = 13,
    BlockLength = 14,
    Padding = 15,
    NoPattern = 16,
    RequiredAbsent = 17,
    PastEnd = 18,
    TooMany = 19,
    LeftOver = 20,
    CannotOpen = 21,
    NotFound = 22,
    NoSuchValue = 23,
    NoRoom = 24,
    NotThisForm = 25,
    Full = 26,
    TooLong = 27,
}

impl Reason {
    pub const fn number(self) -> u8 {
        self as u8
    }

    /// The refusal for this reason.
    pub const fn at(self, place: usize, tag: u32) -> Refusal {
        Refusal { reason: self, place, tag }
    }
}

/// A refused call: a reason, a place and a tag. A place or tag that means nothing is 0.
#[derive(Clone, Copy, Debug, PartialEq, Eq)]
pub struct Refusal {
    pub reason: Reason,
    pub place: usize,
    pub tag: u32,
}

pub type Result<T> = std::result::Result<T, Refusal>;
