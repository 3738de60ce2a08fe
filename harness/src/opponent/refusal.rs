//! The refusals: the numbers of documents 01 and 02 by name.

pub const TOO_SHORT: u32 = 1;
pub const TOO_LONG: u32 = 2;
pub const SIGNATURE: u32 = 3;
pub const VERSION: u32 = 4;
pub const CHECKSUM: u32 = 5;
pub const ENTRY_CUT: u32 = 6;
pub const MODE: u32 = 7;
pub const FLAGS: u32 = 8;
pub const NAME: u32 = 9;
pub const PADDING: u32 = 10;
/// The same number as for padding: N of version 4 is unfit.
pub const BACK: u32 = 10;
pub const ORDER: u32 = 11;
pub const EXTENSION_CUT: u32 = 12;
pub const UNKNOWN: u32 = 13;
pub const SECOND: u32 = 14;
pub const TREE: u32 = 15;
pub const COUNTS: u32 = 16;
pub const UNDO: u32 = 17;
pub const ABSENT: u32 = 18;
pub const WORKSPACE_SMALL: u32 = 19;
pub const OUTPUT_SMALL: u32 = 20;
pub const NEEDS_WORD: u32 = 21;
pub const KIND: u32 = 29;

/// A refusal's number and place.
#[derive(Clone, Copy)]
pub struct Refusal {
    pub number: u32,
    pub place: usize,
}

impl Refusal {
    /// One of the file as a whole or of the request: its place is 0.
    pub fn whole(number: u32) -> Self {
        Self { number, place: 0 }
    }

    /// There is no such entry, node or record.
    pub fn absent() -> Self {
        Self::whole(ABSENT)
    }
}
