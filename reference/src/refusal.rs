//! The status numbers (FORMAT 12 and document 02).

/// A refusal: its number and the place reported.
#[derive(Clone, Copy, Debug, PartialEq, Eq)]
pub struct Refusal {
    pub number: u32,
    pub place: usize,
}

pub const BAD_BUFFER: u32 = 1;
pub const BAD_PLACE: u32 = 2;
pub const RESERVED: u32 = 3;
pub const COMPRESSED: u32 = 4;
pub const BAD_TYPE: u32 = 5;
pub const NOT_ZERO: u32 = 6;
pub const OUT_OF_ORDER: u32 = 7;
pub const PAST_PAGE: u32 = 8;
pub const TOO_LONG: u32 = 9;
pub const BAD_SUM: u32 = 10;
pub const NO_ROOM: u32 = 11;
pub const TORN: u32 = 12;
/// Document 02 [5]: a fragment that ends a record and holds nothing, or an empty record to write.
pub const HOLLOW: u32 = 13;
pub const UNKNOWN_TYPE: u32 = 20;
pub const EMPTY_BODY: u32 = 21;
pub const SHORT: u32 = 22;
pub const BAD_VARINT: u32 = 23;
pub const LIST_FULL: u32 = 24;
pub const BAD_LIST: u32 = 25;
pub const WRONG_KIND: u32 = 26;
/// Document 02 [7]: a field of a histogram does not fit 32 bits.
pub const BAD_RANGE: u32 = 27;
/// Document 02 [3]: a record brings a series more than the table has rows.
pub const TABLE_FULL: u32 = 28;
/// Document 02 [9]: not the index of its segment.
pub const BAD_INDEX: u32 = 29;
/// Document 02 [11]: a version that is not known, or a name of another shape.
pub const BAD_NAME: u32 = 30;

/// `Err` with the number and the place.
pub fn refuse<T>(number: u32, place: usize) -> Result<T, Refusal> {
    Err(Refusal { number, place })
}
