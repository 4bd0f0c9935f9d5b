//! What a call refuses, and where.

use crate::sys;
use core::fmt;

/// Why a call refused: the numbers of `docs/FORMAT.md` 12, the names of the header.
#[derive(Clone, Copy, Debug, PartialEq, Eq, Hash)]
#[repr(u32)]
#[non_exhaustive]
pub enum Refusal {
    /// A segment, page or buffer of a length that is not allowed.
    BadBuffer = 1,
    /// No such place or state, or a page that was not asked for.
    BadPlace = 2,
    /// A reserved bit is set in a type byte.
    Reserved = 3,
    /// A compression bit is set in a type byte.
    Compressed = 4,
    /// A fragment of kind 5, 6 or 7.
    BadType = 5,
    /// A byte of padding, or of the rest of an empty page, is not 0.
    NotZero = 6,
    /// A fragment that cannot come here.
    OutOfOrder = 7,
    /// A fragment's length goes beyond its page.
    PastPage = 8,
    /// A record or body above 65,536 bytes.
    TooLong = 9,
    /// The checksum differs.
    BadSum = 10,
    /// It does not fit into what is left.
    NoRoom = 11,
    /// The bytes end inside a record.
    Torn = 12,
    /// A record without any byte, or a last fragment without data.
    Hollow = 13,
    /// A body type that is not in [`Kind`](crate::body::Kind).
    UnknownType = 20,
    /// A body without any byte.
    EmptyBody = 21,
    /// The body ends inside a field.
    Short = 22,
    /// The tenth byte of a varint is above 1.
    BadVarint = 23,
    /// More samples than the list holds.
    ListFull = 24,
    /// Strings or spans whose numbers do not go together.
    BadList = 25,
    /// A body of another type than the one asked for.
    WrongKind = 26,
    /// A number of a histogram that does not fit 32 bits.
    BadRange = 27,
    /// A log with more than 256 series.
    TableFull = 28,
    /// Not the index of this segment.
    BadIndex = 29,
    /// Not the name of a segment; no such sequence or version.
    BadName = 30,
}

impl Refusal {
    /// All of them, in the order of their numbers.
    pub const ALL: [Refusal; 24] = [
        Refusal::BadBuffer,
        Refusal::BadPlace,
        Refusal::Reserved,
        Refusal::Compressed,
        Refusal::BadType,
        Refusal::NotZero,
        Refusal::OutOfOrder,
        Refusal::PastPage,
        Refusal::TooLong,
        Refusal::BadSum,
        Refusal::NoRoom,
        Refusal::Torn,
        Refusal::Hollow,
        Refusal::UnknownType,
        Refusal::EmptyBody,
        Refusal::Short,
        Refusal::BadVarint,
        Refusal::ListFull,
        Refusal::BadList,
        Refusal::WrongKind,
        Refusal::BadRange,
        Refusal::TableFull,
        Refusal::BadIndex,
        Refusal::BadName,
    ];

    /// The number that C gets.
    pub const fn number(self) -> u32 {
        self as u32
    }

    /// The refusal with this number, if there is one.
    pub fn from_number(number: u32) -> Option<Refusal> {
        Refusal::ALL
            .into_iter()
            .find(|refusal| refusal.number() == number)
    }

    /// The header's text, for a log line or a terminal.
    pub const fn text(self) -> &'static str {
        match self {
            Refusal::BadBuffer => "segment, page or buffer of a length that is not allowed",
            Refusal::BadPlace => "no such place or state, or page not asked for",
            Refusal::Reserved => "corrupt: reserved bit set in a type byte",
            Refusal::Compressed => "compressed record, which is not supported",
            Refusal::BadType => "corrupt: unknown kind of fragment",
            Refusal::NotZero => "corrupt: padding or rest of a page is not zero",
            Refusal::OutOfOrder => "corrupt: fragment out of order",
            Refusal::PastPage => "corrupt: fragment longer than its page",
            Refusal::TooLong => "record or body longer than 65536 bytes",
            Refusal::BadSum => "corrupt: checksum mismatch",
            Refusal::NoRoom => "no room left in the segment or buffer",
            Refusal::Torn => "record truncated, as by a power failure",
            Refusal::Hollow => "record without any byte, or zeros where one was cut off",
            Refusal::UnknownType => "unknown type of record body",
            Refusal::EmptyBody => "record body without any byte",
            Refusal::Short => "body truncated inside a field",
            Refusal::BadVarint => "corrupt: varint above 64 bits",
            Refusal::ListFull => "more entries than the list holds",
            Refusal::BadList => "strings or spans whose numbers do not go together",
            Refusal::WrongKind => "entry for, or histogram in, a body of another type",
            Refusal::BadRange => "number of a histogram above 32 bits",
            Refusal::TableFull => "more series than the table holds",
            Refusal::BadIndex => "index that is not this segment's",
            Refusal::BadName => "not the name of a segment, or no such sequence or version",
        }
    }
}

/// A refusal and its place: an offset in the segment or in the body.
#[derive(Clone, Copy, Debug, PartialEq, Eq, Hash)]
pub struct Error {
    /// Why.
    pub refusal: Refusal,
    /// Where; 0 where the call as a whole was refused.
    pub place: usize,
}

impl Error {
    pub(crate) const fn new(refusal: Refusal, place: usize) -> Error {
        Error { refusal, place }
    }

    /// Of what a call returned that was neither done nor an end.
    fn of(number: u32, place: u64) -> Error {
        let refusal = Refusal::from_number(number).expect("the header has every number");
        Error::new(refusal, place as usize)
    }

    /// The number that C gets.
    pub const fn number(&self) -> u32 {
        self.refusal.number()
    }
}

impl fmt::Display for Error {
    fn fmt(&self, f: &mut fmt::Formatter<'_>) -> fmt::Result {
        let (text, number) = (self.refusal.text(), self.number());
        write!(f, "{text} ({number} at {})", self.place)
    }
}

#[cfg(feature = "std")]
impl std::error::Error for Error {}

/// The result of a call that has no end: `place` is that of a refusal.
#[inline]
pub(crate) fn done(number: u32, place: u64) -> Result<(), Error> {
    match number {
        sys::DONE => Ok(()),
        _ => Err(Error::of(number, place)),
    }
}

/// The result of a call that may come to an end, which is false.
#[inline]
pub(crate) fn done_or_end(number: u32, place: u64) -> Result<bool, Error> {
    match number {
        sys::END => Ok(false),
        _ => done(number, place).map(|()| true),
    }
}
