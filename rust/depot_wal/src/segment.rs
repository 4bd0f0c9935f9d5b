//! A segment in memory: records of 1 to 65,536 bytes, written and read.
//!
//! A [`Writer`] has the segment, whole pages, and the place of the next record. [`Records`] reads
//! the bytes that are there, any number of them. What is written is in memory: the bytes before
//! [`Writer::place`] are brought to the medium in the order of their offsets by whoever has one
//! ([`Log`](crate::log::Log) does it for a file).
//!
//! ```
//! use depot_wal::segment::{Records, Writer, PAGE, RECORD_MAX};
//! use depot_wal::{Refusal, Version};
//!
//! let mut segment = [0; PAGE];
//! let mut writer = Writer::new(Version::V1, &mut segment);
//! writer.write(b"hello")?;
//! writer.write(b"world")?;
//! let end = writer.place();
//!
//! // The power fails inside the second record.
//! let mut buffer = [0; RECORD_MAX];
//! let mut records = Records::new(Version::V1, &segment[..end - 1], &mut buffer);
//! let first = records.next().unwrap()?;
//! assert_eq!((first.start, first.bytes), (0, &b"hello"[..]));
//! let error = records.next().unwrap().unwrap_err();
//! assert_eq!((error.refusal, error.place), (Refusal::Torn, 12));
//! assert!(records.next().is_none());
//! assert_eq!(records.good().offset, 12);
//! # Ok::<(), depot_wal::Error>(())
//! ```

use crate::checksum::{default_table, Table};
use crate::error::{done, done_or_end};
use crate::resume::{resume, Refused};
use crate::{sys, Error, Good, Version};

/// Bytes of a page.
pub const PAGE: usize = 32_768;
/// Bytes of a fragment's header.
pub const HEADER: usize = 7;
/// Bytes of a fragment's data at most.
pub const FRAGMENT_MAX: usize = PAGE - HEADER;
/// Bytes of a record at most.
pub const RECORD_MAX: usize = 65_536;
/// Bytes of a segment at most.
pub const SEGMENT_MAX: usize = 134_217_728;

/// The buffer that records are read into.
pub type Buffer = [u8; RECORD_MAX];

/// A segment that is written, and the place of the next record.
#[derive(Debug)]
pub struct Writer<'a> {
    version: Version,
    segment: &'a mut [u8],
    place: usize,
    table: Option<&'a Table>,
}

impl<'a> Writer<'a> {
    /// Writes from the start. The segment is one or more whole pages, at most [`SEGMENT_MAX`]
    /// bytes: any other is refused by the first write.
    pub fn new(version: Version, segment: &'a mut [u8]) -> Writer<'a> {
        Writer::at(version, segment, 0)
    }

    /// Goes on at a place that an earlier writer of this segment had.
    pub fn at(version: Version, segment: &'a mut [u8], place: usize) -> Writer<'a> {
        let table = default_table();
        Writer {
            version,
            segment,
            place,
            table,
        }
    }

    /// Goes on after a power failure that the first `survived` bytes came through; see
    /// [`resume`](crate::resume). Hands back the records that came out, too.
    pub fn resume(
        version: Version,
        segment: &'a mut [u8],
        survived: usize,
    ) -> Result<(Writer<'a>, Good), Refused> {
        let resumed = resume(version, segment, survived)?;
        Ok((Writer::at(version, segment, resumed.next), resumed.good))
    }

    /// Takes a table that is lent, or none.
    pub fn with_table(self, table: Option<&'a Table>) -> Writer<'a> {
        Writer { table, ..self }
    }

    /// Writes a record and hands back its start. Where it is refused nothing has changed:
    /// [`BadBuffer`](crate::Refusal::BadBuffer), [`BadPlace`](crate::Refusal::BadPlace),
    /// [`Hollow`](crate::Refusal::Hollow), [`TooLong`](crate::Refusal::TooLong) or
    /// [`NoRoom`](crate::Refusal::NoRoom), in this order.
    #[inline]
    pub fn write(&mut self, record: &[u8]) -> Result<usize, Error> {
        let start = self.place;
        self.place = write(self.version, self.segment, start, record, self.table)?;
        Ok(start)
    }

    /// The place of the next record: all bytes before it are written.
    pub fn place(&self) -> usize {
        self.place
    }

    /// The bytes that were written, from the segment's start.
    pub fn written(&self) -> &[u8] {
        self.segment.get(..self.place).unwrap_or(self.segment)
    }
}

/// Writes a record at a place, by a table if there is one, and hands back the next place.
#[inline]
pub(crate) fn write(
    version: Version,
    segment: &mut [u8],
    place: usize,
    record: &[u8],
    table: Option<&Table>,
) -> Result<usize, Error> {
    let (bytes, len) = (segment.as_mut_ptr(), segment.len());
    let (data, data_len) = (record.as_ptr(), record.len());
    let (version, mut out) = (version.number(), [0; 2]);
    // SAFETY: the slices are valid for their lengths, and the segment is borrowed for this call
    // alone.
    let number = unsafe {
        match table {
            Some(table) => sys::depot_wal_write_with_table(
                table.numbers(),
                version,
                bytes,
                len,
                place,
                data,
                data_len,
                &mut out,
            ),
            None => sys::depot_wal_write(version, bytes, len, place, data, data_len, &mut out),
        }
    };
    let [next, error_at] = out;
    done(number, error_at).map(|()| next as usize)
}

/// A record that was read.
#[derive(Clone, Copy, Debug, PartialEq, Eq)]
pub struct Record<'a> {
    /// The place of its first fragment.
    pub start: usize,
    /// The place after it, for the next read.
    pub next: usize,
    /// What was written.
    pub bytes: &'a [u8],
}

/// A reading of a segment, record by record.
#[derive(Debug)]
pub struct Records<'a> {
    version: Version,
    segment: &'a [u8],
    place: usize,
    good: [u64; 2],
    ended: bool,
    buffer: &'a mut Buffer,
    table: Option<&'a Table>,
}

impl<'a> Records<'a> {
    /// Reads from the start the bytes that are there, which need not be whole pages.
    pub fn new(version: Version, segment: &'a [u8], buffer: &'a mut Buffer) -> Records<'a> {
        Records::at(version, segment, 0, buffer)
    }

    /// Reads from a record's start on, as an index has it, or from the place after one.
    pub fn at(
        version: Version,
        segment: &'a [u8],
        place: usize,
        buffer: &'a mut Buffer,
    ) -> Records<'a> {
        let (good, ended, table) = ([0; 2], false, default_table());
        Records {
            version,
            segment,
            place,
            good,
            ended,
            buffer,
            table,
        }
    }

    /// Takes a table that is lent, or none.
    pub fn with_table(self, table: Option<&'a Table>) -> Records<'a> {
        Records { table, ..self }
    }

    /// The next record, which is in the buffer until the next call; `None` at a clean end, and
    /// after a refusal. [`Torn`](crate::Refusal::Torn) is a refusal too: the bytes end inside the
    /// record at its place. It is no `Iterator`, since that could not lend the buffer.
    #[inline]
    #[allow(clippy::should_implement_trait)]
    pub fn next(&mut self) -> Option<Result<Record<'_>, Error>> {
        if self.ended {
            return None;
        }
        let read = self.read();
        self.ended = !matches!(read, Ok(Some(_)));
        match read {
            Ok(Some([start, length, next])) => {
                self.place = next;
                let bytes = &self.buffer[..length];
                Some(Ok(Record { start, next, bytes }))
            }
            Ok(None) => None,
            Err(error) => Some(Err(error)),
        }
    }

    /// What was whole so far; [`Records::at`] counts from its place on.
    pub fn good(&self) -> Good {
        Good::of(self.good)
    }

    /// Start, length and the place after; `None` at the end.
    #[inline]
    fn read(&mut self) -> Result<Option<[usize; 3]>, Error> {
        let (bytes, len) = (self.segment.as_ptr(), self.segment.len());
        let (room, room_len) = (self.buffer.as_mut_ptr(), self.buffer.len());
        let (version, place, mut out) = (self.version.number(), self.place, [0; 3]);
        let good = &mut self.good;
        // SAFETY: the slices are valid for their lengths, and the buffer is borrowed by `self`
        // alone.
        let number = unsafe {
            match self.table {
                Some(table) => sys::depot_wal_read_with_table(
                    table.numbers(),
                    version,
                    bytes,
                    len,
                    place,
                    room,
                    room_len,
                    good,
                    &mut out,
                ),
                None => {
                    sys::depot_wal_read(version, bytes, len, place, room, room_len, good, &mut out)
                }
            }
        };
        let found = done_or_end(number, out[0])?;
        Ok(found.then(|| out.map(|number| number as usize)))
    }
}
