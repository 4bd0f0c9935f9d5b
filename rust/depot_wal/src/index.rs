//! The index beside a segment: where each record is.
//!
//! An [`Index`] was built from its segment, or checked against it: only then can it be asked. It
//! covers the bytes that it was built from, and stays right when the segment grows.
//!
//! ```
//! use depot_wal::index::{Index, Row};
//! use depot_wal::segment::{Records, Writer, PAGE, RECORD_MAX};
//! use depot_wal::Version;
//!
//! let mut segment = [0; PAGE];
//! let mut writer = Writer::new(Version::V1, &mut segment);
//! writer.write(b"one")?;
//! writer.write(b"two")?;
//! let segment = writer.written();
//!
//! let mut bytes = [0; 64];
//! let index = Index::build(Version::V1, segment, &mut bytes)?;
//! assert_eq!((index.len(), index.bytes().len()), (2, 28));
//! let row = index.get(1).unwrap();
//! assert_eq!(row, Row { start: 10, length: 3 });
//! let mut buffer = [0; RECORD_MAX];
//! let mut records = Records::at(Version::V1, segment, row.start, &mut buffer);
//! assert_eq!(records.next().unwrap()?.bytes, b"two");
//!
//! // From a file beside the segment it is checked first.
//! let index = Index::check(Version::V1, segment, &bytes[..28])?;
//! assert!(index.get(2).is_none());
//! # Ok::<(), depot_wal::Error>(())
//! ```

use crate::error::done;
use crate::{sys, Error, Refusal, Version};

/// Bytes of an index without records.
pub const HEAD: usize = 12;
/// Bytes of an index for each record.
pub const ROW: usize = 8;

/// An index that was built or checked here.
#[derive(Clone, Copy, Debug, PartialEq, Eq)]
pub struct Index<'i>(&'i [u8]);

/// Where a record is.
#[derive(Clone, Copy, Debug, PartialEq, Eq, Hash)]
pub struct Row {
    /// Its start in the segment.
    pub start: usize,
    /// Its bytes.
    pub length: usize,
}

impl<'i> Index<'i> {
    /// Builds the index of a segment at the front of a buffer. It lists the records before the end,
    /// or before the first that is refused.
    pub fn build(
        version: Version,
        segment: &[u8],
        buffer: &'i mut [u8],
    ) -> Result<Index<'i>, Error> {
        let (bytes, len) = (segment.as_ptr(), segment.len());
        let (room, room_len) = (buffer.as_mut_ptr(), buffer.len());
        let mut out = [0; 2];
        // SAFETY: the slices are valid for their lengths, the buffer is borrowed for this call.
        let number = unsafe {
            sys::depot_wal_index_build(version.number(), bytes, len, room, room_len, &mut out)
        };
        Index::front(number, out, buffer)
    }

    /// Checks an index against its segment, which may have grown since.
    pub fn check(version: Version, segment: &[u8], index: &'i [u8]) -> Result<Index<'i>, Error> {
        let (bytes, len) = (segment.as_ptr(), segment.len());
        let mut out = [0; 1];
        // SAFETY: the slices are valid for their lengths.
        let number = unsafe {
            sys::depot_wal_index_check(
                version.number(),
                bytes,
                len,
                index.as_ptr(),
                index.len(),
                &mut out,
            )
        };
        done(number, out[0]).map(|()| Index(index))
    }

    /// Checks the index in the first `used` bytes of a buffer, and extends it to all of the
    /// segment.
    pub fn extend(
        version: Version,
        segment: &[u8],
        buffer: &'i mut [u8],
        used: usize,
    ) -> Result<Index<'i>, Error> {
        let (bytes, len) = (segment.as_ptr(), segment.len());
        let (room, room_len) = (buffer.as_mut_ptr(), buffer.len());
        let (version, mut out) = (version.number(), [0; 2]);
        // SAFETY: the slices are valid for their lengths, the buffer is borrowed for this call.
        let number = unsafe {
            sys::depot_wal_index_extend(version, bytes, len, room, room_len, used, &mut out)
        };
        Index::front(number, out, buffer)
    }

    /// The front of a buffer that a call made an index.
    fn front(number: u32, [used, error_at]: [u64; 2], buffer: &'i [u8]) -> Result<Self, Error> {
        done(number, error_at).map(|()| Index(&buffer[..used as usize]))
    }

    /// Where a record is, by its number, counted from 0; `None` where the index lists fewer.
    pub fn get(&self, record: u64) -> Option<Row> {
        let (bytes, len) = (self.0.as_ptr(), self.0.len());
        let mut out = [0; 2];
        // SAFETY: the index is valid for its length.
        let number = unsafe { sys::depot_wal_index_at(bytes, len, record, &mut out) };
        match done(number, out[0]) {
            Ok(()) => {
                let [start, length] = out.map(|number| number as usize);
                Some(Row { start, length })
            }
            Err(error) => {
                assert_eq!(
                    error.refusal,
                    Refusal::BadPlace,
                    "the index was built or checked"
                );
                None
            }
        }
    }

    /// How many records it lists.
    pub fn len(&self) -> u64 {
        ((self.0.len() - HEAD) / ROW) as u64
    }

    /// True if it lists none.
    pub fn is_empty(&self) -> bool {
        self.len() == 0
    }

    /// Its bytes, for a file beside the segment.
    pub fn bytes(&self) -> &'i [u8] {
        self.0
    }
}
