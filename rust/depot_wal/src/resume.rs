//! Going on after a power failure.
//!
//! Bring what survived back into a segment of whole pages, and ask where to go on: behind the last
//! record, or over what is left of one that was cut off. Once the same records are written, the
//! segment is byte for byte as if the power had never failed. On a medium, truncate there first: a
//! second power failure must not leave old bytes after new ones.
//!
//! ```
//! use depot_wal::segment::{Writer, PAGE};
//! use depot_wal::Version;
//!
//! let mut segment = [0; PAGE];
//! let mut writer = Writer::new(Version::V2, &mut segment);
//! writer.write(b"one")?;
//! writer.write(b"two")?;
//! let (end, whole) = (writer.place(), segment);
//!
//! // All but the last byte survives, then noise.
//! segment[end - 1..].fill(0xFF);
//! let (mut writer, good) = Writer::resume(Version::V2, &mut segment, end - 1)?;
//! assert_eq!((good.records, writer.place()), (1, 10));
//! writer.write(b"two")?;
//! assert_eq!(writer.written(), &whole[..end]);
//! # Ok::<(), Box<dyn std::error::Error>>(())
//! ```

use crate::error::done;
use crate::{sys, Error, Good, Version};
use core::fmt;

/// Where to go on.
#[derive(Clone, Copy, Debug, PartialEq, Eq)]
pub struct Resumed {
    /// The place of the next record.
    pub next: usize,
    /// The records that came out.
    pub good: Good,
}

/// Bytes that are not a log of this library which was cut off: they are corrupt, or of another
/// program.
#[derive(Clone, Copy, Debug, PartialEq, Eq)]
pub struct Refused {
    /// Why, and where.
    pub error: Error,
    /// The records that came out before.
    pub good: Good,
}

impl fmt::Display for Refused {
    fn fmt(&self, f: &mut fmt::Formatter<'_>) -> fmt::Result {
        let Good { records, offset } = self.good;
        write!(
            f,
            "{}; {records} records are good, {offset} bytes",
            self.error
        )
    }
}

#[cfg(feature = "std")]
impl std::error::Error for Refused {
    fn source(&self) -> Option<&(dyn std::error::Error + 'static)> {
        Some(&self.error)
    }
}

/// Reads the first `survived` bytes of a segment of whole pages from the start. Where they end
/// inside a record, its start is the next place; where they end clean, the place behind the last
/// record, or the next page where 1 to 6 bytes are left in its page: these are set to zero. No
/// other byte changes, and none where it is refused.
pub fn resume(version: Version, segment: &mut [u8], survived: usize) -> Result<Resumed, Refused> {
    let (bytes, len) = (segment.as_mut_ptr(), segment.len());
    let mut out = [0; 4];
    // SAFETY: the segment is valid for its length and borrowed for this call alone.
    let number = unsafe { sys::depot_wal_resume(version.number(), bytes, len, survived, &mut out) };
    let [next, error_at, records, offset] = out;
    let good = Good::of([records, offset]);
    match done(number, error_at) {
        Ok(()) => Ok(Resumed {
            next: next as usize,
            good,
        }),
        Err(error) => Err(Refused { error, good }),
    }
}
