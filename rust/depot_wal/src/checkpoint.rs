//! The checkpoint: what a segment says of some series from a time on, written as a new segment.
//!
//! Kept, in order and if their id is listed, are series and metadata, samples, exemplars and
//! histograms at or after the time, and tombstones whose max is at or after it. A record that is
//! left without entries, or is of an unknown type, is not written.
//!
//! ```
//! use depot_wal::body::{self, Builder, Sample};
//! use depot_wal::checkpoint::{checkpoint, Work};
//! use depot_wal::segment::{Records, Writer, PAGE, RECORD_MAX};
//! use depot_wal::{Id, Time, Version};
//!
//! let (mut segment, mut body) = ([0; PAGE], [0; 64]);
//! let mut samples = Builder::samples(&mut body)?;
//! for id in [7, 8] {
//!     samples.push(Sample { id: Id(id), time: Time(1000), value: 1.0.into() })?;
//! }
//! let mut writer = Writer::new(Version::V1, &mut segment);
//! writer.write(samples.finish())?;
//!
//! let (mut target, mut work) = ([0; PAGE], Work::default());
//! let ids = [Id(8)];
//! let end =
//!     checkpoint(Version::V1, writer.written(), &ids, Time(0), &mut target, &mut work)?;
//! let mut buffer = [0; RECORD_MAX];
//! let mut records = Records::new(Version::V1, &target[..end], &mut buffer);
//! let record = records.next().unwrap()?;
//! assert_eq!(body::check(record.bytes)?, 1);
//! # Ok::<(), Box<dyn std::error::Error>>(())
//! ```

use crate::error::done;
use crate::segment::{Buffer, RECORD_MAX};
use crate::{sys, Error, Id, Time, Version};
use core::fmt;

/// Two buffers to work in, 128 KiB; they are zero after each checkpoint.
#[derive(Clone, Debug)]
pub struct Work {
    record: Buffer,
    body: Buffer,
}

impl Default for Work {
    fn default() -> Work {
        Work {
            record: [0; RECORD_MAX],
            body: [0; RECORD_MAX],
        }
    }
}

/// A checkpoint that was not finished.
#[derive(Clone, Copy, Debug, PartialEq, Eq)]
pub struct Unfinished {
    /// Why, and where in the source.
    pub error: Error,
    /// The place up to which records are in the target.
    pub written: usize,
}

impl fmt::Display for Unfinished {
    fn fmt(&self, f: &mut fmt::Formatter<'_>) -> fmt::Result {
        write!(
            f,
            "{}; {} bytes of the checkpoint are written",
            self.error, self.written
        )
    }
}

#[cfg(feature = "std")]
impl std::error::Error for Unfinished {
    fn source(&self) -> Option<&(dyn std::error::Error + 'static)> {
        Some(&self.error)
    }
}

/// Writes what is kept of the source into the target, whole pages, in the source's version, and
/// hands back the next place there. The source must end clean and hold no body that is refused,
/// else nothing is written. A record that grows above what a record may have is
/// [`TooLong`](crate::Refusal::TooLong), one that does not fit
/// [`NoRoom`](crate::Refusal::NoRoom), at its start in the source; the records before it are
/// written then, and the rest of the target is as it was.
pub fn checkpoint(
    version: Version,
    source: &[u8],
    ids: &[Id],
    time: Time,
    target: &mut [u8],
    work: &mut Work,
) -> Result<usize, Unfinished> {
    let mut out = [0; 2];
    // SAFETY: the slices are valid for their lengths, an `Id` is a `u64`, and target and work
    // buffers are borrowed for this call alone.
    let number = unsafe {
        sys::depot_wal_checkpoint(
            version.number(),
            source.as_ptr(),
            source.len(),
            ids.as_ptr().cast(),
            ids.len(),
            time.0,
            target.as_mut_ptr(),
            target.len(),
            work.record.as_mut_ptr(),
            work.record.len(),
            work.body.as_mut_ptr(),
            work.body.len(),
            &mut out,
        )
    };
    let [written, error_at] = out;
    let written = written as usize;
    match done(number, error_at) {
        Ok(()) => Ok(written),
        Err(error) => Err(Unfinished { error, written }),
    }
}
