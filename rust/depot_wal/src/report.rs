//! The voltage report over a night's segments: for each of up to 256 series its rows, how many of
//! these are NaN, and the smallest and largest other reading.
//!
//! ```
//! use depot_wal::body::{Builder, Sample};
//! use depot_wal::report::Report;
//! use depot_wal::segment::{Writer, PAGE, RECORD_MAX};
//! use depot_wal::{Id, Time, Version};
//!
//! let (mut segment, mut body) = ([0; PAGE], [0; 64]);
//! let mut samples = Builder::samples(&mut body)?;
//! for volts in [11.9, f64::NAN, 12.6] {
//!     samples.push(Sample { id: Id(7), time: Time(1000), value: volts.into() })?;
//! }
//! let mut writer = Writer::new(Version::V1, &mut segment);
//! writer.write(samples.finish())?;
//!
//! let (mut report, mut buffer) = (Report::new(), [0; RECORD_MAX]);
//! report.add_segment(Version::V1, writer.written(), &mut buffer)?;
//! let series = report.series().next().unwrap();
//! assert_eq!((series.id, series.rows, series.nans), (Id(7), 3, 1));
//! assert_eq!(series.extremes, Some((11.9.into(), 12.6.into())));
//! # Ok::<(), depot_wal::Error>(())
//! ```

use crate::error::done;
use crate::segment::Buffer;
use crate::{sys, Error, Id, Refusal, Value, Version};

/// A report, 10 KiB. It can only be one that the library made.
#[derive(Clone, Debug)]
pub struct Report([u64; sys::REPORT_LEN]);

/// A series of a report.
#[derive(Clone, Copy, Debug, PartialEq, Eq)]
pub struct Series {
    /// Its id.
    pub id: Id,
    /// How many rows it has.
    pub rows: u64,
    /// How many of these are NaN.
    pub nans: u64,
    /// The smallest and the largest other reading; `None` where every row is NaN.
    pub extremes: Option<(Value, Value)>,
}

impl Report {
    /// The most segments of a report.
    pub const SEGMENTS_MAX: usize = 1024;

    /// A fresh report.
    pub fn new() -> Report {
        Report([0; sys::REPORT_LEN])
    }

    /// Adds the rows of a segment. Where a record is refused, or torn, those before it are added.
    /// [`TableFull`](Refusal::TableFull), a 257th series, ends the report, and so does a 1,025th
    /// segment, [`BadBuffer`](Refusal::BadBuffer): that is then the answer to every later one.
    pub fn add_segment(
        &mut self,
        version: Version,
        segment: &[u8],
        buffer: &mut Buffer,
    ) -> Result<(), Error> {
        self.add(version.number(), segment, buffer)
    }

    /// Counts a segment that has no version or could not be opened, and hands back what the report
    /// answers: [`BadName`](Refusal::BadName), or what ended it.
    pub fn add_misnamed(&mut self) -> Error {
        // No version has this number; nothing is read, so no buffer is needed.
        match self.add(0, &[], &mut []) {
            Ok(()) => Error::new(Refusal::BadName, 0),
            Err(error) => error,
        }
    }

    fn add(&mut self, version: u32, segment: &[u8], buffer: &mut [u8]) -> Result<(), Error> {
        let (bytes, len) = (segment.as_ptr(), segment.len());
        let (room, room_len) = (buffer.as_mut_ptr(), buffer.len());
        let mut out = [0; 1];
        // SAFETY: the slices are valid for their lengths; buffer and report are borrowed for this
        // call alone.
        let number = unsafe {
            sys::depot_wal_report_segment(
                version,
                bytes,
                len,
                room,
                room_len,
                &mut self.0,
                &mut out,
            )
        };
        done(number, out[0])
    }

    /// The series in the order in which they were first met.
    pub fn series(&self) -> impl ExactSizeIterator<Item = Series> + '_ {
        let rows = self.0[sys::REPORT_HEAD..].chunks_exact(sys::ROW_LEN);
        rows.take(self.0[0] as usize).map(|row| Series {
            id: Id(row[0]),
            rows: row[1],
            nans: row[2],
            extremes: (row[1] != row[2]).then_some((Value(row[3]), Value(row[4]))),
        })
    }

    /// How many segments were counted.
    pub fn segments(&self) -> u64 {
        self.0[1]
    }

    /// What ended the report, while it goes on `None`.
    pub fn ended(&self) -> Option<Error> {
        done(self.0[2] as u32, self.0[3]).err()
    }
}

impl Default for Report {
    fn default() -> Report {
        Report::new()
    }
}
