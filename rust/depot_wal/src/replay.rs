//! Replaying a log: what each of up to 256 series had last.
//!
//! A series is entered where a series body first has its id; samples count for it, and the latest
//! is kept; tombstones mark it as deleted; a record of an unknown type is skipped, or refused where
//! the replay is strict. A record counts wholly or not at all.
//!
//! ```
//! use depot_wal::body::{Builder, Sample, Strings};
//! use depot_wal::replay::Replay;
//! use depot_wal::segment::{Writer, PAGE, RECORD_MAX};
//! use depot_wal::{Id, Time, Version};
//!
//! let (mut segment, mut body) = ([0; PAGE], [0; 64]);
//! let mut writer = Writer::new(Version::V1, &mut segment);
//! let mut series = Builder::series(&mut body)?;
//! series.push(Id(7), Strings::default())?;
//! writer.write(series.finish())?;
//! let mut samples = Builder::samples(&mut body)?;
//! samples.push(Sample { id: Id(7), time: Time(1000), value: 1.0.into() })?;
//! writer.write(samples.finish())?;
//!
//! let (mut replay, mut buffer) = (Replay::new(), [0; RECORD_MAX]);
//! replay.run(Version::V1, writer.written(), &mut buffer)?;
//! let series = replay.series().next().unwrap();
//! assert_eq!((series.id, series.rows), (Id(7), 1));
//! assert_eq!(series.last, Some((Time(1000), 1.0.into())));
//! assert_eq!(replay.good().records, 2);
//! # Ok::<(), depot_wal::Error>(())
//! ```

use crate::error::done;
use crate::segment::Buffer;
use crate::{sys, Error, Good, Id, Time, Value, Version};

/// A replay: the table of series, 10 KiB, and what was counted beside it.
#[derive(Clone, Debug)]
pub struct Replay {
    table: [u64; sys::REPLAY_LEN],
    series: usize,
    orphans: u64,
    skipped: u64,
    good: Good,
}

/// A series of a replay.
#[derive(Clone, Copy, Debug, PartialEq, Eq)]
pub struct Series {
    /// Its id.
    pub id: Id,
    /// How many of its rows were replayed.
    pub rows: u64,
    /// The latest time of these, and the value then; `None` without rows.
    pub last: Option<(Time, Value)>,
    /// A tombstone that came after that row covers its time.
    pub deleted: bool,
}

/// The call for a replay.
type Call = unsafe extern "C" fn(
    u32,
    *const u8,
    usize,
    *mut u8,
    usize,
    *mut [u64; sys::REPLAY_LEN],
    *mut [u64; 6],
) -> u32;

impl Replay {
    /// Of an empty log.
    pub fn new() -> Replay {
        Replay {
            table: [0; sys::REPLAY_LEN],
            series: 0,
            orphans: 0,
            skipped: 0,
            good: Good::default(),
        }
    }

    /// Replays the records of a segment from its start; what was there before is forgotten. Where
    /// one is refused, or torn, the replay is that of the records before.
    pub fn run(
        &mut self,
        version: Version,
        segment: &[u8],
        buffer: &mut Buffer,
    ) -> Result<(), Error> {
        self.run_by(sys::depot_wal_replay, version, segment, buffer)
    }

    /// The same, but a record of an unknown type is refused and not skipped.
    pub fn run_strict(
        &mut self,
        version: Version,
        segment: &[u8],
        buffer: &mut Buffer,
    ) -> Result<(), Error> {
        self.run_by(sys::depot_wal_replay_strict, version, segment, buffer)
    }

    fn run_by(
        &mut self,
        call: Call,
        version: Version,
        segment: &[u8],
        buffer: &mut Buffer,
    ) -> Result<(), Error> {
        let (bytes, len) = (segment.as_ptr(), segment.len());
        let (room, room_len) = (buffer.as_mut_ptr(), buffer.len());
        let (version, mut out) = (version.number(), [0; 6]);
        // SAFETY: the slices are valid for their lengths; buffer and table are borrowed for this
        // call alone.
        let number = unsafe {
            call(
                version,
                bytes,
                len,
                room,
                room_len,
                &mut self.table,
                &mut out,
            )
        };
        let [error_at, series, orphans, skipped, records, offset] = out;
        self.series = series as usize;
        self.orphans = orphans;
        self.skipped = skipped;
        self.good = Good::of([records, offset]);
        done(number, error_at)
    }

    /// The series in the order in which they were entered.
    pub fn series(&self) -> impl ExactSizeIterator<Item = Series> + '_ {
        let rows = self.table.chunks_exact(sys::ROW_LEN).take(self.series);
        rows.map(|row| Series {
            id: Id(row[0]),
            rows: row[1],
            last: (row[1] != 0).then_some((Time(row[2] as i64), Value(row[3]))),
            deleted: row[4] != 0,
        })
    }

    /// How many samples had an id that was not entered before them.
    pub fn orphans(&self) -> u64 {
        self.orphans
    }

    /// How many records were skipped, since their body type is unknown.
    pub fn skipped(&self) -> u64 {
        self.skipped
    }

    /// The records replayed, skipped ones too, and where they end.
    pub fn good(&self) -> Good {
        self.good
    }
}

impl Default for Replay {
    fn default() -> Replay {
        Replay::new()
    }
}
