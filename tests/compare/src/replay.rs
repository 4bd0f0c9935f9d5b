//! Replay against the second program, by default and strictly: answer, `out` with the good length,
//! all numbers of the table, every byte of the segment and of the record buffer. And against the
//! log itself: each sample row is counted once, each record that is skipped and each that is
//! replayed.

mod broken;
mod corpus;
mod full;
mod limit;
mod times;

pub use corpus::compare_file;

use crate::ffi::replay::{self, SeriesTable, OUT_LEN, REPLAY_LEN, ROW_LEN};
use crate::ffi::Answer;
use crate::generate;
use crate::rng::Rng;
use crate::twin::Twin;
use crate::Group;
use reference::body::{self, SeriesId, Timestamp, SAMPLES};
use reference::refusal::{BAD_BUFFER, BAD_RANGE, BAD_VARINT, SHORT, TABLE_FULL, UNKNOWN_TYPE};
use reference::replay::{Replayed, Row, Table, SERIES_MAX};
use reference::segment::{self, Good, Reading, RECORD_MAX};
use reference::version::Version;

pub fn groups() -> Vec<Group> {
    vec![
        ("replay, few series", corpus::compare_few),
        ("replay, many series", corpus::compare_many),
        ("replay, rows and tombstones", times::compare_times),
        ("replay, full tables", full::compare_words),
        ("replay, full tables at once", full::compare_at_once),
        ("replay, refused bodies", broken::compare_bodies),
        ("replay, random bodies", broken::compare_noise),
        ("replay, cuts", broken::compare_cuts),
        ("replay, zeros after a cut", broken::compare_zeros),
        ("replay, damage", broken::compare_damage),
        ("replay, random bytes", broken::compare_bytes),
        ("replay, bad lengths", broken::compare_lengths),
        ("replay, at the limit", limit::compare_limit),
    ]
}

/// Bytes of the longest log, the limit's aside.
const ROOM: usize = 1 << 18;

/// Of a log that differs, so many bytes are printed at most.
const SHOWN: usize = 4_096;

/// What becomes of a body whose type is not known.
#[derive(Clone, Copy, Debug, PartialEq, Eq)]
enum Mode {
    Default,
    Strict,
}

/// The caller-owned bytes and numbers, used again from case to case.
struct Replays {
    segment: Twin,
    /// What it is read as.
    version: Version,
    buffer: Twin,
    /// What both tables hold before every call.
    noise: Box<SeriesTable>,
    /// What the log is read into to count its rows.
    count_buffer: Vec<u8>,
    cases: u64,
}

impl Replays {
    fn new(rng: &mut Rng) -> Replays {
        let segment = Twin::new(rng, ROOM);
        Replays::with_segment(rng, segment)
    }

    fn with_segment(rng: &mut Rng, segment: Twin) -> Replays {
        let mut replays = Replays {
            segment,
            version: Version::One,
            buffer: Twin::new(rng, RECORD_MAX + 64),
            noise: Box::new([0; REPLAY_LEN]),
            count_buffer: vec![0; RECORD_MAX],
            cases: 0,
        };
        replays.refill_table(rng);
        replays
    }

    fn refill_table(&mut self, rng: &mut Rng) {
        self.noise.fill_with(|| rng.number());
    }

    /// Puts a log of version 1 into the segment, at any alignment and in any version.
    fn put(&mut self, rng: &mut Rng, bytes: &[u8]) {
        let mut bytes = bytes.to_vec();
        self.version = generate::any_version(rng);
        generate::resum(self.version, &mut bytes);
        self.segment.shift(rng);
        self.buffer.shift(rng);
        self.segment.put(&bytes);
        if rng.once_in(8) {
            self.buffer.refill(rng);
            self.refill_table(rng);
        }
    }

    /// Puts a log into the segment and replays it whole.
    fn replay_log(&mut self, rng: &mut Rng, bytes: &[u8]) -> Result<Answer<OUT_LEN>, String> {
        self.put(rng, bytes);
        self.replay(bytes.len())
    }

    /// Replays the first `length` bytes of the segment.
    fn replay(&mut self, length: usize) -> Result<Answer<OUT_LEN>, String> {
        self.replay_into(length, RECORD_MAX)
    }

    /// The same with the first `room` bytes of the buffer: strictly, and by default, of which the
    /// answer is handed back.
    fn replay_into(&mut self, length: usize, room: usize) -> Result<Answer<OUT_LEN>, String> {
        self.replay_as(Mode::Strict, length, room)?;
        self.replay_as(Mode::Default, length, room)
    }

    fn replay_as(
        &mut self,
        mode: Mode,
        length: usize,
        room: usize,
    ) -> Result<Answer<OUT_LEN>, String> {
        self.cases += 1;
        let (ours, theirs) = self.segment.both(0..length);
        let (our_buffer, their_buffer) = self.buffer.both(0..room);
        let mut table = *self.noise;
        let mut rows = rows_of(&self.noise);
        let (version, number) = (self.version, self.version.number() as u32);
        let (got, wanted) = match mode {
            Mode::Default => (
                replay::replay(number, ours, our_buffer, &mut table),
                reference::replay::replay(version, theirs, their_buffer, &mut rows),
            ),
            Mode::Strict => (
                replay::replay_strict(number, ours, our_buffer, &mut table),
                reference::replay::replay_strict(version, theirs, their_buffer, &mut rows),
            ),
        };
        self.compare_answers(got, replay_answer(&wanted))
            .and_then(|()| compare_tables(&self.noise, &table, &rows[..wanted.series]))
            .and_then(|()| left_behind(&self.noise, &rows, wanted.series))
            .and_then(|()| self.compare_bytes(length))
            .and_then(|()| self.count_again(mode, length, got, &table))
            .map_err(|why| {
                let log = self.segment.bytes(0..length.min(SHOWN));
                let what =
                    format!("{mode:?} replay of {length} bytes into {room}, version {number}");
                format!("{what}: {why}; the log is {log:02X?}")
            })?;
        Ok(got)
    }

    fn compare_answers(&self, got: Answer<OUT_LEN>, wanted: Answer<OUT_LEN>) -> Result<(), String> {
        match got == wanted {
            true => Ok(()),
            false => Err(format!("got {got:?}, wanted {wanted:?}")),
        }
    }

    /// Every byte that was lent, with the guards around them.
    fn compare_bytes(&self, length: usize) -> Result<(), String> {
        for (name, twin, end) in [
            ("segment", &self.segment, length),
            ("buffer", &self.buffer, usize::MAX),
        ] {
            if !twin.equal_to(end) {
                let place = twin.first_difference();
                return Err(format!("{name} differs at {place:?}"));
            }
        }
        Ok(())
    }

    /// Rows counted over all series plus orphans equal the sample rows in the records replayed,
    /// records skipped are those of types that are not known, and the good length is that of the
    /// records replayed: all counted from the log itself.
    fn count_again(
        &mut self,
        mode: Mode,
        length: usize,
        got: Answer<OUT_LEN>,
        table: &SeriesTable,
    ) -> Result<(), String> {
        let [_, series, orphans, skipped, records, end] = got.out;
        let rows = table.chunks_exact(ROW_LEN).map(|row| row[1]);
        let rows = rows.take(series as usize).sum::<u64>() + orphans;
        let counted = Counts {
            rows,
            skipped,
            records,
            end,
        };
        let present = self.counts_in_log(mode, length, got)?;
        if counted != present {
            return Err(format!("counted {counted:?}, in the log {present:?}"));
        }
        Ok(())
    }

    /// Of the records before the one that the answer refuses, or of all.
    fn counts_in_log(
        &mut self,
        mode: Mode,
        length: usize,
        got: Answer<OUT_LEN>,
    ) -> Result<Counts, String> {
        let mut counts = Counts::default();
        if got.number == BAD_BUFFER {
            return Ok(counts);
        }
        let refused = is_of_record(got.number).then_some(got.out[0] as usize);
        let bytes = self.segment.bytes(0..length);
        let buffer = &mut self.count_buffer;
        let good = &mut Good::default();
        while let Ok(Reading::Record(record)) =
            segment::read(self.version, bytes, good.offset, buffer, good)
        {
            if refused == Some(record.start) {
                return Ok(counts);
            }
            counts
                .add(mode, &buffer[..record.length])
                .map_err(|why| format!("the record at {} was replayed: {why}", record.start))?;
            counts.end = record.after as u64;
        }
        match refused {
            None => Ok(counts),
            Some(start) => Err(format!("no record starts at {start}")),
        }
    }
}

/// What is counted from a log itself.
#[derive(Clone, Copy, Debug, Default, PartialEq, Eq)]
struct Counts {
    rows: u64,
    skipped: u64,
    /// Records replayed, and the offset after the last.
    records: u64,
    end: u64,
}

impl Counts {
    /// A body that was replayed: it is good, or skipped. It has rows in one type only.
    fn add(&mut self, mode: Mode, bytes: &[u8]) -> Result<(), String> {
        self.records += 1;
        match body::check(bytes) {
            Ok(entries) if bytes[0] == SAMPLES => self.rows += entries as u64,
            Ok(_) => {}
            Err(refusal) if refusal.number == UNKNOWN_TYPE && mode == Mode::Default => {
                self.skipped += 1;
            }
            Err(refusal) => return Err(format!("its body is {refusal:?}")),
        }
        Ok(())
    }
}

/// The numbers that refuse a record which was read.
fn is_of_record(number: u32) -> bool {
    matches!(
        number,
        UNKNOWN_TYPE | SHORT | BAD_VARINT | BAD_RANGE | TABLE_FULL
    )
}

/// What `depot_wal_replay` has to answer.
fn replay_answer(replayed: &Replayed) -> Answer<OUT_LEN> {
    let (number, place) = match replayed.refusal {
        None => (0, 0),
        Some(refusal) => (refusal.number, refusal.place),
    };
    let (series, orphans, skipped) = (replayed.series, replayed.orphans, replayed.skipped);
    let Good { records, offset } = replayed.good;
    let [place, series, offset] = [place, series, offset].map(|number| number as u64);
    Answer::new(number, [place, series, orphans, skipped, records, offset])
}

// ---- Tables ----

/// The rows of the second program as near to these numbers as they come.
fn rows_of(numbers: &SeriesTable) -> Table {
    let mut rows = [Row::default(); SERIES_MAX];
    for (row, numbers) in rows.iter_mut().zip(numbers.chunks_exact(ROW_LEN)) {
        *row = Row {
            id: SeriesId(numbers[0]),
            rows: numbers[1],
            latest: Timestamp(numbers[2] as i64),
            bits: numbers[3],
            deleted: numbers[4] % 2 == 1,
        };
    }
    rows
}

/// A row as the archive has it.
pub fn numbers_of(row: &Row) -> [u64; ROW_LEN] {
    let deleted = u64::from(row.deleted);
    [row.id.0, row.rows, row.latest.0 as u64, row.bits, deleted]
}

/// The archive's table has these series, and after them what was there before.
fn compare_tables(before: &SeriesTable, table: &SeriesTable, series: &[Row]) -> Result<(), String> {
    let got = table.chunks_exact(ROW_LEN);
    let old = before.chunks_exact(ROW_LEN);
    for (row, (got, old)) in got.zip(old).enumerate() {
        let wanted = series.get(row).map(numbers_of);
        if got != wanted.as_ref().map_or(old, |numbers| &numbers[..]) {
            let wanted = wanted.map_or("as before".into(), |numbers| format!("{numbers:?}"));
            return Err(format!("row {row} is {got:?}, wanted {wanted}"));
        }
    }
    Ok(())
}

/// The second program too has left the rows after its series.
fn left_behind(before: &SeriesTable, rows: &Table, series: usize) -> Result<(), String> {
    match rows[series..] == rows_of(before)[series..] {
        true => Ok(()),
        false => Err("the second program wrote after its series".to_string()),
    }
}
