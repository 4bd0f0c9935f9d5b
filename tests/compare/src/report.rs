//! The voltage report against the second program: answer, `out`, all numbers of the report, every
//! byte of the segment and of the record buffer. And against its definition over all the rows of the
//! records added.

mod broken;
mod full;
mod limit;
mod nights;
mod readings;
mod strange;

pub use nights::compare_file;
pub use readings::{any_reading, night_log};

use crate::ffi::report::{self, Numbers, HEAD_LEN, REPORT_LEN, ROW_LEN};
use crate::ffi::Answer;
use crate::generate;
use crate::rng::Rng;
use crate::twin::Twin;
use crate::Group;
use reference::body::{self, Sample};
use reference::refusal::{Refusal, BAD_PLACE};
use reference::report::{Report, Series};
use reference::segment::{self, Good, Reading, RECORD_MAX};
use reference::version::Version;
use std::collections::HashMap;

pub fn groups() -> Vec<Group> {
    vec![
        ("report, readings in every order", readings::compare_orders),
        ("report, nights of few series", nights::compare_few),
        ("report, nights of many series", nights::compare_many),
        ("report, segments in every order", nights::compare_orders),
        ("report, 1,024 segments and more", nights::compare_counts),
        ("report, full tables", full::compare_words),
        ("report, full tables at once", full::compare_at_once),
        ("report, refused bodies", broken::compare_bodies),
        ("report, cuts", broken::compare_cuts),
        ("report, damage", broken::compare_damage),
        ("report, random bytes", broken::compare_bytes),
        ("report, bad lengths", broken::compare_lengths),
        ("report, that no call handed out", strange::compare_bad),
        ("report, strange but kept to", strange::compare_strange),
        ("report, at the limit", limit::compare_limit),
    ]
}

/// Bytes of the longest segment, the limit's aside.
const ROOM: usize = 1 << 18;

/// Of a segment that differs, so many bytes are printed at most.
const SHOWN: usize = 4_096;

/// The caller-owned bytes, and the report of a night.
struct Nights {
    segment: Twin,
    buffer: Twin,
    /// The archive's report.
    numbers: Box<Numbers>,
    /// The second program's; `None` if no call handed these numbers out.
    report: Option<Report>,
    /// Id and reading of every row added, since the report was fresh; `None` if it was not.
    rows: Option<Vec<(u64, u64)>>,
    /// What a segment is read into to find its rows.
    read_buffer: Vec<u8>,
    list: Vec<Sample>,
    cases: u64,
}

impl Nights {
    fn new(rng: &mut Rng) -> Nights {
        let segment = Twin::new(rng, ROOM);
        Nights::with_segment(rng, segment)
    }

    fn with_segment(rng: &mut Rng, segment: Twin) -> Nights {
        let mut nights = Nights {
            segment,
            buffer: Twin::new(rng, RECORD_MAX + 64),
            numbers: Box::new([0; REPORT_LEN]),
            report: None,
            rows: None,
            read_buffer: vec![0; RECORD_MAX],
            list: vec![Sample::default(); RECORD_MAX],
            cases: 0,
        };
        nights.start(rng);
        nights
    }

    /// A fresh report; its rows hold anything.
    fn start(&mut self, rng: &mut Rng) {
        self.numbers.fill_with(|| rng.number());
        self.numbers[..HEAD_LEN].fill(0);
        self.report = Some(Report::new());
        self.rows = Some(Vec::new());
    }

    /// A report with these numbers.
    fn start_with(&mut self, numbers: &Numbers) {
        *self.numbers = *numbers;
        self.report = report_of(numbers);
        self.rows = None;
    }

    /// Puts a log of version 1 into the segment, at any alignment and in any version, which it hands
    /// back.
    fn put(&mut self, rng: &mut Rng, bytes: &[u8]) -> u32 {
        let version = generate::any_version(rng);
        self.put_as(rng, version, bytes);
        version.number() as u32
    }

    fn put_as(&mut self, rng: &mut Rng, version: Version, bytes: &[u8]) {
        let mut bytes = bytes.to_vec();
        generate::resum(version, &mut bytes);
        self.segment.shift(rng);
        self.buffer.shift(rng);
        self.segment.put(&bytes);
        if rng.once_in(8) {
            self.buffer.refill(rng);
        }
    }

    /// Puts a log into the segment and adds it whole.
    fn add_log(&mut self, rng: &mut Rng, bytes: &[u8]) -> Result<Answer<1>, String> {
        let version = self.put(rng, bytes);
        self.add(version, bytes.len())
    }

    /// Adds the first `length` bytes of the segment.
    fn add(&mut self, version: u32, length: usize) -> Result<Answer<1>, String> {
        self.add_by(version, length, RECORD_MAX)
    }

    /// The same with the first `room` bytes of the buffer.
    fn add_by(&mut self, version: u32, length: usize, room: usize) -> Result<Answer<1>, String> {
        self.cases += 1;
        let before = self.numbers.clone();
        let ended = self
            .report
            .as_ref()
            .is_none_or(|report| report.ended().is_some());
        let (ours, theirs) = self.segment.both(0..length);
        let (our_buffer, their_buffer) = self.buffer.both(0..room);
        let got = report::add_segment(version, ours, our_buffer, &mut self.numbers);
        let wanted = match &mut self.report {
            None => Answer::new(BAD_PLACE, [0]),
            Some(report) => answer_of(report.add_segment(version.into(), theirs, their_buffer)),
        };
        if !ended {
            self.add_rows(version, length, got);
        }
        self.compare(&before, length, got, wanted).map_err(|why| {
            let bytes = self.segment.bytes(0..length.min(SHOWN));
            let what = format!("version {version}, {length} bytes into {room}");
            format!(
                "{what}, report {:?}: {why}; the bytes are {bytes:02X?}",
                &before[..HEAD_LEN]
            )
        })?;
        if self.rows.is_none() {
            // Where a NaN is stored as an extreme, from what the archive made of it.
            self.report = report_of(&self.numbers);
        }
        Ok(got)
    }

    fn compare(
        &self,
        before: &Numbers,
        length: usize,
        got: Answer<1>,
        wanted: Answer<1>,
    ) -> Result<(), String> {
        if got != wanted {
            return Err(format!("got {got:?}, wanted {wanted:?}"));
        }
        let numbers = match &self.report {
            None => *before,
            Some(report) => numbers_of(report, before),
        };
        compare_numbers(before, &self.numbers, &numbers)?;
        if let Some(rows) = &self.rows {
            compare_series(&self.numbers, &define(rows))?;
        }
        for (name, twin, end) in [
            ("segment", &self.segment, length),
            ("buffer", &self.buffer, usize::MAX),
        ] {
            if !twin.equal_to(end) {
                let place = twin.first_difference();
                return Err(format!("{name} differs at {place:?}"));
            }
        }
        Ok(())
    }

    /// The rows of the records that come out before the answer's place, or of all.
    fn add_rows(&mut self, version: u32, length: usize, got: Answer<1>) {
        let (Some(rows), Ok(version)) = (&mut self.rows, Version::of(version.into())) else {
            return;
        };
        let bytes = self.segment.bytes(0..length);
        let buffer = &mut self.read_buffer;
        let good = &mut Good::default();
        while let Ok(Reading::Record(record)) =
            segment::read(version, bytes, good.offset, buffer, good)
        {
            if got.number != 0 && record.start as u64 >= got.out[0] {
                return;
            }
            // What is no body of samples has no rows here.
            let filled = body::fill_samples(&buffer[..record.length], &mut self.list);
            let filled = &self.list[..filled.unwrap_or(0)];
            rows.extend(filled.iter().map(|row| (row.id.0, row.bits)));
        }
    }
}

/// What `depot_wal_report_segment` has to answer.
fn answer_of(added: Result<(), Refusal>) -> Answer<1> {
    match added {
        Ok(()) => Answer::new(0, [0]),
        Err(refusal) => Answer::new(refusal.number, [refusal.place as u64]),
    }
}

// ---- Reports as numbers ----

fn row_of(series: &Series) -> [u64; ROW_LEN] {
    let (id, rows, nans) = (series.id.0, series.rows, series.nans);
    [
        id,
        rows,
        nans,
        series.smallest.to_bits(),
        series.largest.to_bits(),
    ]
}

/// The report as the archive has it; the rows behind its series are as before.
fn numbers_of(report: &Report, before: &Numbers) -> Numbers {
    let mut numbers = *before;
    let ended = report
        .ended()
        .map_or([0, 0], |ended| [ended.number.into(), ended.place as u64]);
    let head = [
        report.series().len() as u64,
        report.segments() as u64,
        ended[0],
        ended[1],
    ];
    numbers[..HEAD_LEN].copy_from_slice(&head);
    let rows = numbers[HEAD_LEN..].chunks_exact_mut(ROW_LEN);
    for (row, series) in rows.zip(report.series()) {
        row.copy_from_slice(&row_of(series));
    }
    numbers
}

/// The second program's report of these numbers; `None` if they break the limits of every report.
fn report_of(numbers: &Numbers) -> Option<Report> {
    let [series, segments, number, place] = numbers[..HEAD_LEN] else {
        unreachable!("a head has four numbers")
    };
    if series > 256 || segments > 1_024 || ![0, 1, 28].contains(&number) {
        return None;
    }
    let (number, place) = (number as u32, place as usize);
    let ended = (number != 0).then_some(Refusal { number, place });
    let rows = numbers[HEAD_LEN..].chunks_exact(ROW_LEN);
    let all = rows.take(series as usize).map(|row| Series {
        id: body::SeriesId(row[0]),
        rows: row[1],
        nans: row[2],
        smallest: f64::from_bits(row[3]),
        largest: f64::from_bits(row[4]),
    });
    Some(Report::given(all.collect(), segments as usize, ended))
}

fn compare_numbers(before: &Numbers, got: &Numbers, wanted: &Numbers) -> Result<(), String> {
    if got[..HEAD_LEN] != wanted[..HEAD_LEN] {
        let (got, wanted) = (&got[..HEAD_LEN], &wanted[..HEAD_LEN]);
        return Err(format!("the head is {got:?}, wanted {wanted:?}"));
    }
    let rows = |numbers: &Numbers| -> Vec<[u64; ROW_LEN]> {
        let rows = numbers[HEAD_LEN..].chunks_exact(ROW_LEN);
        rows.map(|row| row.try_into().expect("five numbers"))
            .collect()
    };
    let (before, got, wanted) = (rows(before), rows(got), rows(wanted));
    for row in 0..got.len() {
        let equal = |at: usize| {
            // A NaN that is stored as an extreme is kept, or gives way to a reading.
            let free = is_nan(before[row][at]) && at >= 3 && !is_nan(got[row][at]);
            got[row][at] == wanted[row][at] || free && before[row][..3] != wanted[row][..3]
        };
        if !(0..ROW_LEN).all(equal) {
            let (got, wanted) = (got[row], wanted[row]);
            return Err(format!("row {row} is {got:X?}, wanted {wanted:X?}"));
        }
    }
    Ok(())
}

fn is_nan(bits: u64) -> bool {
    f64::from_bits(bits).is_nan()
}

// ---- The definition ----

/// The series by their definition over all rows added: an extreme is the first reading that is equal
/// to the least, or the greatest, of all.
fn define(rows: &[(u64, u64)]) -> Vec<[u64; ROW_LEN]> {
    let mut order = Vec::new();
    let mut all: HashMap<u64, Vec<f64>> = HashMap::new();
    for &(id, bits) in rows {
        let readings = all.entry(id).or_insert_with(|| {
            order.push(id);
            Vec::new()
        });
        readings.push(f64::from_bits(bits));
    }
    let row = |&id: &u64| {
        let readings = &all[&id];
        let nans = readings.iter().filter(|reading| reading.is_nan()).count();
        let least = readings.iter().copied().fold(f64::INFINITY, f64::min);
        let greatest = readings.iter().copied().fold(f64::NEG_INFINITY, f64::max);
        let first = |extreme: f64| {
            let found = readings.iter().find(|&&reading| reading == extreme);
            found.map_or(0, |reading| reading.to_bits())
        };
        let count = readings.len() as u64;
        [id, count, nans as u64, first(least), first(greatest)]
    };
    order.iter().map(row).collect()
}

fn compare_series(numbers: &Numbers, wanted: &[[u64; ROW_LEN]]) -> Result<(), String> {
    let rows = numbers[HEAD_LEN..].chunks_exact(ROW_LEN);
    let got: Vec<&[u64]> = rows.take(numbers[0] as usize).collect();
    match got == wanted {
        true => Ok(()),
        false => Err(format!("by the definition: {wanted:X?}, and not {got:X?}")),
    }
}
