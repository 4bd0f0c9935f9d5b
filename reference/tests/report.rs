//! The voltage report (document 02 [12]): each rule by a small night, generated nights against the
//! definition over all rows added, and the lines of the program over files.

mod rng;

use reference::body::{self, NewEntry, Sample, SeriesId, Strings, Timestamp, SAMPLES, SERIES};
use reference::refusal::*;
use reference::report::{Report, SEGMENTS_MAX};
use reference::reporting;
use reference::segment::{self, Good, Reading, PAGE, RECORD_MAX, SEGMENT_MAX};
use reference::version::Version::{self, One, Two};
use rng::Rng;
use std::ffi::OsString;
use std::fs::{self, File};
use std::path::PathBuf;

// ---- Segments ----

/// A body of samples: ids and the bits of readings.
fn samples(rows: &[(u64, u64)]) -> Vec<u8> {
    let mut buffer = vec![0; RECORD_MAX];
    let mut state = body::start(&mut buffer, SAMPLES).expect("a known type");
    for &(id, bits) in rows {
        let (id, time) = (SeriesId(id), Timestamp(1_000));
        let entry = NewEntry::Sample(Sample { id, time, bits });
        state = body::add(&mut buffer, state, &entry).expect("it fits");
    }
    buffer.truncate(state.used);
    buffer
}

/// A body that enters a series.
fn series(id: u64) -> Vec<u8> {
    let (text, lengths) = (&[][..], &[][..]);
    let mut buffer = vec![0; 64];
    let state = body::start(&mut buffer, SERIES).expect("a known type");
    let entry = NewEntry::Series(SeriesId(id), Strings { text, lengths });
    let state = body::add(&mut buffer, state, &entry).expect("it fits");
    buffer.truncate(state.used);
    buffer
}

/// A segment with these records, cut after the last, and where each starts.
fn segment_of(version: Version, bodies: &[Vec<u8>]) -> (Vec<u8>, Vec<usize>) {
    let mut segment = vec![0; 8 * PAGE];
    let mut place = 0;
    let mut starts = Vec::new();
    for body in bodies {
        starts.push(place);
        place = segment::write(version, &mut segment, place, body).expect("it fits");
    }
    segment.truncate(place);
    (segment, starts)
}

fn bytes_of(bodies: &[Vec<u8>]) -> Vec<u8> {
    segment_of(One, bodies).0
}

fn add(report: &mut Report, version: Version, segment: &[u8]) -> Result<(), Refusal> {
    report.add_segment(version.number(), segment, &mut vec![0; RECORD_MAX])
}

/// Id, rows, NaN rows and the bits of both extremes.
type Line = (u64, u64, u64, u64, u64);

fn lines(report: &Report) -> Vec<Line> {
    let series = report.series().iter();
    let line = series.map(|series| {
        let extremes = (series.smallest.to_bits(), series.largest.to_bits());
        (
            series.id.0,
            series.rows,
            series.nans,
            extremes.0,
            extremes.1,
        )
    });
    line.collect()
}

const ONE: u64 = 0x3FF0_0000_0000_0000;
const TWO: u64 = 0x4000_0000_0000_0000;
const MINUS_ONE: u64 = 0xBFF0_0000_0000_0000;
const MINUS_ZERO: u64 = 1 << 63;
const INFINITY: u64 = 0x7FF0_0000_0000_0000;
const MINUS_INFINITY: u64 = 0xFFF0_0000_0000_0000;

/// Quiet and signalling, of both signs, with the smallest and the largest of what they carry.
const NANS: [u64; 6] = [
    0x7FF8_0000_0000_0000,
    0x7FF0_0000_0000_0001,
    0x7FFF_FFFF_FFFF_FFFF,
    0xFFF8_0000_0000_0000,
    0xFFF0_0000_0000_0001,
    u64::MAX,
];

/// The one series of a night with these readings.
fn night_of(readings: &[u64]) -> Line {
    let rows: Vec<(u64, u64)> = readings.iter().map(|&bits| (7, bits)).collect();
    let mut report = Report::new();
    assert_eq!(add(&mut report, One, &bytes_of(&[samples(&rows)])), Ok(()));
    lines(&report)[0]
}

// ---- Readings ----

#[test]
fn the_smallest_and_the_largest() {
    assert_eq!(night_of(&[ONE]), (7, 1, 0, ONE, ONE));
    assert_eq!(night_of(&[ONE, TWO, MINUS_ONE]), (7, 3, 0, MINUS_ONE, TWO));
    let all = [INFINITY, ONE, MINUS_INFINITY, 1];
    assert_eq!(night_of(&all), (7, 4, 0, MINUS_INFINITY, INFINITY));
    // The smallest number above 0, and the one below it.
    assert_eq!(night_of(&[1, MINUS_ZERO | 1]), (7, 2, 0, MINUS_ZERO | 1, 1));
}

#[test]
fn equal_readings_keep_the_first() {
    assert_eq!(night_of(&[0, MINUS_ZERO]), (7, 2, 0, 0, 0));
    let minus_first = (7, 2, 0, MINUS_ZERO, MINUS_ZERO);
    assert_eq!(night_of(&[MINUS_ZERO, 0]), minus_first);
    assert_eq!(night_of(&[ONE, MINUS_ZERO, 0]), (7, 3, 0, MINUS_ZERO, ONE));
    assert_eq!(
        night_of(&[MINUS_ONE, 0, MINUS_ZERO]),
        (7, 3, 0, MINUS_ONE, 0)
    );
}

#[test]
fn nan_rows_are_counted_only() {
    for nan in NANS {
        assert_eq!(night_of(&[nan]), (7, 1, 1, 0, 0));
        assert_eq!(night_of(&[nan, TWO, nan]), (7, 3, 2, TWO, TWO));
        assert_eq!(night_of(&[nan, MINUS_ZERO, 0]).3, MINUS_ZERO);
    }
    assert_eq!(night_of(&NANS), (7, 6, 6, 0, 0));
}

// ---- Segments that are refused ----

#[test]
fn a_refused_segment_adds_what_is_before() {
    let good = samples(&[(7, ONE)]);
    let mut short = samples(&[(7, TWO), (9, TWO)]);
    short.pop();
    let mut report = Report::new();
    // The ids of a refused body are not met: 9 comes after 8 in the end.
    let (bytes, starts) = segment_of(One, &[good.clone(), short, good.clone()]);
    assert_eq!(add(&mut report, One, &bytes), refuse(SHORT, starts[1]));
    // A body of another type is checked too; a type that is not known is skipped.
    let (bytes, starts) = segment_of(Two, &[vec![5, 1], good.clone(), vec![SERIES, 0]]);
    assert_eq!(add(&mut report, Two, &bytes), refuse(SHORT, starts[2]));
    let (bytes, starts) = segment_of(Two, &[good.clone(), samples(&[(8, ONE)])]);
    let torn = &bytes[..bytes.len() - 1];
    assert_eq!(add(&mut report, Two, torn), refuse(TORN, starts[1]));
    // The other version; no version; a segment that is too long; a short buffer.
    assert_eq!(add(&mut report, One, &bytes), refuse(BAD_SUM, 0));
    for number in [0, 3, 1 << 32 | 1] {
        let refused = report.add_segment(number, &bytes, &mut vec![0; RECORD_MAX]);
        assert_eq!(refused, refuse(BAD_NAME, 0));
    }
    assert_eq!(
        add(&mut report, Two, &vec![0; SEGMENT_MAX + 1]),
        refuse(BAD_BUFFER, 0)
    );
    let short = &mut vec![0; RECORD_MAX - 1];
    assert_eq!(report.add_segment(2, &bytes, short), refuse(BAD_BUFFER, 0));
    assert_eq!(lines(&report), [(7, 3, 0, ONE, ONE)]);
    assert_eq!((report.segments(), report.ended()), (9, None));

    assert_eq!(add(&mut report, Two, &bytes), Ok(()));
    assert_eq!(
        add(&mut report, One, &bytes_of(&[samples(&[(9, ONE)])])),
        Ok(())
    );
    let ids: Vec<u64> = lines(&report).iter().map(|line| line.0).collect();
    assert_eq!(ids, [7, 8, 9]);
}

#[test]
fn series_of_series_bodies_are_not_met() {
    let mut report = Report::new();
    let bytes = bytes_of(&[series(3), samples(&[(4, ONE)])]);
    assert_eq!(add(&mut report, One, &bytes), Ok(()));
    assert_eq!(lines(&report), [(4, 1, 0, ONE, ONE)]);
}

#[test]
fn a_257th_series_ends_it() {
    let all: Vec<(u64, u64)> = (0..256).map(|id| (id, ONE)).collect();
    let mut report = Report::new();
    let mut short = samples(&[(1_000, TWO)]);
    short.pop();
    let bodies = [samples(&all), samples(&[(5, TWO)]), short];
    let (bytes, starts) = segment_of(One, &bodies);
    // The body's number comes before 28.
    assert_eq!(add(&mut report, One, &bytes), refuse(SHORT, starts[2]));
    assert_eq!(report.ended(), None);
    // A record that brings it is not added, nor is its row of a known id.
    let full = samples(&[(6, TWO), (256, TWO), (6, TWO)]);
    let (bytes, starts) = segment_of(Two, &[samples(&[(5, MINUS_ONE)]), full]);
    let refused = refuse(TABLE_FULL, starts[1]);
    assert_eq!(add(&mut report, Two, &bytes), refused);
    assert_eq!(report.segments(), 2);
    for _ in 0..3 {
        assert_eq!(add(&mut report, One, &[]), refused);
        let short = report.add_segment(9, &[9], &mut []);
        assert_eq!(short, refused);
    }
    let lines = lines(&report);
    assert_eq!(lines.len(), 256);
    assert_eq!(lines[5], (5, 3, 0, MINUS_ONE, TWO));
    assert_eq!(lines[6], (6, 1, 0, ONE, ONE));
    assert_eq!(report.segments(), 2);
}

#[test]
fn a_1025th_segment_ends_it() {
    let mut report = Report::new();
    let bytes = bytes_of(&[samples(&[(7, ONE)])]);
    for count in 0..SEGMENTS_MAX as u64 {
        // Every second one has no version, and counts.
        let added = report.add_segment(count % 2, &bytes, &mut vec![0; RECORD_MAX]);
        assert_eq!(added.is_ok(), count % 2 == 1);
    }
    for _ in 0..2 {
        assert_eq!(add(&mut report, One, &bytes), refuse(BAD_BUFFER, 0));
        let refusal = report.ended().expect("it has ended");
        assert_eq!((refusal.number, refusal.place), (BAD_BUFFER, 0));
    }
    assert_eq!(lines(&report), [(7, 512, 0, ONE, ONE)]);
    assert_eq!(report.segments(), SEGMENTS_MAX);
}

// ---- The definition ----

/// The report by its definition over all rows added: an extreme is the first reading that no other
/// is below, or above.
fn define(rows: &[(u64, u64)]) -> Vec<Line> {
    let mut ids: Vec<u64> = Vec::new();
    for &(id, _) in rows {
        if !ids.contains(&id) {
            ids.push(id);
        }
    }
    let line = |&id: &u64| {
        let all = rows.iter().filter(|row| row.0 == id);
        let all: Vec<f64> = all.map(|row| f64::from_bits(row.1)).collect();
        let readings: Vec<f64> = all
            .iter()
            .copied()
            .filter(|value| !value.is_nan())
            .collect();
        let first = |beyond: fn(f64, f64) -> bool| {
            let is_first = |one: &&f64| !readings.iter().any(|&other| beyond(other, **one));
            readings
                .iter()
                .find(is_first)
                .map_or(0, |one| one.to_bits())
        };
        let nans = (all.len() - readings.len()) as u64;
        let extremes = (first(|a, b| a < b), first(|a, b| a > b));
        (id, all.len() as u64, nans, extremes.0, extremes.1)
    };
    ids.iter().map(line).collect()
}

fn any_bits(rng: &mut Rng) -> u64 {
    match rng.below(6) {
        0 => rng.pick(&NANS),
        1 => rng.pick(&[0, MINUS_ZERO]),
        2 => rng.pick(&[INFINITY, MINUS_INFINITY, 1, MINUS_ZERO | 1]),
        3 => rng.next(),
        _ => rng.pick(&[ONE, TWO, MINUS_ONE]),
    }
}

/// The rows of the records that come out before the answer's place, read one by one.
fn rows_before(version: Version, segment: &[u8], answer: Result<(), Refusal>) -> Vec<(u64, u64)> {
    let mut rows = Vec::new();
    let mut good = Good::default();
    let mut buffer = vec![0; RECORD_MAX];
    while let Ok(Reading::Record(record)) =
        segment::read(version, segment, good.offset, &mut buffer, &mut good)
    {
        if answer.is_err_and(|refusal| refusal.place <= record.start) {
            break;
        }
        let mut list = vec![Sample::default(); RECORD_MAX];
        if let Ok(count) = body::fill_samples(&buffer[..record.length], &mut list) {
            rows.extend(list[..count].iter().map(|row| (row.id.0, row.bits)));
        }
    }
    rows
}

#[test]
fn generated_nights() {
    let mut rng = Rng(12);
    let mut ended = 0;
    for night in 0..300 {
        let ids = rng.pick(&[3, 3, 3, 200, 280]);
        let mut report = Report::new();
        let mut rows = Vec::new();
        for _ in 0..1 + rng.below(6) {
            let version = rng.pick(&[One, Two]);
            let bodies: Vec<Vec<u8>> = (0..rng.below(20))
                .map(|_| any_body(&mut rng, ids))
                .collect();
            let (mut segment, _) = segment_of(version, &bodies);
            if rng.once_in(3) {
                segment.truncate(rng.below(segment.len() + 1));
            }
            let before = report.ended();
            let answer = add(&mut report, version, &segment);
            if before.is_none() {
                rows.extend(rows_before(version, &segment, answer));
            }
        }
        assert_eq!(lines(&report), define(&rows), "night {night}");
        ended += usize::from(report.ended().is_some());
    }
    assert!((10..200).contains(&ended), "{ended} nights ended");
}

fn any_body(rng: &mut Rng, ids: usize) -> Vec<u8> {
    match rng.below(24) {
        0 => series(rng.below(ids) as u64),
        1 => vec![rng.pick(&[0, 5, 9, 255])],
        2 if rng.once_in(4) => vec![SAMPLES, 0],
        _ => {
            let count = rng.below(ids.min(60));
            let mut row = || (rng.below(ids) as u64, any_bits(rng));
            samples(&(0..count).map(|_| row()).collect::<Vec<_>>())
        }
    }
}

// ---- The program ----

/// A folder of its own, gone in the end.
struct Folder(PathBuf);

impl Folder {
    fn new(name: &str) -> Folder {
        let name = format!("depot_wal_{name}_{}", std::process::id());
        let folder = Folder(std::env::temp_dir().join(name));
        fs::create_dir(&folder.0).expect("a new folder");
        folder
    }

    fn put(&self, name: &str, bytes: &[u8]) -> OsString {
        let path = self.0.join(name);
        fs::write(&path, bytes).expect("a new file");
        path.into()
    }
}

impl Drop for Folder {
    fn drop(&mut self) {
        let _ = fs::remove_dir_all(&self.0);
    }
}

#[test]
fn lines_of_the_program() {
    let folder = Folder::new("report_lines");
    let one = bytes_of(&[samples(&[(7, ONE), (8, NANS[0])])]);
    let two = segment_of(Two, &[samples(&[(7, MINUS_ZERO), (8, NANS[5])])]).0;
    let night = [
        folder.put("000001", &one),
        folder.put("000002-v2", &two),
        folder.put("000003", &two),
        folder.put("000004-v1", &one[..43]),
        folder.put("5", &one),
        folder.0.join("000006").into(),
        folder.0.clone().into(),
        OsString::new(),
    ];
    fs::create_dir(folder.0.join("000007")).expect("a new folder");
    let night = [&night[..], &[folder.0.join("000007").into()]].concat();
    let wanted = "\
segment 3 10 0
segment 4 12 0
segment 5 30 0
segment 6 30 0
segment 7 30 0
segment 8 30 0
segment 9 30 0
series 7 2 0 8000000000000000 3ff0000000000000
series 8 2 2 none
";
    assert_eq!(reporting::text(&night), wanted);
    assert_eq!(reporting::text(&[]), "");
}

#[test]
fn the_program_at_its_limits() {
    let folder = Folder::new("report_limits");
    let good = folder.put("000001", &bytes_of(&[samples(&[(7, ONE)])]));
    let long = folder.put("000002", &[]);
    let file = File::options()
        .write(true)
        .open(&long)
        .expect("it is there");
    file.set_len(SEGMENT_MAX as u64 + 1).expect("zeros");
    let text = reporting::text(&[good.clone(), long.clone(), good.clone()]);
    let series = |rows: usize| format!("series 7 {rows} 0 3ff0000000000000 3ff0000000000000\n");
    assert_eq!(text, format!("segment 2 1 0\n{}", series(2)));
    file.set_len(SEGMENT_MAX as u64).expect("zeros");
    assert_eq!(reporting::text(&[long, good.clone()]), series(1));

    // The 1,025th is printed whatever it is, and nothing after it.
    let missing: OsString = folder.0.join("000009").into();
    let mut night = vec![good.clone(); SEGMENTS_MAX];
    assert_eq!(reporting::text(&night), series(1_024));
    night.extend([missing.clone(), missing.clone(), good.clone()]);
    let ended = format!("segment 1025 1 0\n{}", series(1_024));
    assert_eq!(reporting::text(&night), ended);

    // So is a 257th series.
    let all: Vec<(u64, u64)> = (0..256).map(|id| (id, ONE)).collect();
    let full = folder.put("000003", &bytes_of(&[samples(&all), samples(&[(256, 0)])]));
    let text = reporting::text(&[missing.clone(), full.clone(), full, missing]);
    let lines: Vec<&str> = text.lines().collect();
    assert_eq!(lines[0], "segment 1 30 0");
    let place = samples(&all).len() + 7;
    assert_eq!(lines[1], format!("segment 2 28 {place}"));
    assert_eq!(lines[2], "series 0 1 0 3ff0000000000000 3ff0000000000000");
    assert_eq!(lines.len(), 2 + 256);
}
