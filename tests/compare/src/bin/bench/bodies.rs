//! Bodies built, read and checked.

use crate::timing::{self, Rounds};
use compare::ffi::bare;
use reference::body::{
    self, NewEntry, Sample, SeriesId, State, Timestamp, BODY_MAX, HISTOGRAMS, SAMPLES,
};
use reference::histogram::{NewHistogram, Spans};
use std::hint::black_box;

const ROUNDS: usize = 41;
/// Times that a round builds or reads the switch.
const REPEATS: usize = 2_000;
/// Rows of the long body.
const ROWS: usize = 5_000;
/// Histograms of another.
const HISTOGRAM_ROWS: usize = 1_000;

const HEAD: &str = "\
buffers: warm, the same for both; a body has no checksum
                              ours    second  2nd/ours";

const JOBS: &str = "\
To build the switch is to start a body and add two rows; to read it, to read both rows and the
plain end. The second program writes each row straight into the buffer, without allocation. A
histogram has 20 buckets in two lists and four spans; nearly all its varints have one byte.";

/// Prints a line for each job and hands back the summary.
pub fn bench() -> String {
    println!("\nbodies: ns per job, {ROUNDS} rounds\n{HEAD}");
    let jobs = [
        ("build the switch", bench_build as fn() -> Rounds<2>),
        ("read the switch", bench_read),
        ("check 5,000 rows", bench_check),
        ("check 1,000 histograms", bench_check_histograms),
    ];
    let rows = jobs.map(|(name, bench)| {
        let rounds = bench();
        let (ours, second) = (rounds.median(0), rounds.median(1));
        let ratio = rounds.ratio(1, 0);
        println!("{name:>24} {ours:>9.1} {second:>9.1} {ratio:>9.2}");
        format!("{name}: {ratio:.2}")
    });
    println!("{JOBS}");
    format!("bodies, second / ours, {}", rows.join(", "))
}

/// The switch of FORMAT 13: id 7 to 0, id 8 to 1.0.
fn switch() -> [Sample; 2] {
    [row(7, 1_000, 0), row(8, 1_000, 0x3FF0 << 48)]
}

fn row(id: u64, time: i64, bits: u64) -> Sample {
    Sample {
        id: SeriesId(id),
        time: Timestamp(time),
        bits,
    }
}

// ---- Build ----

fn bench_build() -> Rounds<2> {
    let rows = switch();
    let entries = rows.map(NewEntry::Sample);
    time(
        &mut [0; 64],
        REPEATS,
        |buffer| build_ours(buffer, black_box(&rows)),
        |buffer| build_second(buffer, black_box(&entries)),
    )
}

fn build_ours(buffer: &mut [u8], rows: &[Sample]) -> usize {
    let mut out = [0; 2];
    bare::body_start(buffer, SAMPLES, &mut out);
    for row in rows {
        let (kind, used) = (SAMPLES, out[0] as usize);
        bare::add_sample(buffer, State { kind, used }, row, &mut out);
    }
    out[0] as usize
}

fn build_second(buffer: &mut [u8], rows: &[NewEntry]) -> usize {
    let mut state = body::start(buffer, SAMPLES).expect("a samples body starts");
    for row in rows {
        state = body::add(buffer, state, row).expect("the rows fit");
    }
    state.used
}

// ---- Read ----

fn bench_read() -> Rounds<2> {
    let mut body = [0; 37];
    build_second(&mut body, &switch().map(NewEntry::Sample));
    time(
        &mut body,
        REPEATS,
        |body| read_ours(body),
        |body| read_second(body),
    )
}

/// Reads each entry and the plain end, and hands back its place.
fn read_ours(body: &[u8]) -> usize {
    let mut place = 1;
    let mut out = [0; 8];
    while bare::entry_at(body, place, &mut out) == 0 {
        black_box(&out);
        place = out[7] as usize;
    }
    place
}

fn read_second(body: &[u8]) -> usize {
    let mut place = 1;
    while let Ok(Some(entry)) = &body::entry_at(body, place) {
        black_box(entry);
        place = entry.after;
    }
    place
}

// ---- Check ----

/// Every delta is below 64, and so has one byte.
fn bench_check() -> Rounds<2> {
    let rows: Vec<NewEntry> = (0..ROWS)
        .map(|i| row(7 + i as u64 % 50, 1_000 + i as i64 / 100, i as u64))
        .map(NewEntry::Sample)
        .collect();
    let mut buffer = vec![0; BODY_MAX];
    let used = build_second(&mut buffer, &rows);
    time(
        &mut buffer[..used],
        1,
        |body| check_ours(body),
        |body| check_second(body),
    )
}

/// Integer histograms, as a battery's: 10 buckets on each side.
fn bench_check_histograms() -> Rounds<2> {
    let buckets = [3, 2, -1, 4, -2, 1, 0, 5, -6, 7];
    let histograms: Vec<_> = (0..HISTOGRAM_ROWS)
        .map(|i| histogram(i, &buckets))
        .collect();
    let mut buffer = vec![0; BODY_MAX];
    let mut state = body::start(&mut buffer, HISTOGRAMS).expect("the type is known");
    for histogram in &histograms {
        let entry = NewEntry::Histogram(histogram);
        state = body::add(&mut buffer, state, &entry).expect("the histograms fit");
    }
    time(
        &mut buffer[..state.used],
        1,
        |body| check_ours(body),
        |body| check_second(body),
    )
}

fn histogram(index: usize, buckets: &[i64]) -> NewHistogram<'_, i64> {
    let (offsets, lengths) = (&[0, 2], &[5, 5]);
    NewHistogram {
        id: SeriesId(7 + index as u64 % 50),
        time: Timestamp(1_000 + index as i64 / 100),
        hint: 0,
        schema: 3,
        zero_threshold: 0x3FF0 << 48,
        zero_count: 2,
        count: 300,
        sum: index as u64,
        positive_spans: Spans { offsets, lengths },
        negative_spans: Spans { offsets, lengths },
        positive_buckets: buckets,
        negative_buckets: buckets,
    }
}

/// The number of entries.
fn check_ours(body: &[u8]) -> usize {
    let mut out = [0];
    bare::body_check(body, &mut out);
    out[0] as usize
}

fn check_second(body: &[u8]) -> usize {
    body::check(body).expect("the body is good")
}

// ---- Both ----

/// The times of a job by ours and by the second program. Both get the same bytes in turn and have
/// to hand back the same number.
fn time(
    bytes: &mut [u8],
    repeats: usize,
    ours: impl Fn(&mut [u8]) -> usize,
    second: impl Fn(&mut [u8]) -> usize,
) -> Rounds<2> {
    assert_eq!(ours(bytes), second(bytes), "two answers");
    let ours = |bytes: &mut [u8]| repeat(repeats, bytes, &ours);
    let second = |bytes: &mut [u8]| repeat(repeats, bytes, &second);
    timing::time(ROUNDS, repeats, bytes, [&ours, &second])
}

fn repeat(repeats: usize, bytes: &mut [u8], job: impl Fn(&mut [u8]) -> usize) {
    for _ in 0..repeats {
        black_box(job(black_box(bytes)));
    }
}
