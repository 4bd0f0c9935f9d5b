//! Logs of switches, replayed.

use crate::timing::{self, Rounds, NUMBER, VERSION};
use compare::ffi::bare;
use compare::ffi::replay::{SeriesTable, OUT_LEN, REPLAY_LEN};
use compare::replay::numbers_of;
use compare::rng::Rng;
use reference::body::{self, NewEntry, Sample, SeriesId, Strings, Timestamp, SAMPLES, SERIES};
use reference::replay::{self, Row, Table, SERIES_MAX};
use reference::segment::{self, RECORD_MAX, SEGMENT_MAX};
use std::hint::black_box;

const ROUNDS: usize = 15;

/// Bytes of the logs. The short one shows whether the cost of a byte depends on the length.
const LENGTHS: [usize; 2] = [SEGMENT_MAX, SEGMENT_MAX / 8];
const LONG: usize = 0;
const SHORT: usize = 1;

/// The second program's time / ours, on the long log.
const AT_LEAST: f64 = 1.0;

/// The contenders on a log, by their places in a round.
const OURS: [usize; 2] = [0, 2];
const SECOND: [usize; 2] = [1, 3];

const HEAD: &str = "\
buffers: the logs are touched and filled before the rounds; tables and record buffer are warm. A
switch is the record of FORMAT 13, 37 bytes with two rows at one time, about two ids next to each
other that are drawn anew for each; of one series both rows are its own. A record before them all
enters the ids.
                        ours                           second
  series   MiB        ms ns/switch   ns/byte        ms ns/switch   ns/byte  2nd/ours";

const JOBS: &str = "\
The second program finds a row by a hash index, walks a body where it lies and allocates nothing.
The cost of a byte is the same in a log eight times as long if the whole cost is linear.";

/// Prints the rows of both logs and hands back the summary.
pub fn bench() -> String {
    println!("\nreplay: {ROUNDS} rounds\n{HEAD}");
    let parts = [SERIES_MAX, 1].map(bench_series);
    println!("{JOBS}");
    format!("replay, second / ours, {}", parts.join(", "))
}

fn bench_series(series: usize) -> String {
    let mut logs = Logs::new(series);
    let rounds = logs.time();
    for one in [LONG, SHORT] {
        print_row(series, &logs.logs[one], &rounds, one);
    }
    let ratio = rounds.ratio(SECOND[LONG], OURS[LONG]);
    let verdict = if ratio >= AT_LEAST {
        "kept"
    } else {
        "NOT KEPT"
    };
    let growth = rounds.ratio(OURS[LONG], OURS[SHORT]) / logs.times_longer();
    println!("second / ours: {ratio:.2}, at least {AT_LEAST:.1}: {verdict}");
    println!("ours, the cost of a byte in 128 MiB / in 16 MiB: {growth:.2}");
    format!("{series} series: {ratio:.2}")
}

fn print_row(series: usize, log: &Log, rounds: &Rounds<4>, one: usize) {
    print!("{series:>8} {:>5}", LENGTHS[one] >> 20);
    for by in [OURS[one], SECOND[one]] {
        let time = rounds.median(by);
        let switch = time / log.switches as f64;
        let byte = time / log.bytes.len() as f64;
        print!(" {:>9.2} {switch:>9.1} {byte:>9.3}", time / 1e6);
    }
    println!(" {:>9.2}", rounds.ratio(SECOND[one], OURS[one]));
}

// ---- A log of switches ----

pub struct Log {
    pub bytes: Vec<u8>,
    pub switches: usize,
}

impl Log {
    /// As many switches as fit, written by the second program.
    pub fn new(series: usize, length: usize) -> Log {
        let mut rng = Rng::new(1);
        let mut bytes = vec![0; length];
        let entered = segment::write(VERSION, &mut bytes, 0, &series_body(series));
        let mut end = entered.expect("the series fit");
        let mut switches = 0;
        let mut body = [0; 37];
        loop {
            put_switch(&mut body, rng.below(series), series, switches);
            let Ok(next) = segment::write(VERSION, &mut bytes, end, &body) else {
                bytes.truncate(end);
                return Log { bytes, switches };
            };
            end = next;
            switches += 1;
        }
    }
}

/// The id of a series, counted from 0.
pub fn id(index: usize) -> SeriesId {
    SeriesId(7 + index as u64)
}

/// Enters all series, each with a label.
fn series_body(series: usize) -> Vec<u8> {
    let text = b"profileeco";
    let lengths = &[7, 3];
    let entries = (0..series).map(|index| NewEntry::Series(id(index), Strings { text, lengths }));
    let mut buffer = vec![0; body::BODY_MAX];
    let used = build(&mut buffer, SERIES, entries);
    buffer.truncate(used);
    buffer
}

/// One profile goes to 0 and the one beside it to 1.0, each switch a second after the one before.
fn put_switch(body: &mut [u8], old: usize, series: usize, switches: usize) {
    let time = Timestamp(1_000 + 1_000 * switches as i64);
    let row = |index, bits| {
        let id = id(index);
        NewEntry::Sample(Sample { id, time, bits })
    };
    let new = (old ^ 1) % series;
    let rows = [row(old, 0), row(new, 0x3FF0 << 48)];
    let used = build(body, SAMPLES, rows.into_iter());
    assert_eq!(used, body.len(), "a switch has other deltas");
}

/// The bytes used.
fn build<'a>(buffer: &mut [u8], kind: u8, entries: impl Iterator<Item = NewEntry<'a>>) -> usize {
    let mut state = body::start(buffer, kind).expect("the type is known");
    for entry in entries {
        state = body::add(buffer, state, &entry).expect("the entries fit");
    }
    state.used
}

// ---- Replay ----

/// A long and a short log, and what is lent to a replay.
struct Logs {
    logs: [Log; 2],
    buffer: Vec<u8>,
    table: Box<SeriesTable>,
    rows: Box<Table>,
}

impl Logs {
    fn new(series: usize) -> Logs {
        Logs {
            logs: LENGTHS.map(|length| Log::new(series, length)),
            buffer: vec![0; RECORD_MAX],
            table: Box::new([0; REPLAY_LEN]),
            rows: Box::new([Row::default(); SERIES_MAX]),
        }
    }

    fn times_longer(&self) -> f64 {
        self.logs[LONG].bytes.len() as f64 / self.logs[SHORT].bytes.len() as f64
    }

    /// The rounds, once both programs are seen to say the same of both logs.
    fn time(&mut self) -> Rounds<4> {
        for one in [LONG, SHORT] {
            assert_eq!(self.ours(one), self.second(one), "two answers");
            let second = self.rows.iter().flat_map(numbers_of);
            assert!(second.eq(*self.table), "two tables");
        }
        timing::time(
            ROUNDS,
            1,
            self,
            [
                &|logs| keep(logs.ours(LONG)),
                &|logs| keep(logs.second(LONG)),
                &|logs| keep(logs.ours(SHORT)),
                &|logs| keep(logs.second(SHORT)),
            ],
        )
    }

    /// Series and orphans.
    fn ours(&mut self, log: usize) -> [u64; 2] {
        let bytes = black_box(&self.logs[log].bytes);
        let mut out = [0; OUT_LEN];
        let number = bare::replay(NUMBER, bytes, &mut self.buffer, &mut self.table, &mut out);
        assert_eq!((number, out[0]), (0, 0), "the log is good");
        [out[1], out[2]]
    }

    fn second(&mut self, log: usize) -> [u64; 2] {
        let bytes = black_box(&self.logs[log].bytes);
        let replayed = replay::replay(VERSION, bytes, &mut self.buffer, &mut self.rows);
        assert_eq!(replayed.refusal, None, "the log is good");
        [replayed.series as u64, replayed.orphans]
    }
}

/// Uses the counts, so that they have to be made.
fn keep(counts: [u64; 2]) {
    black_box(counts);
}
