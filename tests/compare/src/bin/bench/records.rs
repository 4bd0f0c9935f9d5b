//! Records written and read over a whole segment.

use crate::hardware;
use crate::timing::{time, Rounds, HARDWARE, LENT, NUMBER, PLAIN, SECOND, VERSION};
use compare::ffi::{self, bare, Pair, Table};
use reference::refusal::Refusal;
use reference::segment::{self, Good, Reading, PAGE, RECORD_MAX, SEGMENT_MAX};
use std::hint::black_box;

/// Bytes of a record.
const LENGTHS: [usize; 3] = [37, 4_096, 65_536];
const ROUNDS: usize = 15;

const SETTING: &str = "\
buffers: one segment, touched and filled before the rounds. The contenders write it in turn, all
with the same bytes, and read it in turn. It is larger than a core's own caches; record, record
buffer and table are warm. MB are millions of bytes of record data.";

const WHY: &str = "\
sse4.2 is the second program with the instruction as its checksum, for orientation. In the longer
records it leads by that, as above, and by the copy: the second program's is memcpy, which the C
library picks for the machine; the library's own is portable and goes in 16-byte vector steps.";

/// Prints the rows of both jobs and hands back the summary.
pub fn bench(segment: &mut [u8]) -> String {
    let (size, pages) = (SEGMENT_MAX >> 20, SEGMENT_MAX / PAGE);
    println!("\nrecords: a whole segment of {size} MiB, {pages} pages, {ROUNDS} rounds\n{SETTING}");
    let jobs = [
        bench_job("write", bench_write, segment),
        bench_job("read", bench_read, segment),
    ];
    println!("{WHY}");
    jobs.join(", ")
}

/// Prints the rows of one job: of each length, one for each contender.
fn bench_job(name: &str, bench: fn(&mut Full) -> Rounds<4>, segment: &mut [u8]) -> String {
    println!(
        "{name:>8} {:>8} {:>11} {:>12} {:>9} {:>8} {:>8}",
        "by", "ns/record", "records/s", "MB/s", "2nd/this", "sse/this"
    );
    let rows = LENGTHS.map(|length| {
        let rounds = bench(&mut Full::new(segment, length));
        print_rows(length, &rounds);
        rounds.summary(length)
    });
    format!("{name} {}", rows.join(", "))
}

fn print_rows(length: usize, rounds: &Rounds<4>) {
    for (by, this) in [
        ("plain", PLAIN),
        ("table", LENT),
        ("second", SECOND),
        ("sse4.2", HARDWARE),
    ] {
        let time = rounds.median(this);
        println!(
            "{length:>8} {by:>8} {time:>11.1} {:>12.0} {:>9.1} {:>8.2} {:>8.2}",
            1e9 / time,
            1e3 * length as f64 / time,
            rounds.ratio(SECOND, this),
            rounds.ratio(HARDWARE, this)
        );
    }
}

/// A segment full of records of one length, and the buffer that they are read into.
pub struct Full<'a> {
    pub segment: &'a mut [u8],
    record: Vec<u8>,
    pub count: usize,
    /// The place after the last record.
    end: usize,
    pub buffer: Vec<u8>,
}

impl Full<'_> {
    /// Filled by the second program.
    pub fn new(segment: &mut [u8], length: usize) -> Full<'_> {
        let record: Vec<u8> = (0..length).map(|i| (i * 31 + 7) as u8).collect();
        let mut count = 0;
        let mut end = 0;
        while let Ok(next) = segment::write(VERSION, segment, end, &record) {
            end = next;
            count += 1;
        }
        Full {
            segment,
            record,
            count,
            end,
            buffer: vec![0; RECORD_MAX],
        }
    }

    /// Writes all records by `write`, which hands back the next place.
    fn write(&mut self, write: impl Fn(&mut [u8], usize, &[u8]) -> usize) {
        let mut place = 0;
        for _ in 0..self.count {
            place = write(black_box(self.segment), place, black_box(&self.record));
        }
        assert_eq!(place, self.end, "a record was not written");
    }

    /// Reads all records by `read`, which goes on where the last one ended; what a contender keeps
    /// from call to call stays in one place.
    fn read<K: Kept>(&mut self, read: impl Fn(&[u8], &mut [u8], &mut K)) {
        let mut kept = K::default();
        for _ in 0..self.count {
            read(
                black_box(self.segment),
                black_box(&mut self.buffer),
                &mut kept,
            );
        }
        let whole = [self.count as u64, self.end as u64];
        assert_eq!(kept.good(), whole, "a record was not read");
    }
}

fn bench_write(full: &mut Full) -> Rounds<4> {
    let table = ffi::table().expect("nothing is written beside the table");
    time(
        ROUNDS,
        full.count,
        full,
        [
            &|full| full.write(plain_write),
            &|full| full.write(|segment, place, record| lent_write(&table, segment, place, record)),
            &|full| full.write(second_write),
            &|full| full.write(hardware_write),
        ],
    )
}

fn bench_read(full: &mut Full) -> Rounds<4> {
    let table = ffi::table().expect("nothing is written beside the table");
    time(
        ROUNDS,
        full.count,
        full,
        [
            &|full| full.read(plain_read),
            &|full| full.read(|segment, buffer, kept| lent_read(&table, segment, buffer, kept)),
            &|full| full.read(second_read),
            &|full| full.read(hardware_read),
        ],
    )
}

// ---- The place for the next write, by each contender ----

fn plain_write(segment: &mut [u8], place: usize, record: &[u8]) -> usize {
    let mut out = [0; 2];
    bare::write(NUMBER, segment, place, record, &mut out);
    out[0] as usize
}

fn lent_write(table: &Table, segment: &mut [u8], place: usize, record: &[u8]) -> usize {
    let mut out = [0; 2];
    bare::write_with_table(table, NUMBER, segment, place, record, &mut out);
    out[0] as usize
}

fn second_write(segment: &mut [u8], place: usize, record: &[u8]) -> usize {
    segment::write(VERSION, segment, place, record).expect("the records fit")
}

fn hardware_write(segment: &mut [u8], place: usize, record: &[u8]) -> usize {
    segment::write_with(&hardware_sum, segment, place, record).expect("the records fit")
}

// ---- The next record, read by each contender ----

/// What a contender keeps from call to call, with the good length in it.
trait Kept: Default {
    fn good(&self) -> Pair;
}

/// As a C program keeps it.
#[derive(Default)]
struct Ours {
    good: Pair,
    /// Start, length, place after.
    out: [u64; 3],
}

impl Kept for Ours {
    fn good(&self) -> Pair {
        self.good
    }
}

impl Kept for Good {
    fn good(&self) -> Pair {
        [self.records, self.offset as u64]
    }
}

fn plain_read(segment: &[u8], buffer: &mut [u8], kept: &mut Ours) {
    let place = kept.out[2] as usize;
    let (good, out) = (&mut kept.good, &mut kept.out);
    bare::read(NUMBER, segment, place, buffer, good, out);
}

fn lent_read(table: &Table, segment: &[u8], buffer: &mut [u8], kept: &mut Ours) {
    let place = kept.out[2] as usize;
    let (good, out) = (&mut kept.good, &mut kept.out);
    bare::read_with_table(table, NUMBER, segment, place, buffer, good, out);
}

fn second_read(segment: &[u8], buffer: &mut [u8], good: &mut Good) {
    expect_record(segment::read(VERSION, segment, good.offset, buffer, good));
}

fn hardware_read(segment: &[u8], buffer: &mut [u8], good: &mut Good) {
    let checksum = &hardware_sum;
    expect_record(segment::read_with(
        checksum,
        segment,
        good.offset,
        buffer,
        good,
    ));
}

/// Of the data alone, as in version 1.
fn hardware_sum(_: &[u8], data: &[u8]) -> u32 {
    hardware::checksum(data)
}

fn expect_record(reading: Result<Reading, Refusal>) {
    if !matches!(reading, Ok(Reading::Record(_))) {
        panic!("no record: {reading:?}");
    }
}
