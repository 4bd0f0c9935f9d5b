//! The lines that the product's program `test_cursor` has to print: eight records written from the
//! start into four pages, each at the place that the write before handed back, byte i of a record
//! being i modulo 256; then ten reads of the whole segment and ten of its first 100,000 bytes, each
//! at the place after the record just read, and at the same place again after an end or a refusal.
//! `segment LENGTH`, then for each read `record START LENGTH AFTER`, `end` or `refused NUMBER
//! PLACE`, and on the same line `good RECORDS OFFSET`: the pair that the reader then carries
//! (document 02 [8]).

use crate::segment::{self, Good, Reading, PAGE, RECORD_MAX};
use crate::version::Version;
use std::fmt::Write;

const PAGES: usize = 4;

/// The fourth leaves 4 bytes of filler in its page; the fifth leaves 7, so that the sixth begins
/// with a fragment of length 0; the last ends where the segment ends.
const LENGTHS: [usize; 8] = [1, 1, 37, 32_697, 32_754, 40_000, 25_507, 1];

/// Inside the last fragment of the sixth record.
const CUT: usize = 100_000;

/// Two more than the records, so that the end is read twice.
const READS: usize = 10;

pub fn text() -> String {
    let mut slice = vec![0; PAGES * PAGE];
    let mut place = 0;
    for length in LENGTHS {
        let record: Vec<u8> = (0..length).map(|i| i as u8).collect();
        place = segment::write(Version::One, &mut slice, place, &record).expect("the records fit");
    }
    let mut lines = String::new();
    add_reads(&mut lines, &slice);
    add_reads(&mut lines, &slice[..CUT]);
    lines
}

fn add_reads(lines: &mut String, bytes: &[u8]) {
    let mut line = |words: String| writeln!(lines, "{words}").expect("a string takes every line");
    line(format!("segment {}", bytes.len()));
    let mut good = Good::default();
    for _ in 0..READS {
        let read = segment::read(
            Version::One,
            bytes,
            good.offset,
            &mut vec![0; RECORD_MAX],
            &mut good,
        );
        let answer = match read {
            Ok(Reading::Record(record)) => {
                let (start, length) = (record.start, record.length);
                format!("record {start} {length} {}", record.after)
            }
            Ok(Reading::End) => "end".to_string(),
            Err(refusal) => format!("refused {} {}", refusal.number, refusal.place),
        };
        line(format!("{answer} good {} {}", good.records, good.offset));
    }
}
