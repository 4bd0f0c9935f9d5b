//! The checksum of data of several lengths.

use crate::hardware;
use crate::timing::{time, Rounds, HARDWARE, LENT, PLAIN, SECOND};
use compare::ffi::{self, bare};
use reference::crc32c;
use std::hint::black_box;

/// Bytes summed at once.
const LENGTHS: [usize; 5] = [20, 37, 200, 4_096, 32_761];
/// Sweeps over all lengths, and rounds of a length in each: a slow moment of the machine then falls
/// on all lengths alike.
const SWEEPS: usize = 21;
const ROUNDS: usize = 5;
/// Bytes that a round goes over, more or less.
const ROUND_BYTES: usize = 1 << 21;

const HEAD: &str = "\
buffers: data and table are warm; no call waits for the sum of the one before
   bytes     plain     table    second    sse4.2 2nd/plain 2nd/table sse/plain sse/table";

const WHY: &str = "\
sse4.2: the instruction sums 8 bytes in one step, with a latency of 3 cycles. The steps of short
calls overlap, so there it leads; those of one long sum wait for one another. The library is
portable and knows no such instruction: it looks up tables, and from 512 bytes on folds by a sparse
multiple of the polynomial in 16-byte vector steps down to 290 bytes, and by a second one in 8-byte
steps down to 130, which go by the rows.";

/// Prints a line for each length and hands back the summary.
pub fn bench() -> String {
    println!(
        "\nchecksum: ns per call, {} rounds\n{HEAD}",
        SWEEPS * ROUNDS
    );
    let mut rows = LENGTHS.map(|length| (length, Rounds::none()));
    for _ in 0..SWEEPS {
        for (length, rounds) in &mut rows {
            rounds.extend(bench_length(*length));
        }
    }
    let rows = rows.map(|(length, rounds)| {
        print_row(length, &rounds);
        rounds.summary(length)
    });
    println!("{WHY}");
    format!("checksum {}", rows.join(", "))
}

fn print_row(length: usize, rounds: &Rounds<4>) {
    print!("{length:>8}");
    for one in [PLAIN, LENT, SECOND, HARDWARE] {
        print!(" {:>9.1}", rounds.median(one));
    }
    for one in [SECOND, HARDWARE] {
        for ours in [PLAIN, LENT] {
            print!(" {:>9.2}", rounds.ratio(one, ours));
        }
    }
    println!();
}

fn bench_length(length: usize) -> Rounds<4> {
    let table = ffi::table().expect("nothing is written beside the table");
    let mut data = Data::new(length);
    time(
        ROUNDS,
        data.repeats,
        &mut data,
        [
            &|data| data.sum(bare::crc32c),
            &|data| data.sum(|bytes| bare::crc32c_with_table(&table, bytes)),
            &|data| data.sum(crc32c::checksum),
            &|data| data.sum(hardware::checksum),
        ],
    )
}

/// What is summed, and how often in a round.
struct Data {
    bytes: Vec<u8>,
    sum: u32,
    repeats: usize,
}

impl Data {
    fn new(length: usize) -> Data {
        let bytes: Vec<u8> = (0..length).map(|i| (i * 31 + 7) as u8).collect();
        Data {
            sum: crc32c::checksum(&bytes),
            bytes,
            repeats: ROUND_BYTES / (length + 64),
        }
    }

    /// A round of `sum`.
    fn sum(&self, sum: impl Fn(&[u8]) -> u32) {
        for _ in 0..self.repeats {
            assert_eq!(sum(black_box(&self.bytes)), self.sum, "a wrong sum");
        }
    }
}
