//! The index of a whole segment, beside reading it.

use crate::feed::{by_slice, LENGTH};
use crate::records::Full;
use crate::timing::{time, NUMBER, VERSION};
use compare::ffi::bare;
use reference::index::{self, HEAD, ROW};
use reference::segment::SEGMENT_MAX;
use std::hint::black_box;

const ROUNDS: usize = 15;

/// The contenders, by their places: with room for any index, and for this one exactly.
const OURS: [usize; 2] = [0, 1];
const SECOND: [usize; 2] = [2, 3];
const READ: usize = 4;

const SETTING: &str = "\
buffers: as above, the index too. A buffer with room for the index of any segment of this length
cannot be too short; in one that is just long enough the records have to be counted before a byte
changes. To read is to read every record by the plain call, which copies it.
                            by   ns/record      /read";

/// Prints a line for each contender and hands back the summary.
pub fn bench(segment: &mut [u8]) -> String {
    let size = SEGMENT_MAX >> 20;
    println!("\nindex: of {size} MiB of {LENGTH}-byte records, {ROUNDS} rounds\n{SETTING}");
    let full = Full::new(segment, LENGTH);
    let (any, exact) = (HEAD + SEGMENT_MAX, HEAD + ROW * full.count);
    let index = vec![0; any];
    let mut both = Both { full, index };
    let ours = both.ours(any);
    let bytes = both.index[..ours].to_vec();
    assert_eq!(both.second(exact), ours, "two lengths");
    assert!(both.index[..ours] == bytes, "two indexes");
    let count = both.full.count;
    let rounds = time(
        ROUNDS,
        count,
        &mut both,
        [
            &|both| keep(both.ours(any)),
            &|both| keep(both.ours(exact)),
            &|both| keep(both.second(any)),
            &|both| keep(both.second(exact)),
            &|both| by_slice(&mut both.full),
        ],
    );
    for (by, this) in [
        ("index_build, room for any", OURS[0]),
        ("index_build, just enough", OURS[1]),
        ("second's, room for any", SECOND[0]),
        ("second's, just enough", SECOND[1]),
        ("read", READ),
    ] {
        let (time, ratio) = (rounds.median(this), rounds.ratio(this, READ));
        println!("{by:>30} {time:>11.1} {ratio:>10.2}");
    }
    let reads = OURS.map(|this| rounds.ratio(this, READ));
    let second = [0, 1].map(|room| rounds.ratio(SECOND[room], OURS[room]));
    format!(
        "index_build / read {:.2} {:.2}, second's / index_build {:.2} {:.2}",
        reads[0], reads[1], second[0], second[1]
    )
}

struct Both<'a> {
    full: Full<'a>,
    index: Vec<u8>,
}

impl Both<'_> {
    /// The bytes of the index.
    fn ours(&mut self, room: usize) -> usize {
        let mut out = [0; 2];
        let segment = black_box(&*self.full.segment);
        let number = bare::index_build(NUMBER, segment, &mut self.index[..room], &mut out);
        assert_eq!(number, 0, "the index fits");
        out[0] as usize
    }

    fn second(&mut self, room: usize) -> usize {
        let segment = black_box(&*self.full.segment);
        index::build(VERSION, segment, &mut self.index[..room]).expect("the index fits")
    }
}

/// Uses the length, so that the index has to be built.
fn keep(length: usize) {
    black_box(length);
}
