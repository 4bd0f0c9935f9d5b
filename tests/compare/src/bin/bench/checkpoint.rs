//! Half of a whole segment of switches, kept.

use crate::replay::{id, Log};
use crate::timing::{time, NUMBER, VERSION};
use compare::ffi::bare;
use compare::ffi::checkpoint::Lent;
use reference::body::{SeriesId, Timestamp};
use reference::checkpoint::{checkpoint, Kept};
use reference::replay::SERIES_MAX;
use reference::segment::{RECORD_MAX, SEGMENT_MAX};
use std::hint::black_box;

const ROUNDS: usize = 9;

/// The contenders, by their places.
const OURS: usize = 0;
const SECOND: usize = 1;

const SETTING: &str = "\
buffers: source and target are touched before the rounds, work buffers are warm. Half of the 256
series is kept: with both series of a switch, half of the records; with one of the two, half of each
record. The second program reads the source twice, since nothing is written if it is refused.
                  kept  MiB written   ours ms ns/switch second ms ns/switch  2nd/ours";

/// Prints a line for each half and hands back the summary.
pub fn bench() -> String {
    let size = SEGMENT_MAX >> 20;
    println!("\ncheckpoint of {size} MiB of switches, {ROUNDS} rounds\n{SETTING}");
    let mut segments = Segments::new();
    let parts = [
        segments.bench("half of the records", |index| index < SERIES_MAX / 2),
        segments.bench("half of each record", |index| index.is_multiple_of(2)),
    ];
    format!("second's checkpoint / checkpoint {}", parts.join(" "))
}

struct Segments {
    source: Log,
    target: Vec<u8>,
    work: Vec<u8>,
    body: Vec<u8>,
    ids: Vec<SeriesId>,
    /// The same for the archive.
    numbers: Vec<u64>,
}

impl Segments {
    fn new() -> Segments {
        Segments {
            source: Log::new(SERIES_MAX, SEGMENT_MAX),
            target: vec![1; SEGMENT_MAX],
            work: vec![0; RECORD_MAX],
            body: vec![0; RECORD_MAX],
            ids: Vec::new(),
            numbers: Vec::new(),
        }
    }

    /// The ratio of the two times.
    fn bench(&mut self, name: &str, is_kept: fn(usize) -> bool) -> String {
        self.ids = (0..SERIES_MAX)
            .filter(|&index| is_kept(index))
            .map(id)
            .collect();
        self.numbers = self.ids.iter().map(|id| id.0).collect();
        let place = self.ours();
        let bytes = self.target[..place].to_vec();
        assert_eq!(self.second(), place, "two places");
        assert!(self.target[..place] == bytes, "two checkpoints");
        let rounds = time(
            ROUNDS,
            1,
            self,
            [&|segments| keep(segments.ours()), &|segments| {
                keep(segments.second())
            }],
        );
        print!("{name:>22} {:>12.1}", place as f64 / (1 << 20) as f64);
        for by in [OURS, SECOND] {
            let time = rounds.median(by);
            print!(
                " {:>9.1} {:>9.1}",
                time / 1e6,
                time / self.source.switches as f64
            );
        }
        let ratio = rounds.ratio(SECOND, OURS);
        println!(" {ratio:>9.2}");
        format!("{ratio:.2}")
    }

    /// The place after the last record.
    fn ours(&mut self) -> usize {
        let mut out = [0; 2];
        let lent = Lent {
            source: black_box(&self.source.bytes),
            target: &mut self.target,
            work: &mut self.work,
            body: &mut self.body,
        };
        let number = bare::checkpoint(NUMBER, &self.numbers, 0, lent, &mut out);
        assert_eq!((number, out[1]), (0, 0), "the source is good");
        out[0] as usize
    }

    fn second(&mut self) -> usize {
        let source = black_box(&self.source.bytes);
        let kept = Kept {
            ids: &self.ids,
            time: Timestamp(0),
        };
        let (target, work, body) = (&mut self.target, &mut self.work, &mut self.body);
        let done = checkpoint(VERSION.number(), source, kept, target, work, body);
        assert_eq!(done.refusal, None, "the source is good");
        done.place
    }
}

/// Uses the place, so that the checkpoint has to be written.
fn keep(place: usize) {
    black_box(place);
}
