//! Entries of each type, of listed ids and of others, at every time.

use super::Checkpoints;
use crate::logs::{build, histogram, sample, Log};
use crate::rng::Rng;
use crate::Outcome;
use reference::body::{
    NewEntry, SeriesId, Strings, Timestamp, EXEMPLARS, FLOAT_HISTOGRAMS, HISTOGRAMS, METADATA,
    SAMPLES, SERIES, TOMBSTONES,
};

const TIMES: [i64; 9] = [
    i64::MIN,
    i64::MIN + 1,
    -2,
    -1,
    0,
    1,
    2,
    i64::MAX - 1,
    i64::MAX,
];

const LISTS: [&[u64]; 6] = [&[], &[7], &[8], &[9, 7], &[7, 8, 7], &[u64::MAX, 0]];

/// An id, and two times: of a tombstone the min and the max, of a row the second one only.
type Given = (u64, i64, i64);

/// Every pair of times in a record of each type, and every time to keep from.
pub fn compare_types(rng: &mut Rng) -> Outcome {
    let mut checkpoints = Checkpoints::new(rng);
    for list in LISTS {
        for time in TIMES {
            let mut bodies = Vec::new();
            for first in TIMES {
                for second in TIMES {
                    let mut id = || rng.pick(&[7, 8, 0, u64::MAX]);
                    let given = [(id(), first, second), (id(), second, first)];
                    bodies.extend(one_of_each(&given));
                }
            }
            checkpoints.ids = list.to_vec();
            checkpoints.time = time;
            let got = checkpoints.keep_log(rng, &Log::of(&bodies).bytes, 4)?;
            if got.number != 0 {
                return Err(format!("a good log: {got:?}"));
            }
            checkpoints.keep_again(got.out[0] as usize, 4)?;
        }
    }
    Ok(checkpoints.cases)
}

/// A body of each type with these entries.
fn one_of_each(given: &[Given]) -> [Vec<u8>; 7] {
    let strings = Strings {
        text: b"jobdepot",
        lengths: &[3, 5],
    };
    let rows: Vec<(u64, i64, u64)> = given.iter().map(|&(id, _, time)| (id, time, 5)).collect();
    let signed: Vec<_> = rows
        .iter()
        .map(|&row| histogram(row, &[1, -2, 64]))
        .collect();
    let floats: Vec<_> = rows.iter().map(|&row| histogram(row, &[1u64, 2])).collect();
    let of = |kind: u8| {
        let entries: Vec<NewEntry> = (0..given.len())
            .map(|at| {
                let (id, min, max) = given[at];
                let id = SeriesId(id);
                match kind {
                    SERIES => NewEntry::Series(id, strings),
                    SAMPLES => NewEntry::Sample(sample(rows[at])),
                    TOMBSTONES => NewEntry::Tombstone(id, Timestamp(min), Timestamp(max)),
                    EXEMPLARS => NewEntry::Exemplar(sample(rows[at]), strings),
                    METADATA => NewEntry::Metadata(id, 200, strings),
                    HISTOGRAMS => NewEntry::Histogram(&signed[at]),
                    _ => NewEntry::FloatHistogram(&floats[at]),
                }
            })
            .collect();
        build(kind, &entries)
    };
    let all = [
        SERIES,
        SAMPLES,
        TOMBSTONES,
        EXEMPLARS,
        METADATA,
        HISTOGRAMS,
        FLOAT_HISTOGRAMS,
    ];
    all.map(of)
}
