//! Sources and targets at the limit and above it.

use super::{Checkpoints, Lengths};
use crate::ffi::Answer;
use crate::logs::samples;
use crate::rng::Rng;
use crate::twin::Twin;
use crate::Outcome;
use reference::refusal::{BAD_BUFFER, TORN};
use reference::segment::{self, PAGE, RECORD_MAX, SEGMENT_MAX};
use reference::version::Version;

const LAST_PAGE: usize = SEGMENT_MAX - PAGE;

/// A record, pages of zeros, and a record in the last page; into one page and into 4,096.
pub fn compare_limit(rng: &mut Rng) -> Outcome {
    let mut source = Twin::zeroed(rng, SEGMENT_MAX + PAGE);
    let (ours, theirs) = source.both(0..SEGMENT_MAX);
    let small = samples(&[(7, 5, 1), (8, 5, 2)]);
    let rows: Vec<(u64, i64, u64)> = (0..2_000).map(|row| (7, 5, row)).collect();
    let large = samples(&rows);
    let fail = |why| format!("{why:?}");
    segment::write(Version::Two, ours, 0, &small).map_err(fail)?;
    let end = segment::write(Version::Two, ours, LAST_PAGE, &large).map_err(fail)?;
    theirs.copy_from_slice(ours);

    let mut checkpoints = Checkpoints::with_source(rng, source);
    checkpoints.target = Twin::zeroed(rng, SEGMENT_MAX + PAGE);
    checkpoints.version = 2;
    checkpoints.ids = vec![7];
    checkpoints.time = 5;
    let place = (34 + 7 + large.len()) as u64;
    for (source, target, number, out) in [
        (SEGMENT_MAX, PAGE, 0, [place, 0]),
        (SEGMENT_MAX, SEGMENT_MAX, 0, [place, 0]),
        (SEGMENT_MAX - 1, PAGE, 0, [place, 0]),
        (SEGMENT_MAX + 1, PAGE, BAD_BUFFER, [0, 0]),
        (SEGMENT_MAX, SEGMENT_MAX + PAGE, BAD_BUFFER, [0, 0]),
        (end - 1, SEGMENT_MAX, TORN, [0, LAST_PAGE as u64]),
    ] {
        let got = checkpoints.run(Lengths {
            source,
            target,
            work: RECORD_MAX,
            body: RECORD_MAX,
        })?;
        if got != Answer::new(number, out) {
            return Err(format!(
                "{source} into {target}: {got:?}, not {number}, {out:?}"
            ));
        }
    }
    Ok(checkpoints.cases)
}
