//! Segments at the limit and above it.

use super::Nights;
use crate::logs::samples;
use crate::rng::Rng;
use crate::twin::Twin;
use crate::Outcome;
use reference::refusal::{BAD_BUFFER, TORN};
use reference::segment::{self, PAGE, SEGMENT_MAX};
use reference::version::Version;

const LAST_PAGE: usize = SEGMENT_MAX - PAGE;

/// Records, then pages of zeros, then a record in the last page and one that it has no room for.
pub fn compare_limit(rng: &mut Rng) -> Outcome {
    let mut segment = Twin::zeroed(rng, SEGMENT_MAX + PAGE);
    let (ours, theirs) = segment.both(0..SEGMENT_MAX);
    let rows = |id: u64, count: u64| (0..count).map(|row| (id, 0, row)).collect::<Vec<_>>();
    write(ours, 0, &samples(&rows(7, 2_000)))?;
    let place = write(ours, LAST_PAGE, &samples(&rows(8, 2_900)))?;
    ours[place..].fill(0);
    theirs.copy_from_slice(ours);
    let mut nights = Nights::with_segment(rng, segment);
    for (length, number) in [
        (SEGMENT_MAX, 0),
        (SEGMENT_MAX + 1, BAD_BUFFER),
        (place - 1, TORN),
        (SEGMENT_MAX + PAGE, BAD_BUFFER),
        (SEGMENT_MAX - 1, 0),
    ] {
        let got = nights.add(2, length)?.number;
        if got != number {
            return Err(format!("{length} bytes: {got}, and not {number}"));
        }
    }
    match nights.numbers[..10] {
        [2, 5, 0, 0, 7, 6_000, 0, ..] => Ok(nights.cases),
        _ => Err(format!(
            "the report begins with {:?}",
            &nights.numbers[..10]
        )),
    }
}

fn write(bytes: &mut [u8], place: usize, record: &[u8]) -> Result<usize, String> {
    segment::write(Version::Two, bytes, place, record).map_err(|why| format!("{why:?}"))
}
