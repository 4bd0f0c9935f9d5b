//! Segments at the limit and above it.

use super::Replays;
use crate::logs::{build, samples, series, World};
use crate::rng::Rng;
use crate::twin::Twin;
use crate::Outcome;
use reference::body::{NewEntry, SeriesId, Strings, SERIES};
use reference::refusal::{BAD_BUFFER, TORN};
use reference::segment::{self, FRAGMENT_MAX, PAGE, SEGMENT_MAX};
use reference::version::Version;

const LAST_PAGE: usize = SEGMENT_MAX - PAGE;

/// Records of many rows, then pages of zeros, then a record that fills the last page.
pub fn compare_limit(rng: &mut Rng) -> Outcome {
    let segment = full_segment(rng)?;
    let mut replays = Replays::with_segment(rng, segment);
    replays.version = Version::Two;
    for (length, number) in [
        (SEGMENT_MAX, 0),
        (SEGMENT_MAX - 1, TORN),
        (SEGMENT_MAX + 1, BAD_BUFFER),
        (SEGMENT_MAX + PAGE, BAD_BUFFER),
    ] {
        let got = replays.replay(length)?.number;
        if got != number {
            return Err(format!("{length} bytes: {got}, and not {number}"));
        }
    }
    Ok(replays.cases)
}

fn full_segment(rng: &mut Rng) -> Result<Twin, String> {
    let ids = World::new(rng, 256).ids;
    let rows: Vec<_> = (0..2_500)
        .map(|_| (rng.pick(&ids), rng.below(9) as i64, rng.number()))
        .collect();
    let record = samples(&rows);
    let mut segment = Twin::zeroed(rng, SEGMENT_MAX + PAGE);
    let (ours, theirs) = segment.both(0..SEGMENT_MAX);
    let mut place = write(ours, 0, &series(&ids))?;
    while place < SEGMENT_MAX / 8 {
        place = write(ours, place, &record)?;
    }
    write(ours, LAST_PAGE, &page_record(ids[0]))?;
    theirs.copy_from_slice(ours);
    Ok(segment)
}

/// A series body that fills a page.
fn page_record(id: u64) -> Vec<u8> {
    let text = &[b'x'; FRAGMENT_MAX - 14];
    let lengths = &[0, text.len() as u64];
    let strings = Strings { text, lengths };
    build(SERIES, &[NewEntry::Series(SeriesId(id), strings)])
}

fn write(bytes: &mut [u8], place: usize, record: &[u8]) -> Result<usize, String> {
    segment::write(Version::Two, bytes, place, record).map_err(|why| format!("{why:?}"))
}
