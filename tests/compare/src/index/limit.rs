//! Segments at the limit and above it.

use super::Indexes;
use crate::rng::Rng;
use crate::twin::Twin;
use crate::Outcome;
use reference::index::{HEAD, ROW};
use reference::refusal::{BAD_BUFFER, BAD_INDEX};
use reference::segment::{self, FRAGMENT_MAX, PAGE, SEGMENT_MAX};
use reference::version::Version;

const LAST_PAGE: usize = SEGMENT_MAX - PAGE;

/// Records in two pages, then zeros, then a record that fills the last page.
pub fn compare_limit(rng: &mut Rng) -> Outcome {
    let mut segment = Twin::zeroed(rng, SEGMENT_MAX + PAGE);
    let (ours, theirs) = segment.both(0..SEGMENT_MAX);
    for bytes in [ours, theirs] {
        let mut place = 0;
        while place < 2 * PAGE {
            place = write(bytes, place, &[7; 37])?;
        }
        write(bytes, LAST_PAGE, &[9; FRAGMENT_MAX])?;
    }
    let count = indexed_records(&segment);
    let room = HEAD + ROW * (count + 2);
    let mut indexes = Indexes::with_segment(rng, segment, room);
    indexes.version = Version::Two;
    for (length, number) in [
        (LAST_PAGE, 0),
        (SEGMENT_MAX - 1, 0),
        (SEGMENT_MAX, 0),
        (SEGMENT_MAX + 1, BAD_BUFFER),
        (SEGMENT_MAX + PAGE, BAD_BUFFER),
    ] {
        try_length(&mut indexes, room, length, number)?;
    }
    Ok(indexes.cases)
}

fn write(bytes: &mut [u8], place: usize, record: &[u8]) -> Result<usize, String> {
    segment::write(Version::Two, bytes, place, record).map_err(|why| format!("{why:?}"))
}

/// As the second program counts them.
fn indexed_records(segment: &Twin) -> usize {
    let mut index = vec![0; HEAD + ROW * 4_096];
    let length = reference::index::build(Version::Two, segment.bytes(0..SEGMENT_MAX), &mut index);
    (length.expect("so many rows are enough") - HEAD) / ROW
}

/// Built, accepted and extended from the index of its start; or refused by all three.
fn try_length(
    indexes: &mut Indexes,
    room: usize,
    length: usize,
    wanted: u32,
) -> Result<(), String> {
    let start = 2 * PAGE;
    let used = indexes.build(start, room)?.out[0] as usize;
    let extended = indexes.extend(length, room, used)?;
    let built = indexes.build(length, room)?;
    let whole = built.out[0] as usize;
    let checked = indexes.check(length, if wanted == 0 { whole } else { used })?;
    // A good index of more than there is.
    let beyond = indexes.check(start, whole)?;
    let numbers = [extended.number, built.number, checked.number];
    if numbers != [wanted; 3] || beyond.number != BAD_INDEX {
        return Err(format!("{length} bytes: {numbers:?}, {beyond:?}"));
    }
    Ok(())
}
