//! Segments of 4,096 pages, which is the limit, and feeds that would pass it.

use super::{Feeds, EXCESS};
use crate::rng::Rng;
use crate::Outcome;
use reference::refusal::{BAD_BUFFER, BAD_PLACE, NOT_ZERO};
use reference::segment::{self, FRAGMENT_MAX, MIDDLE, PAGE, SEGMENT_MAX};
use reference::version::Version;

const LAST_PAGE: usize = SEGMENT_MAX - PAGE;

/// Records in the first half, then zeros; and then other ends of the same segment.
pub fn compare_limit(rng: &mut Rng) -> Outcome {
    let mut feeds = Feeds::new(rng);
    let mut bytes = vec![0; SEGMENT_MAX];
    let data = rng.bytes(2 * FRAGMENT_MAX);
    let mut place = 0;
    while place < SEGMENT_MAX / 2 {
        place = write(&mut bytes, place, &data[..60_000])?;
    }
    read_whole(&mut feeds, &bytes)?;

    // A byte less, so that the last page is a short one.
    feeds.read_all(&bytes[..SEGMENT_MAX - 1])?;
    refuse_all(&mut feeds, BAD_BUFFER, BAD_PLACE)?;

    // A record that fills the last page.
    write(&mut bytes, LAST_PAGE, &data[..FRAGMENT_MAX])?;
    read_whole(&mut feeds, &bytes)?;

    // A record that is open at the end.
    write(&mut bytes, LAST_PAGE - PAGE, &data)?;
    bytes[LAST_PAGE] = MIDDLE;
    read_whole(&mut feeds, &bytes)?;

    // The very last byte, of the filler, is not zero: a refusal that stands comes first.
    write(&mut bytes, LAST_PAGE - PAGE, &data[..2 * FRAGMENT_MAX - 6])?;
    bytes[SEGMENT_MAX - 1] = 1;
    feeds.read_all(&bytes)?;
    refuse_all(&mut feeds, NOT_ZERO, NOT_ZERO)?;
    Ok(feeds.cases)
}

fn write(bytes: &mut [u8], place: usize, record: &[u8]) -> Result<usize, String> {
    segment::write(Version::One, bytes, place, record).map_err(|why| format!("{why:?}"))
}

/// Reads 4,096 whole pages, and the empty one after them.
fn read_whole(feeds: &mut Feeds, bytes: &[u8]) -> Result<(), String> {
    feeds.read_all(bytes)?;
    refuse_all(feeds, BAD_BUFFER, BAD_PLACE)
}

/// At the limit and asked for a page: none is taken but an empty one, and the next read asks again.
pub fn offer_too_much(feeds: &mut Feeds) -> Result<(), String> {
    for length in [1, PAGE, PAGE + EXCESS] {
        expect(feeds, length, BAD_BUFFER)?;
        feeds.read()?;
    }
    Ok(())
}

/// After the end no page is taken: `beyond` answers those that pass the limit, `late` an empty one.
fn refuse_all(feeds: &mut Feeds, beyond: u32, late: u32) -> Result<(), String> {
    for length in [2, PAGE, PAGE + EXCESS] {
        expect(feeds, length, beyond)?;
    }
    expect(feeds, 0, late)
}

fn expect(feeds: &mut Feeds, length: usize, wanted: u32) -> Result<(), String> {
    match feeds.feed(length)?.number {
        number if number == wanted => Ok(()),
        number => Err(format!(
            "feed of {length} at the limit: {number}, not {wanted}"
        )),
    }
}
