//! How big the partition must be (document 02 [10]), and the count of fragments that its law speaks
//! of: n nonempty records of d bytes in all, written from 0, end at d plus 7 for each fragment plus
//! the filler, and that is at most d + 7n + 7P, with P the whole pages before it.

use crate::refusal::*;
use crate::segment::{left_in_page, FRAGMENT_MAX, HEADER, PAGE, SEGMENT_MAX};

/// Pages of the longest segment.
pub const PAGES_MAX: usize = SEGMENT_MAX / PAGE;

/// Pages of a slice that holds every list of so many nonempty records of so many bytes in all; more
/// than a segment has is 11. To cross a page's end costs at most 7 bytes, as filler or as one more
/// header. The last page's end is not crossed, so its 7 bytes are there for the first record's own.
pub fn pages_for(records: u64, bytes: u64) -> Result<usize, Refusal> {
    let Some(later) = records.checked_sub(1) else {
        return Ok(1);
    };
    // The numbers may be any, also such as no list has: the sum is taken exactly.
    let needed = u128::from(bytes) + HEADER as u128 * u128::from(later);
    match needed.div_ceil(FRAGMENT_MAX as u128).max(1) {
        pages if pages <= PAGES_MAX as u128 => Ok(pages as usize),
        _ => refuse(NO_ROOM, 0),
    }
}

/// Fragments that the splitting rule makes of a nonempty record at a place with room for a header:
/// what fits into the page, be it nothing, and then whole pages.
pub fn fragments_of(place: usize, length: usize) -> usize {
    let first = left_in_page(place) - HEADER;
    1 + length.saturating_sub(first).div_ceil(FRAGMENT_MAX)
}
