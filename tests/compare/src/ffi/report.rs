//! The call of the voltage report. The report too is between guard words.

use super::*;

/// Before the rows are series, segments, number and place of the answer that ended it. A row is id,
/// rows, NaN rows, smallest, largest.
pub use depot_wal::sys::{REPORT_HEAD as HEAD_LEN, REPORT_LEN, ROW_LEN};

pub type Numbers = [u64; REPORT_LEN];

/// The refusal's place.
pub fn add_segment(
    version: u32,
    segment: &[u8],
    buffer: &mut [u8],
    report: &mut Numbers,
) -> Answer<1> {
    let (length, room) = (segment.len(), buffer.len());
    let (segment, buffer) = (pointer(segment), pointer_mut(buffer));
    lend(report, |report| {
        answer(|out| unsafe {
            depot_wal_report_segment(version, segment, length, buffer, room, report, out)
        })
    })
}
