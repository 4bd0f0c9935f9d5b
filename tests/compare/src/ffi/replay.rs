//! The calls of replay. The table too is between guard words.

use super::*;

/// A row is id, rows counted, latest time, value bits, 1 if deleted.
pub use depot_wal::sys::{REPLAY_LEN, ROW_LEN};

pub type SeriesTable = [u64; REPLAY_LEN];

/// Numbers in `out`: the refusal's place, series, orphans, records skipped, records replayed and
/// the offset after the last.
pub const OUT_LEN: usize = 6;

/// A replay: the version, the segment, the buffer, the table, `out`.
type Call = unsafe extern "C" fn(
    u32,
    *const u8,
    usize,
    *mut u8,
    usize,
    *mut SeriesTable,
    *mut [u64; OUT_LEN],
) -> u32;

pub fn replay(
    version: u32,
    segment: &[u8],
    buffer: &mut [u8],
    table: &mut SeriesTable,
) -> Answer<OUT_LEN> {
    replay_by(depot_wal_replay, version, segment, buffer, table)
}

pub fn replay_strict(
    version: u32,
    segment: &[u8],
    buffer: &mut [u8],
    table: &mut SeriesTable,
) -> Answer<OUT_LEN> {
    replay_by(depot_wal_replay_strict, version, segment, buffer, table)
}

fn replay_by(
    call: Call,
    version: u32,
    segment: &[u8],
    buffer: &mut [u8],
    table: &mut SeriesTable,
) -> Answer<OUT_LEN> {
    let (length, buffer_len) = (segment.len(), buffer.len());
    let (segment, buffer) = (pointer(segment), pointer_mut(buffer));
    lend(table, |table| {
        answer(|out| unsafe { call(version, segment, length, buffer, buffer_len, table, out) })
    })
}
