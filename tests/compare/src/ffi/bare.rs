//! The calls as a C program makes them, for timing: `out` is the caller's, without guards, and no
//! pointer is null.

use super::checkpoint::Lent;
use super::feed::State as Feed;
use super::replay::{SeriesTable, OUT_LEN as REPLAY_OUT};
use super::*;
use reference::body::{Sample, State};

// ---- Checksums ----

#[inline]
pub fn crc32c(data: &[u8]) -> u32 {
    unsafe { depot_wal_crc32c(data.as_ptr(), data.len()) }
}

#[inline]
pub fn crc32c_with_table(table: &Table, data: &[u8]) -> u32 {
    unsafe { depot_wal_crc32c_with_table(table, data.as_ptr(), data.len()) }
}

// ---- Segments ----

#[inline]
pub fn write(
    version: u32,
    segment: &mut [u8],
    place: usize,
    record: &[u8],
    out: &mut [u64; 2],
) -> u32 {
    let (length, bytes) = (segment.len(), segment.as_mut_ptr());
    let (data, data_len) = (record.as_ptr(), record.len());
    unsafe { depot_wal_write(version, bytes, length, place, data, data_len, out) }
}

#[inline]
pub fn read(
    version: u32,
    segment: &[u8],
    place: usize,
    buffer: &mut [u8],
    good: &mut Pair,
    out: &mut [u64; 3],
) -> u32 {
    let (length, bytes) = (segment.len(), segment.as_ptr());
    let (room, room_len) = (buffer.as_mut_ptr(), buffer.len());
    unsafe { depot_wal_read(version, bytes, length, place, room, room_len, good, out) }
}

#[inline]
pub fn write_with_table(
    table: &Table,
    version: u32,
    segment: &mut [u8],
    place: usize,
    record: &[u8],
    out: &mut [u64; 2],
) -> u32 {
    let (length, bytes) = (segment.len(), segment.as_mut_ptr());
    let (data, data_len) = (record.as_ptr(), record.len());
    unsafe { depot_wal_write_with_table(table, version, bytes, length, place, data, data_len, out) }
}

#[inline]
pub fn read_with_table(
    table: &Table,
    version: u32,
    segment: &[u8],
    place: usize,
    buffer: &mut [u8],
    good: &mut Pair,
    out: &mut [u64; 3],
) -> u32 {
    let (length, bytes) = (segment.len(), segment.as_ptr());
    let (room, room_len) = (buffer.as_mut_ptr(), buffer.len());
    unsafe {
        depot_wal_read_with_table(
            table, version, bytes, length, place, room, room_len, good, out,
        )
    }
}

// ---- The page feed ----

#[inline]
pub fn feed_start(state: &mut Feed, version: u32) -> u32 {
    unsafe { depot_wal_feed_start(state, version) }
}

#[inline]
pub fn feed_page(state: &mut Feed, page: &[u8], out: &mut [u64; 3]) -> u32 {
    unsafe { depot_wal_feed_page(state, page.as_ptr(), page.len(), out) }
}

#[inline]
pub fn feed_read(state: &mut Feed, page: &[u8], buffer: &mut [u8], out: &mut [u64; 5]) -> u32 {
    let (length, bytes) = (page.len(), page.as_ptr());
    let (room, room_len) = (buffer.as_mut_ptr(), buffer.len());
    unsafe { depot_wal_feed_read(state, bytes, length, room, room_len, out) }
}

// ---- Replay ----

#[inline]
pub fn replay(
    version: u32,
    segment: &[u8],
    buffer: &mut [u8],
    table: &mut SeriesTable,
    out: &mut [u64; REPLAY_OUT],
) -> u32 {
    let (length, bytes) = (segment.len(), segment.as_ptr());
    let (room, room_len) = (buffer.as_mut_ptr(), buffer.len());
    unsafe { depot_wal_replay(version, bytes, length, room, room_len, table, out) }
}

// ---- The checkpoint ----

#[inline]
pub fn checkpoint(version: u32, ids: &[u64], time: i64, lent: Lent, out: &mut [u64; 2]) -> u32 {
    let (source, target) = (lent.source, lent.target);
    let (work, body) = (lent.work, lent.body);
    unsafe {
        depot_wal_checkpoint(
            version,
            source.as_ptr(),
            source.len(),
            ids.as_ptr(),
            ids.len(),
            time,
            target.as_mut_ptr(),
            target.len(),
            work.as_mut_ptr(),
            work.len(),
            body.as_mut_ptr(),
            body.len(),
            out,
        )
    }
}

// ---- The index ----

#[inline]
pub fn index_build(version: u32, segment: &[u8], index: &mut [u8], out: &mut [u64; 2]) -> u32 {
    let (length, bytes) = (segment.len(), segment.as_ptr());
    let (room, room_len) = (index.as_mut_ptr(), index.len());
    unsafe { depot_wal_index_build(version, bytes, length, room, room_len, out) }
}

// ---- Bodies ----

#[inline]
pub fn body_start(buffer: &mut [u8], kind: u8, out: &mut [u64; 2]) -> u32 {
    unsafe { depot_wal_body_start(buffer.as_mut_ptr(), buffer.len(), kind, out) }
}

#[inline]
pub fn add_sample(buffer: &mut [u8], state: State, row: &Sample, out: &mut [u64; 2]) -> u32 {
    let State { kind, used } = state;
    let (length, bytes) = (buffer.len(), buffer.as_mut_ptr());
    let (id, time) = (row.id.0, row.time.0);
    unsafe { depot_wal_add_sample(bytes, length, kind, used, id, time, row.bits, out) }
}

#[inline]
pub fn body_check(body: &[u8], out: &mut [u64; 1]) -> u32 {
    unsafe { depot_wal_body_check(body.as_ptr(), body.len(), out) }
}

#[inline]
pub fn entry_at(body: &[u8], place: usize, out: &mut [u64; 8]) -> u32 {
    unsafe { depot_wal_entry_at(body.as_ptr(), body.len(), place, out) }
}
