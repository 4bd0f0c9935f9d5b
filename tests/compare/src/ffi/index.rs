//! The index's calls.

use super::*;

/// Bytes of the index.
pub fn build(version: u32, segment: &[u8], index: &mut [u8]) -> Answer<2> {
    let (length, room) = (segment.len(), index.len());
    let (segment, index) = (pointer(segment), pointer_mut(index));
    answer(|out| unsafe { depot_wal_index_build(version, segment, length, index, room, out) })
}

/// The records that it lists.
pub fn check(version: u32, segment: &[u8], index: &[u8]) -> Answer<1> {
    let (length, room) = (segment.len(), index.len());
    let (segment, index) = (pointer(segment), pointer(index));
    answer(|out| unsafe { depot_wal_index_check(version, segment, length, index, room, out) })
}

/// Bytes of the grown index.
pub fn extend(version: u32, segment: &[u8], index: &mut [u8], used: usize) -> Answer<2> {
    let (length, room) = (segment.len(), index.len());
    let (segment, index) = (pointer(segment), pointer_mut(index));
    answer(|out| unsafe {
        depot_wal_index_extend(version, segment, length, index, room, used, out)
    })
}

/// Start and length.
pub fn at(index: &[u8], record: u64) -> Answer<2> {
    let (room, index) = (index.len(), pointer(index));
    answer(|out| unsafe { depot_wal_index_at(index, room, record, out) })
}
