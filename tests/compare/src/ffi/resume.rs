//! The call that goes on after a cut.

use super::*;

/// The place for the next record, the refusal's place, and the pair.
pub fn resume(version: u32, segment: &mut [u8], survived: usize) -> Answer<4> {
    let (length, segment) = (segment.len(), pointer_mut(segment));
    answer(|out| unsafe { depot_wal_resume(version, segment, length, survived, out) })
}
