//! The call of the checkpoint.

use super::*;

/// What is lent to a checkpoint.
pub struct Lent<'a> {
    pub source: &'a [u8],
    pub target: &'a mut [u8],
    pub work: &'a mut [u8],
    pub body: &'a mut [u8],
}

/// The place up to which records stand in the target, and the refusal's place in the source.
pub fn checkpoint(version: u32, ids: &[u64], time: i64, lent: Lent) -> Answer<2> {
    let (source_len, target_len) = (lent.source.len(), lent.target.len());
    let (work_len, body_len) = (lent.work.len(), lent.body.len());
    let (source, target) = (pointer(lent.source), pointer_mut(lent.target));
    let (work, body) = (pointer_mut(lent.work), pointer_mut(lent.body));
    let (ids_len, ids) = (ids.len(), pointer(ids));
    answer(|out| unsafe {
        depot_wal_checkpoint(
            version, source, source_len, ids, ids_len, time, target, target_len, work, work_len,
            body, body_len, out,
        )
    })
}
