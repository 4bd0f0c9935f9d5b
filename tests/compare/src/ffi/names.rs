//! The calls on names.

use super::*;

/// Sequence and version.
pub fn parse(name: &[u8]) -> Answer<2> {
    let (length, name) = (name.len(), pointer(name));
    answer(|out| unsafe { depot_wal_name_parse(name, length, out) })
}

/// Bytes of the name.
pub fn make(sequence: u64, version: u64, name: &mut [u8]) -> Answer<2> {
    let (length, name) = (name.len(), pointer_mut(name));
    answer(|out| unsafe { depot_wal_name_make(sequence, version, name, length, out) })
}
