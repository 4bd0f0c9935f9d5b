//! The page feed's calls. The state too is between guard words.

use super::*;

pub use depot_wal::sys::{FEED_LEN as STATE_LEN, MORE};

pub type State = [u64; STATE_LEN];

/// The number, and a fresh state made in place of a pattern.
pub fn start(version: u32) -> Answer<STATE_LEN> {
    answer(|state| unsafe { depot_wal_feed_start(state, version) })
}

/// The place, and the pair.
pub fn feed_page(state: &mut State, page: &[u8]) -> Answer<3> {
    let (length, page) = (page.len(), pointer(page));
    lend(state, |state| {
        answer(|out| unsafe { depot_wal_feed_page(state, page, length, out) })
    })
}

/// Start, length, place after, and the pair.
pub fn read(state: &mut State, page: &[u8], buffer: &mut [u8]) -> Answer<5> {
    let (length, buffer_len) = (page.len(), buffer.len());
    let (page, buffer) = (pointer(page), pointer_mut(buffer));
    lend(state, |state| {
        answer(|out| unsafe { depot_wal_feed_read(state, page, length, buffer, buffer_len, out) })
    })
}
