//! From an id to its row, for the tables of series, and a set of ids: a row of samples costs the same
//! whatever their number.

use crate::body::SeriesId;
use std::collections::HashSet;
use std::hash::{BuildHasherDefault, Hasher};

/// The most series that a table has.
pub const SERIES_MAX: usize = 256;

/// A power of two; at most a quarter of the slots are taken, so that most ids have the first one
/// tried.
const SLOTS: usize = 4 * SERIES_MAX;

/// The rows of up to `SERIES_MAX` ids, by open addressing. Ids chosen to collide cost at most a look
/// at every one of them.
pub(crate) struct Index {
    slots: [Slot; SLOTS],
}

#[derive(Clone, Copy)]
struct Slot {
    id: SeriesId,
    /// `FREE` if no id is here.
    row: usize,
}

const FREE: usize = usize::MAX;

impl Index {
    pub(crate) fn new() -> Index {
        let slot = Slot {
            id: SeriesId(0),
            row: FREE,
        };
        Index {
            slots: [slot; SLOTS],
        }
    }

    #[inline(always)]
    pub(crate) fn find(&self, id: SeriesId) -> Option<usize> {
        let row = self.slots[self.slot_of(id)].row;
        (row != FREE).then_some(row)
    }

    /// Gives an id its row, unless it has one.
    pub(crate) fn enter(&mut self, id: SeriesId, row: usize) {
        let slot = self.slot_of(id);
        if self.slots[slot].row == FREE {
            self.slots[slot] = Slot { id, row };
        }
    }

    /// Where an id is, or the free slot where it would go: from its first slot on, and after the
    /// last one from slot 0.
    #[inline(always)]
    fn slot_of(&self, id: SeriesId) -> usize {
        let mut at = first_slot(id);
        while self.slots[at].row != FREE && self.slots[at].id != id {
            at = (at + 1) % SLOTS;
        }
        at
    }
}

#[inline(always)]
fn first_slot(id: SeriesId) -> usize {
    (spread(id.0) >> (u64::BITS - SLOTS.trailing_zeros())) as usize
}

/// The id times 2^64 over the golden ratio: by the top bits, ids in a row are spread far apart.
#[inline(always)]
fn spread(id: u64) -> u64 {
    id.wrapping_mul(0x9E37_79B9_7F4A_7C15)
}

/// Any number of ids.
pub(crate) struct Set(HashSet<u64, BuildHasherDefault<Spread>>);

impl Set {
    pub(crate) fn of(ids: &[SeriesId]) -> Set {
        Set(ids.iter().map(|id| id.0).collect())
    }

    #[inline(always)]
    pub(crate) fn has(&self, id: SeriesId) -> bool {
        self.0.contains(&id.0)
    }
}

/// The hash of an id has its top bits below too.
#[derive(Default)]
struct Spread(u64);

impl Hasher for Spread {
    fn write(&mut self, _: &[u8]) {
        unreachable!("ids are hashed as numbers")
    }

    #[inline(always)]
    fn write_u64(&mut self, id: u64) {
        self.0 = spread(id) ^ spread(id) >> 32;
    }

    fn finish(&self) -> u64 {
        self.0
    }
}
