//! Caller-owned bytes, twice: the archive gets a range of one allocation, the second program the
//! same range of its twin. Afterwards both allocations have to be equal, with the guard bytes
//! around them.

use crate::rng::Rng;
use std::ops::Range;

/// Guard bytes before and after the room.
const GUARD: usize = 64;

pub struct Twin {
    ours: Vec<u8>,
    theirs: Vec<u8>,
    /// Where offset 0 lies.
    origin: usize,
}

impl Twin {
    /// Room for `room` bytes of noise.
    pub fn new(rng: &mut Rng, room: usize) -> Twin {
        let ours = rng.bytes(GUARD + room + GUARD);
        let theirs = ours.clone();
        let origin = GUARD;
        Twin {
            ours,
            theirs,
            origin,
        }
    }

    /// Room for `room` bytes of zero, not touched before they are used.
    pub fn zeroed(rng: &mut Rng, room: usize) -> Twin {
        let mut twin = Twin {
            ours: vec![0; GUARD + room + GUARD],
            theirs: vec![0; GUARD + room + GUARD],
            origin: GUARD,
        };
        let guard = rng.bytes(GUARD);
        for bytes in [&mut twin.ours, &mut twin.theirs] {
            bytes[..GUARD].copy_from_slice(&guard);
            bytes[GUARD + room..].copy_from_slice(&guard);
        }
        twin
    }

    /// Moves offset 0 by less than 16 bytes, so that ranges start at any alignment.
    pub fn shift(&mut self, rng: &mut Rng) {
        self.origin = GUARD - rng.below(16);
    }

    /// Puts the bytes at offset 0.
    pub fn put(&mut self, bytes: &[u8]) {
        self.put_at(0, bytes);
    }

    pub fn put_at(&mut self, offset: usize, bytes: &[u8]) {
        let range = self.range(offset..offset + bytes.len());
        self.ours[range.clone()].copy_from_slice(bytes);
        self.theirs[range].copy_from_slice(bytes);
    }

    /// New noise everywhere.
    pub fn refill(&mut self, rng: &mut Rng) {
        rng.fill(&mut self.ours);
        self.theirs.copy_from_slice(&self.ours);
    }

    /// The range for the archive and for the second program.
    pub fn both(&mut self, range: Range<usize>) -> (&mut [u8], &mut [u8]) {
        let range = self.range(range);
        (&mut self.ours[range.clone()], &mut self.theirs[range])
    }

    /// The bytes, which are equal in both.
    pub fn bytes(&self, range: Range<usize>) -> &[u8] {
        &self.theirs[self.range(range)]
    }

    /// True if both are equal up to offset `end` and through the guard after it.
    pub fn equal_to(&self, end: usize) -> bool {
        let end = end.saturating_add(self.origin + GUARD).min(self.ours.len());
        self.ours[..end] == self.theirs[..end]
    }

    /// The first offset at which both differ.
    pub fn first_difference(&self) -> Option<isize> {
        let both = self.ours.iter().zip(&self.theirs);
        let index = both.into_iter().position(|(ours, theirs)| ours != theirs)?;
        Some(index as isize - self.origin as isize)
    }

    fn range(&self, range: Range<usize>) -> Range<usize> {
        self.origin + range.start..self.origin + range.end
    }
}
