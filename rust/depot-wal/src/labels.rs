//! The labels of a log's series, from the log itself.

use depot_wal::body::{self, Entry};
use depot_wal::segment::{Records, HEADER, PAGE, RECORD_MAX};
use depot_wal::{Good, Id, Version};
use std::collections::HashMap;

/// Names and texts, in the order of the log.
pub type Pairs = Vec<(Vec<u8>, Vec<u8>)>;

/// The labels of each series; a repeated id keeps its first ones, as in a replay.
#[derive(Default)]
pub struct Labels(HashMap<u64, Pairs>);

/// The type byte of a body of series.
const SERIES: u8 = 1;

impl Labels {
    /// Takes the labels of a body, if it is one of series.
    pub fn learn(&mut self, body: &[u8]) {
        if body.first() != Some(&SERIES) {
            return;
        }
        for entry in body::entries(body) {
            if let Ok(Entry::Series(series)) = entry {
                let labels = || owned(series.labels.clone());
                self.0.entry(series.id.0).or_insert_with(labels);
            }
        }
    }

    /// The labels of a series, if the log has named it.
    pub fn get(&self, id: Id) -> Option<&Pairs> {
        self.0.get(&id.0)
    }

    /// All of them.
    pub fn iter(&self) -> impl Iterator<Item = (Id, &Pairs)> {
        self.0.iter().map(|(id, pairs)| (Id(*id), pairs))
    }

    /// The labels of a log, of which the library found so much whole, until this many series are
    /// known.
    pub fn find(
        version: Version,
        segment: &[u8],
        starts: &Starts,
        good: Good,
        wanted: usize,
    ) -> Labels {
        let mut labels = Labels::default();
        let mut buffer = Box::new([0; RECORD_MAX]);
        for start in &starts.found {
            if *start >= good.offset || labels.0.len() == wanted {
                break;
            }
            let mut records = Records::at(version, segment, *start, &mut buffer);
            if let Some(Ok(record)) = records.next() {
                labels.learn(record.bytes);
            }
        }
        labels
    }
}

/// Where records of series may begin: noted while a segment comes into memory, a piece at a time,
/// and is still in the cache. It hops from fragment to fragment and looks at nothing else; so far
/// as the library then finds the segment whole, these are the starts of its records.
#[derive(Default)]
pub struct Starts {
    place: usize,
    found: Vec<usize>,
}

impl Starts {
    /// Goes on with what is there of the segment.
    pub fn watch(&mut self, segment: &[u8]) {
        // In a register, not in memory: each hop waits for the one before it.
        let mut place = self.place;
        while let Some(head) = Head::at(segment, place) {
            if head.may_begin_series() {
                self.found.push(place);
            }
            place = head.next(place);
        }
        self.place = place;
    }
}

/// The first eight bytes of a fragment as one number: its type, its length of two bytes, its
/// checksum of four, and the first byte of its data (FORMAT 2).
#[derive(Clone, Copy)]
struct Head(u64);

impl Head {
    /// Where fewer are there, no record begins that is whole.
    #[inline]
    fn at(segment: &[u8], place: usize) -> Option<Head> {
        let bytes = segment.get(place..)?.first_chunk()?;
        Some(Head(u64::from_be_bytes(*bytes)))
    }

    #[inline]
    fn kind(self) -> u8 {
        (self.0 >> 56) as u8
    }

    #[inline]
    fn length(self) -> usize {
        usize::from((self.0 >> 40) as u16)
    }

    /// True if a record of series may begin here: its first byte is that of series, or is not here.
    #[inline]
    fn may_begin_series(self) -> bool {
        matches!(self.kind(), 1 | 2) && (self.0 as u8 == SERIES || self.length() == 0)
    }

    /// The place after the fragment. Where zeros stand, as in padding and in an empty page, it is
    /// the next page (FORMAT 6.1, 6.5).
    #[inline]
    fn next(self, place: usize) -> usize {
        match self.kind() {
            0 => place + PAGE - place % PAGE,
            _ => place + HEADER + self.length(),
        }
    }
}

/// Pairs of strings that stay when their record goes.
pub fn owned(pairs: body::Pairs) -> Pairs {
    pairs
        .map(|(name, text)| (name.to_vec(), text.to_vec()))
        .collect()
}
