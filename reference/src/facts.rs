//! The entries of a body with all that they carry, so that bodies which are coded differently can be
//! compared.

use crate::body::{self, Entry};
use crate::histogram;
use crate::refusal::Refusal;

/// What an entry says, wherever it stands.
#[derive(Clone, Debug, PartialEq, Eq)]
pub struct Facts {
    /// Its places are 0.
    pub entry: Entry,
    pub strings: Vec<Vec<u8>>,
    /// Of a histogram: its numbers, then its four lists, each with its count before it.
    pub numbers: Vec<u64>,
}

/// The entries in order. Refusals as for `check`.
pub fn entries_of(body: &[u8]) -> Result<Vec<Facts>, Refusal> {
    let mut list = Vec::new();
    let mut place = 1;
    while let Some(entry) = body::entry_at(body, place)? {
        list.push(Facts {
            strings: strings_of(body, &entry)?,
            numbers: numbers_at(body, place)?,
            entry: Entry {
                strings: 0,
                after: 0,
                ..entry
            },
        });
        place = entry.after;
    }
    Ok(list)
}

fn strings_of(body: &[u8], entry: &Entry) -> Result<Vec<Vec<u8>>, Refusal> {
    let mut place = entry.strings;
    let mut string = || {
        let (start, length) = body::string_at(body, place)?;
        place = start + length;
        Ok(body[start..place].to_vec())
    };
    (0..entry.string_count).map(|_| string()).collect()
}

/// None of an entry that is no histogram.
fn numbers_at(body: &[u8], place: usize) -> Result<Vec<u64>, Refusal> {
    let mut numbers = Vec::new();
    if !body::has_histograms(body[0]) {
        return Ok(numbers);
    }
    let read = histogram::histogram_at(body, place)?.expect("an entry");
    numbers.extend([read.hint.into(), read.schema as u64, read.zero_threshold]);
    numbers.extend([read.zero_count, read.count, read.sum]);
    for list in [read.positive_spans, read.negative_spans] {
        numbers.push(list.count);
        let mut at = list.first;
        for _ in 0..list.count {
            let (offset, length, after) = histogram::span_at(body, at)?;
            numbers.extend([offset as u64, length.into()]);
            at = after;
        }
    }
    for list in [read.positive_buckets, read.negative_buckets] {
        numbers.push(list.count);
        let mut at = list.first;
        for _ in 0..list.count {
            let (bucket, after) = histogram::bucket_at(body, at)?;
            numbers.push(bucket);
            at = after;
        }
    }
    Ok(numbers)
}
