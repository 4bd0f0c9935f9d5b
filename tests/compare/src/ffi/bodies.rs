//! The calls on bodies.

use super::*;
use reference::body::{NewEntry, State, Strings};
use reference::histogram::NewHistogram;

pub fn body_start(buffer: &mut [u8], kind: u8) -> Answer<2> {
    let length = buffer.len();
    let buffer = pointer_mut(buffer);
    answer(|out| unsafe { depot_wal_body_start(buffer, length, kind, out) })
}

/// The addition of the entry's type.
pub fn add(buffer: &mut [u8], state: State, entry: &NewEntry) -> Answer<2> {
    let State { kind, used } = state;
    let len = buffer.len();
    let buffer = pointer_mut(buffer);
    answer(|out| unsafe {
        match *entry {
            NewEntry::Histogram(new) => {
                add_histogram(depot_wal_add_histogram, (buffer, len), state, new, out)
            }
            NewEntry::FloatHistogram(new) => add_histogram(
                depot_wal_add_float_histogram,
                (buffer, len),
                state,
                new,
                out,
            ),
            NewEntry::Series(id, strings) => {
                let (text, size, lengths, count) = lent(strings);
                depot_wal_add_series(
                    buffer, len, kind, used, id.0, text, size, lengths, count, out,
                )
            }
            NewEntry::Sample(row) => {
                let (id, time) = (row.id.0, row.time.0);
                depot_wal_add_sample(buffer, len, kind, used, id, time, row.bits, out)
            }
            NewEntry::Tombstone(id, min, max) => {
                depot_wal_add_tombstone(buffer, len, kind, used, id.0, min.0, max.0, out)
            }
            NewEntry::Exemplar(row, strings) => {
                let (id, time, bits) = (row.id.0, row.time.0, row.bits);
                let (text, size, lengths, count) = lent(strings);
                depot_wal_add_exemplar(
                    buffer, len, kind, used, id, time, bits, text, size, lengths, count, out,
                )
            }
            NewEntry::Metadata(id, metric, strings) => {
                let (text, size, lengths, count) = lent(strings);
                depot_wal_add_metadata(
                    buffer, len, kind, used, id.0, metric, text, size, lengths, count, out,
                )
            }
        }
    })
}

unsafe fn add_histogram<B>(
    call: AddHistogram<B>,
    (buffer, len): (*mut u8, usize),
    state: State,
    new: &NewHistogram<B>,
    out: *mut [u64; 2],
) -> u32 {
    let (positive, negative) = (new.positive_spans, new.negative_spans);
    call(
        buffer,
        len,
        state.kind,
        state.used,
        new.id.0,
        new.time.0,
        new.hint,
        new.schema,
        new.zero_threshold,
        new.zero_count,
        new.count,
        new.sum,
        pointer(positive.offsets),
        positive.offsets.len(),
        pointer(positive.lengths),
        positive.lengths.len(),
        pointer(negative.offsets),
        negative.offsets.len(),
        pointer(negative.lengths),
        negative.lengths.len(),
        pointer(new.positive_buckets),
        new.positive_buckets.len(),
        pointer(new.negative_buckets),
        new.negative_buckets.len(),
        out,
    )
}

/// The string bytes and their number, the lengths and their number, as they are passed.
fn lent(strings: Strings) -> (*const u8, usize, *const u64, usize) {
    let (text, lengths) = (pointer(strings.text), pointer(strings.lengths));
    (text, strings.text.len(), lengths, strings.lengths.len())
}

pub fn body_check(body: &[u8]) -> Answer<1> {
    let (pointer, length) = (pointer(body), body.len());
    answer(|out| unsafe { depot_wal_body_check(pointer, length, out) })
}

pub fn entry_at(body: &[u8], place: usize) -> Answer<8> {
    let (pointer, length) = (pointer(body), body.len());
    answer(|out| unsafe { depot_wal_entry_at(pointer, length, place, out) })
}

pub fn string_at(body: &[u8], place: usize) -> Answer<2> {
    let (pointer, length) = (pointer(body), body.len());
    answer(|out| unsafe { depot_wal_string_at(pointer, length, place, out) })
}

pub fn histogram_at(body: &[u8], place: usize) -> Answer<18> {
    let (pointer, length) = (pointer(body), body.len());
    answer(|out| unsafe { depot_wal_histogram_at(pointer, length, place, out) })
}

pub fn span_at(body: &[u8], place: usize) -> Answer<3> {
    let (pointer, length) = (pointer(body), body.len());
    answer(|out| unsafe { depot_wal_span_at(pointer, length, place, out) })
}

pub fn bucket_at(body: &[u8], place: usize) -> Answer<2> {
    let (pointer, length) = (pointer(body), body.len());
    answer(|out| unsafe { depot_wal_bucket_at(pointer, length, place, out) })
}
