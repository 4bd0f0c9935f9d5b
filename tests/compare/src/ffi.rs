//! The archive's C calls, as the Rust crate declares them, with guards around what they may write.
//! A slice passes as pointer and length; every second empty slice passes as a null pointer. `out`
//! is between guard words and is filled with a pattern before each call.

pub mod bare;
mod bodies;
pub mod checkpoint;
pub mod feed;
pub mod index;
pub mod names;
pub mod replay;
pub mod report;
pub mod resume;

pub use bodies::{
    add, body_check, body_start, bucket_at, entry_at, histogram_at, span_at, string_at,
};
use depot_wal::sys::*;
pub use depot_wal::sys::{END, TABLE_LEN};
use std::sync::atomic::{AtomicBool, Ordering};

pub type Table = [u32; TABLE_LEN];

/// The good length: the number of whole records, and the offset after the last.
pub type Pair = [u64; 2];

const PATTERN: u64 = 0xA5A5_5A5A_C3C3_3C3C;

/// What a call returned and left in `out`; `beside` says whether it wrote beside `out`, a state or
/// a table of series.
#[derive(Clone, Copy, Debug, PartialEq, Eq)]
pub struct Answer<const N: usize> {
    pub number: u32,
    pub out: [u64; N],
    pub beside: bool,
}

impl<const N: usize> Answer<N> {
    pub fn new(number: u32, out: [u64; N]) -> Answer<N> {
        let beside = false;
        Answer {
            number,
            out,
            beside,
        }
    }
}

#[repr(C)]
struct Guarded<const N: usize> {
    before: [u64; 2],
    out: [u64; N],
    after: [u64; 2],
}

impl<const N: usize> Guarded<N> {
    fn new(out: [u64; N]) -> Guarded<N> {
        let (before, after) = ([PATTERN; 2], [PATTERN; 2]);
        Guarded { before, out, after }
    }

    /// True if a guard word was written.
    fn beside(&self) -> bool {
        self.before != [PATTERN; 2] || self.after != [PATTERN; 2]
    }
}

/// Makes the call with a guarded `out`.
fn answer<const N: usize>(call: impl FnOnce(*mut [u64; N]) -> u32) -> Answer<N> {
    let mut lent = Guarded::new([PATTERN; N]);
    let number = call(&mut lent.out);
    Answer {
        number,
        out: lent.out,
        beside: lent.beside(),
    }
}

/// Makes the call with a guarded copy of the numbers, and takes over what it left there.
fn lend<const N: usize, const M: usize>(
    numbers: &mut [u64; M],
    call: impl FnOnce(*mut [u64; M]) -> Answer<N>,
) -> Answer<N> {
    let mut lent = Guarded::new(*numbers);
    let mut answer = call(&mut lent.out);
    answer.beside |= lent.beside();
    *numbers = lent.out;
    answer
}

static NULL_NEXT: AtomicBool = AtomicBool::new(false);

/// True for every second empty slice.
fn as_null(empty: bool) -> bool {
    empty && NULL_NEXT.fetch_xor(true, Ordering::Relaxed)
}

fn pointer<T>(slice: &[T]) -> *const T {
    if as_null(slice.is_empty()) {
        std::ptr::null()
    } else {
        slice.as_ptr()
    }
}

fn pointer_mut<T>(slice: &mut [T]) -> *mut T {
    if as_null(slice.is_empty()) {
        std::ptr::null_mut()
    } else {
        slice.as_mut_ptr()
    }
}

// ---- Checksums ----

pub fn crc32c(data: &[u8]) -> u32 {
    unsafe { depot_wal_crc32c(pointer(data), data.len()) }
}

pub fn crc32c_with_table(table: &Table, data: &[u8]) -> u32 {
    unsafe { depot_wal_crc32c_with_table(table, pointer(data), data.len()) }
}

/// The archive's table; `None` if it wrote beside it.
pub fn table() -> Option<Box<Table>> {
    const GUARD: usize = 16;
    let mut lent = [PATTERN as u32; GUARD + TABLE_LEN + GUARD];
    unsafe { depot_wal_table(lent[GUARD..].as_mut_ptr().cast()) };
    let (before, rest) = lent.split_at(GUARD);
    let (inner, after) = rest.split_at(TABLE_LEN);
    let untouched = |guard: &[u32]| guard.iter().all(|&word| word == PATTERN as u32);
    if !untouched(before) || !untouched(after) {
        return None;
    }
    Some(Box::new(
        inner.try_into().expect("the inner part is a table"),
    ))
}

// ---- Segments ----

pub fn pages_for(records: u64, bytes: u64) -> Answer<1> {
    answer(|out| unsafe { depot_wal_pages_for(records, bytes, out) })
}

pub fn write(version: u32, segment: &mut [u8], place: usize, record: &[u8]) -> Answer<2> {
    let (length, record_len) = (segment.len(), record.len());
    let (segment, record) = (pointer_mut(segment), pointer(record));
    answer(|out| unsafe {
        depot_wal_write(version, segment, length, place, record, record_len, out)
    })
}

/// `out`, and then the pair that was handed back for the one given.
pub fn read(
    version: u32,
    segment: &[u8],
    place: usize,
    buffer: &mut [u8],
    good: Pair,
) -> Answer<5> {
    let (length, buffer_len) = (segment.len(), buffer.len());
    let (segment, buffer) = (pointer(segment), pointer_mut(buffer));
    with_pair(good, |good| {
        answer(|out| unsafe {
            depot_wal_read(
                version, segment, length, place, buffer, buffer_len, good, out,
            )
        })
    })
}

pub fn write_with_table(
    table: &Table,
    version: u32,
    segment: &mut [u8],
    place: usize,
    record: &[u8],
) -> Answer<2> {
    let (length, record_len) = (segment.len(), record.len());
    let (segment, record) = (pointer_mut(segment), pointer(record));
    answer(|out| unsafe {
        depot_wal_write_with_table(
            table, version, segment, length, place, record, record_len, out,
        )
    })
}

pub fn read_with_table(
    table: &Table,
    version: u32,
    segment: &[u8],
    place: usize,
    buffer: &mut [u8],
    good: Pair,
) -> Answer<5> {
    let (length, buffer_len) = (segment.len(), buffer.len());
    let (segment, buffer) = (pointer(segment), pointer_mut(buffer));
    with_pair(good, |good| {
        answer(|out| unsafe {
            depot_wal_read_with_table(
                table, version, segment, length, place, buffer, buffer_len, good, out,
            )
        })
    })
}

/// Makes the call with a guarded copy of the pair, and puts what it left there after `out`.
fn with_pair(mut pair: Pair, call: impl FnOnce(*mut Pair) -> Answer<3>) -> Answer<5> {
    let Answer {
        number,
        out: [start, length, after],
        beside,
    } = lend(&mut pair, call);
    let out = [start, length, after, pair[0], pair[1]];
    Answer {
        number,
        out,
        beside,
    }
}
