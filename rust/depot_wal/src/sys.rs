//! The C calls as they are, of `include/depot_wal.h`: each is declared here and nowhere else.
//!
//! A program uses the safe modules. These are for tests that call with states, places and lengths
//! which those modules cannot make. A pointer to an array has the size that the call takes for
//! granted; the header says what each number means, and what the caller owes:
//!
//! - every pointer is valid for its length or its array, and aligned; one of length 0 may be null;
//! - what a call may write overlaps nothing else that it is given;
//! - nobody else writes any of this memory meanwhile.

#![allow(missing_docs)]

/// Numbers in the checksum's table.
pub const TABLE_LEN: usize = 2048;
/// Numbers in the state of a page feed.
pub const FEED_LEN: usize = 16;
/// Series in the table of a replay, and in a report.
pub const SERIES_MAX: usize = 256;
/// Numbers of a series, in both.
pub const ROW_LEN: usize = 5;
/// Numbers in the table of a replay.
pub const REPLAY_LEN: usize = SERIES_MAX * ROW_LEN;
/// Numbers of a report before its rows.
pub const REPORT_HEAD: usize = 4;
/// Numbers of a report.
pub const REPORT_LEN: usize = REPORT_HEAD + SERIES_MAX * ROW_LEN;
/// Numbers of a histogram that is read.
pub const HISTOGRAM_LEN: usize = 18;

/// What a call returns that is no refusal: done, a clean or plain end, the next page asked for.
pub const DONE: u32 = 0;
pub const END: u32 = 200;
pub const MORE: u32 = 201;

// ---- The checksum and segments ----

extern "C" {
    pub fn depot_wal_crc32c(data: *const u8, len: usize) -> u32;
    pub fn depot_wal_table(table: *mut [u32; TABLE_LEN]);
    pub fn depot_wal_crc32c_with_table(
        table: *const [u32; TABLE_LEN],
        data: *const u8,
        len: usize,
    ) -> u32;
    pub fn depot_wal_write(
        version: u32,
        segment: *mut u8,
        segment_len: usize,
        place: usize,
        record: *const u8,
        record_len: usize,
        out: *mut [u64; 2],
    ) -> u32;
    pub fn depot_wal_write_with_table(
        table: *const [u32; TABLE_LEN],
        version: u32,
        segment: *mut u8,
        segment_len: usize,
        place: usize,
        record: *const u8,
        record_len: usize,
        out: *mut [u64; 2],
    ) -> u32;
    pub fn depot_wal_read(
        version: u32,
        segment: *const u8,
        segment_len: usize,
        place: usize,
        buffer: *mut u8,
        buffer_len: usize,
        good: *mut [u64; 2],
        out: *mut [u64; 3],
    ) -> u32;
    pub fn depot_wal_read_with_table(
        table: *const [u32; TABLE_LEN],
        version: u32,
        segment: *const u8,
        segment_len: usize,
        place: usize,
        buffer: *mut u8,
        buffer_len: usize,
        good: *mut [u64; 2],
        out: *mut [u64; 3],
    ) -> u32;
    pub fn depot_wal_resume(
        version: u32,
        segment: *mut u8,
        segment_len: usize,
        survived: usize,
        out: *mut [u64; 4],
    ) -> u32;
}

// ---- The page feed ----

extern "C" {
    pub fn depot_wal_feed_start(state: *mut [u64; FEED_LEN], version: u32) -> u32;
    pub fn depot_wal_feed_page(
        state: *mut [u64; FEED_LEN],
        page: *const u8,
        page_len: usize,
        out: *mut [u64; 3],
    ) -> u32;
    pub fn depot_wal_feed_read(
        state: *mut [u64; FEED_LEN],
        page: *const u8,
        page_len: usize,
        buffer: *mut u8,
        buffer_len: usize,
        out: *mut [u64; 5],
    ) -> u32;
}

// ---- Bodies: building ----

/// The addition of a histogram, whose buckets are whole numbers or the bits of floats.
pub type AddHistogram<B> = unsafe extern "C" fn(
    buffer: *mut u8,
    len: usize,
    kind: u8,
    used: usize,
    id: u64,
    time: i64,
    hint: u8,
    schema: i32,
    zero_threshold: u64,
    zero_count: u64,
    count: u64,
    sum: u64,
    positive_offsets: *const i32,
    positive_offsets_len: usize,
    positive_lengths: *const u32,
    positive_lengths_len: usize,
    negative_offsets: *const i32,
    negative_offsets_len: usize,
    negative_lengths: *const u32,
    negative_lengths_len: usize,
    positive_buckets: *const B,
    positive_buckets_len: usize,
    negative_buckets: *const B,
    negative_buckets_len: usize,
    out: *mut [u64; 2],
) -> u32;

extern "C" {
    pub fn depot_wal_body_start(buffer: *mut u8, len: usize, kind: u8, out: *mut [u64; 2]) -> u32;
    pub fn depot_wal_add_series(
        buffer: *mut u8,
        len: usize,
        kind: u8,
        used: usize,
        id: u64,
        strings: *const u8,
        strings_len: usize,
        lengths: *const u64,
        count: usize,
        out: *mut [u64; 2],
    ) -> u32;
    pub fn depot_wal_add_sample(
        buffer: *mut u8,
        len: usize,
        kind: u8,
        used: usize,
        id: u64,
        time: i64,
        bits: u64,
        out: *mut [u64; 2],
    ) -> u32;
    pub fn depot_wal_add_tombstone(
        buffer: *mut u8,
        len: usize,
        kind: u8,
        used: usize,
        id: u64,
        min: i64,
        max: i64,
        out: *mut [u64; 2],
    ) -> u32;
    pub fn depot_wal_add_exemplar(
        buffer: *mut u8,
        len: usize,
        kind: u8,
        used: usize,
        id: u64,
        time: i64,
        bits: u64,
        strings: *const u8,
        strings_len: usize,
        lengths: *const u64,
        count: usize,
        out: *mut [u64; 2],
    ) -> u32;
    pub fn depot_wal_add_metadata(
        buffer: *mut u8,
        len: usize,
        kind: u8,
        used: usize,
        id: u64,
        metric_type: u8,
        strings: *const u8,
        strings_len: usize,
        lengths: *const u64,
        count: usize,
        out: *mut [u64; 2],
    ) -> u32;
    pub fn depot_wal_add_histogram(
        buffer: *mut u8,
        len: usize,
        kind: u8,
        used: usize,
        id: u64,
        time: i64,
        hint: u8,
        schema: i32,
        zero_threshold: u64,
        zero_count: u64,
        count: u64,
        sum: u64,
        positive_offsets: *const i32,
        positive_offsets_len: usize,
        positive_lengths: *const u32,
        positive_lengths_len: usize,
        negative_offsets: *const i32,
        negative_offsets_len: usize,
        negative_lengths: *const u32,
        negative_lengths_len: usize,
        positive_buckets: *const i64,
        positive_buckets_len: usize,
        negative_buckets: *const i64,
        negative_buckets_len: usize,
        out: *mut [u64; 2],
    ) -> u32;
    pub fn depot_wal_add_float_histogram(
        buffer: *mut u8,
        len: usize,
        kind: u8,
        used: usize,
        id: u64,
        time: i64,
        hint: u8,
        schema: i32,
        zero_threshold: u64,
        zero_count: u64,
        count: u64,
        sum: u64,
        positive_offsets: *const i32,
        positive_offsets_len: usize,
        positive_lengths: *const u32,
        positive_lengths_len: usize,
        negative_offsets: *const i32,
        negative_offsets_len: usize,
        negative_lengths: *const u32,
        negative_lengths_len: usize,
        positive_buckets: *const u64,
        positive_buckets_len: usize,
        negative_buckets: *const u64,
        negative_buckets_len: usize,
        out: *mut [u64; 2],
    ) -> u32;
}

// ---- Bodies: reading ----

extern "C" {
    pub fn depot_wal_body_check(body: *const u8, len: usize, out: *mut [u64; 1]) -> u32;
    pub fn depot_wal_entry_at(body: *const u8, len: usize, place: usize, out: *mut [u64; 8])
        -> u32;
    pub fn depot_wal_string_at(
        body: *const u8,
        len: usize,
        place: usize,
        out: *mut [u64; 2],
    ) -> u32;
    pub fn depot_wal_histogram_at(
        body: *const u8,
        len: usize,
        place: usize,
        out: *mut [u64; HISTOGRAM_LEN],
    ) -> u32;
    pub fn depot_wal_span_at(body: *const u8, len: usize, place: usize, out: *mut [u64; 3]) -> u32;
    pub fn depot_wal_bucket_at(
        body: *const u8,
        len: usize,
        place: usize,
        out: *mut [u64; 2],
    ) -> u32;
}

// ---- What the records of a segment say together ----

extern "C" {
    pub fn depot_wal_replay(
        version: u32,
        segment: *const u8,
        segment_len: usize,
        buffer: *mut u8,
        buffer_len: usize,
        table: *mut [u64; REPLAY_LEN],
        out: *mut [u64; 6],
    ) -> u32;
    pub fn depot_wal_replay_strict(
        version: u32,
        segment: *const u8,
        segment_len: usize,
        buffer: *mut u8,
        buffer_len: usize,
        table: *mut [u64; REPLAY_LEN],
        out: *mut [u64; 6],
    ) -> u32;
    pub fn depot_wal_report_segment(
        version: u32,
        segment: *const u8,
        segment_len: usize,
        buffer: *mut u8,
        buffer_len: usize,
        report: *mut [u64; REPORT_LEN],
        out: *mut [u64; 1],
    ) -> u32;
    pub fn depot_wal_checkpoint(
        version: u32,
        source: *const u8,
        source_len: usize,
        ids: *const u64,
        ids_len: usize,
        time: i64,
        target: *mut u8,
        target_len: usize,
        work: *mut u8,
        work_len: usize,
        body: *mut u8,
        body_len: usize,
        out: *mut [u64; 2],
    ) -> u32;
}

// ---- The index, the size, names ----

extern "C" {
    pub fn depot_wal_index_build(
        version: u32,
        segment: *const u8,
        segment_len: usize,
        index: *mut u8,
        index_len: usize,
        out: *mut [u64; 2],
    ) -> u32;
    pub fn depot_wal_index_check(
        version: u32,
        segment: *const u8,
        segment_len: usize,
        index: *const u8,
        index_len: usize,
        out: *mut [u64; 1],
    ) -> u32;
    pub fn depot_wal_index_extend(
        version: u32,
        segment: *const u8,
        segment_len: usize,
        index: *mut u8,
        index_len: usize,
        used: usize,
        out: *mut [u64; 2],
    ) -> u32;
    pub fn depot_wal_index_at(
        index: *const u8,
        index_len: usize,
        record: u64,
        out: *mut [u64; 2],
    ) -> u32;
    pub fn depot_wal_pages_for(records: u64, bytes: u64, out: *mut [u64; 1]) -> u32;
    pub fn depot_wal_name_parse(name: *const u8, len: usize, out: *mut [u64; 2]) -> u32;
    pub fn depot_wal_name_make(
        sequence: u64,
        version: u64,
        name: *mut u8,
        len: usize,
        out: *mut [u64; 2],
    ) -> u32;
}
