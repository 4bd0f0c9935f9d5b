//! Logs for replay, the report and the checkpoint: records about few ids and times, so that they
//! meet.

use crate::bodies::{any_number, hand_made, push_padded, KINDS};
use crate::generate::{make_fragment, Fragment, Sample};
use crate::rng::Rng;
use reference::body::{
    self, NewEntry, SeriesId, Strings, Timestamp, BODY_MAX, EXEMPLARS, FLOAT_HISTOGRAMS,
    HISTOGRAMS, METADATA, SAMPLES, SERIES, TOMBSTONES,
};
use reference::histogram::{NewHistogram, Spans};
use reference::segment::{left_in_page, FIRST, FULL, HEADER, LAST, MIDDLE};
use reference::varint;
use reference::version::Version;

// ---- Records, one after another ----

/// A log being written.
#[derive(Default)]
pub struct Log {
    pub bytes: Vec<u8>,
    fragments: Vec<Fragment>,
}

impl Log {
    pub fn of(bodies: &[Vec<u8>]) -> Log {
        let mut log = Log::default();
        for body in bodies {
            log.add(body);
        }
        log
    }

    /// Adds a record as our writer splits it; an empty one as a hollow fragment.
    pub fn add(&mut self, record: &[u8]) {
        self.add_by(record, |most| most);
    }

    /// Adds a record in short fragments, as no writer of ours splits it.
    pub fn add_split(&mut self, rng: &mut Rng, record: &[u8]) {
        self.add_by(record, |most| match rng.below(4) {
            0 => most,
            1 => 0,
            _ => rng.below(most + 1),
        });
    }

    /// `pick` says how much of the rest a fragment takes, of at most so much.
    fn add_by(&mut self, record: &[u8], mut pick: impl FnMut(usize) -> usize) {
        let mut rest = record;
        let mut begun = None;
        loop {
            let start = self.fill_page_end();
            let most = rest.len().min(left_in_page(start) - HEADER);
            let (data, later) = rest.split_at(pick(most));
            let kind = match (begun.is_none(), later.is_empty()) {
                (true, true) => FULL,
                (true, false) => FIRST,
                (false, false) => MIDDLE,
                (false, true) => LAST,
            };
            self.bytes.extend([0; HEADER]);
            self.bytes.extend(data);
            make_fragment(Version::One, &mut self.bytes[start..], kind);
            let record = *begun.get_or_insert(start);
            let end = self.bytes.len();
            self.fragments.push(Fragment { start, end, record });
            if later.is_empty() {
                return;
            }
            rest = later;
        }
    }

    /// Fills up a page that has no room for a header, and hands back the place.
    fn fill_page_end(&mut self) -> usize {
        let left = left_in_page(self.bytes.len());
        if left < HEADER {
            self.bytes.resize(self.bytes.len() + left, 0);
        }
        self.bytes.len()
    }

    pub fn sample(self) -> Sample {
        Sample {
            version: Version::One,
            bytes: self.bytes,
            start: 0,
            fragments: self.fragments,
        }
    }
}

/// So many records about so many ids, each of up to `most` entries. Half of the logs enter some ids
/// first, so that not all rows are orphans for long; a third splits its records.
pub fn any_log(rng: &mut Rng, count: usize, records: usize, most: usize) -> Log {
    let mut world = World::new(rng, count);
    let mut log = Log::default();
    if rng.once_in(2) {
        let entered = rng.below(count + 1).min(256);
        log.add(&series(&world.ids[..entered]));
    }
    let split = rng.once_in(3);
    for _ in 0..records {
        let body = world.body(rng, most);
        if split && rng.once_in(2) {
            log.add_split(rng, &body);
        } else {
            log.add(&body);
        }
    }
    log
}

// ---- Bodies ----

pub fn build(kind: u8, entries: &[NewEntry]) -> Vec<u8> {
    let mut buffer = vec![0; BODY_MAX];
    let mut state = body::start(&mut buffer, kind).expect("the type is known");
    for entry in entries {
        state = body::add(&mut buffer, state, entry).expect("the entries fit");
    }
    buffer.truncate(state.used);
    buffer
}

/// A series body of these ids, without strings.
pub fn series(ids: &[u64]) -> Vec<u8> {
    let entries: Vec<NewEntry> = ids.iter().map(|&id| new_series(id)).collect();
    build(SERIES, &entries)
}

fn new_series<'a>(id: u64) -> NewEntry<'a> {
    let (text, lengths) = (&[], &[]);
    NewEntry::Series(SeriesId(id), Strings { text, lengths })
}

/// A samples body of these rows: id, time, bits.
pub fn samples(rows: &[(u64, i64, u64)]) -> Vec<u8> {
    let entries: Vec<NewEntry> = rows.iter().map(|&row| new_sample(row)).collect();
    build(SAMPLES, &entries)
}

fn new_sample<'a>((id, time, bits): (u64, i64, u64)) -> NewEntry<'a> {
    NewEntry::Sample(sample((id, time, bits)))
}

pub fn sample((id, time, bits): (u64, i64, u64)) -> body::Sample {
    let (id, time) = (SeriesId(id), Timestamp(time));
    body::Sample { id, time, bits }
}

/// A body of tombstones: id, min, max.
pub fn tombstones(ranges: &[(u64, i64, i64)]) -> Vec<u8> {
    let entries: Vec<NewEntry> = ranges
        .iter()
        .map(|&(id, min, max)| NewEntry::Tombstone(SeriesId(id), Timestamp(min), Timestamp(max)))
        .collect();
    build(TOMBSTONES, &entries)
}

/// A body cut at every place, of every type, and with each byte changed into one that a varint goes
/// on with.
pub fn broken_bodies(rng: &mut Rng, body: &[u8]) -> Vec<Vec<u8>> {
    let mut broken: Vec<Vec<u8>> = (0..body.len()).map(|cut| body[..cut].to_vec()).collect();
    for kind in 0..=255 {
        let rest = &body[body.len().min(1)..];
        broken.push([&[kind], rest].concat());
    }
    for place in 1..body.len() {
        let mut changed = body.to_vec();
        changed[place] = rng.pick(&[0x80, 0xFF, 0x8F]);
        broken.push(changed.clone());
        // Ten bytes of which the last is above 1, or is missing.
        let end = changed.len().min(place + 10);
        changed[place..end].fill(0xFF);
        broken.push(changed);
    }
    broken
}

// ---- What the records of one log are about ----

pub struct World {
    pub ids: Vec<u64>,
    /// Times that rows had lately.
    times: [i64; 4],
    /// Some of its records are of types that are not known. These stop a strict replay, so most
    /// logs have none.
    newer: bool,
}

impl World {
    /// With so many ids, of which no two are equal.
    pub fn new(rng: &mut Rng, count: usize) -> World {
        let ids = some_ids(rng, count);
        let now = any_number(rng, 1_000) as i64;
        let times = [now; 4];
        let newer = rng.once_in(4);
        World { ids, times, newer }
    }

    /// An id of this log, or now and then one that only looks like it.
    fn id(&self, rng: &mut Rng) -> u64 {
        let id = rng.pick(&self.ids);
        match rng.below(16) {
            0 => id ^ 1 << rng.below(64),
            _ => id,
        }
    }

    /// Later than a row before as often as not; also equal, earlier, and at the ends of 64 bits.
    fn time(&mut self, rng: &mut Rng) -> i64 {
        let before = rng.pick(&self.times);
        let little = rng.below(3) as i64;
        let time = match rng.below(32) {
            0 => rng.pick(&[i64::MIN, i64::MIN + 1, i64::MAX - 1, i64::MAX]),
            1 | 2 => rng.pick(&[-1, 0, 1]),
            3 => any_number(rng, 0) as i64,
            4..=9 => before.wrapping_sub(little),
            10..=13 => before,
            _ => before.wrapping_add(little),
        };
        self.times[rng.below(4)] = time;
        time
    }

    /// What a tombstone covers: a time, or only what is before or after it, or nothing.
    fn range(&mut self, rng: &mut Rng) -> (i64, i64) {
        let time = rng.pick(&self.times);
        let (before, after) = (time.wrapping_sub(1), time.wrapping_add(1));
        match rng.below(12) {
            0 | 1 => (time, time),
            2 => (before, after),
            3 => (i64::MIN, i64::MAX),
            4 => (i64::MIN, time),
            5 => (time, i64::MAX),
            6 => (i64::MIN, before),
            7 => (after, i64::MAX),
            8 => (after, time),
            9 => (after, before),
            10 => (i64::MAX, i64::MIN),
            _ => (any_number(rng, 0) as i64, any_number(rng, 0) as i64),
        }
    }

    fn row(&mut self, rng: &mut Rng) -> (u64, i64, u64) {
        (self.id(rng), self.time(rng), any_number(rng, 0x3FF0 << 48))
    }

    /// A record's body of any type, with up to `most` entries. One that is refused stops a replay,
    /// so the kinds that may be are rare.
    pub fn body(&mut self, rng: &mut Rng, most: usize) -> Vec<u8> {
        let count = rng.below(most + 1);
        if self.newer && rng.once_in(8) {
            return unknown_body(rng);
        }
        match rng.below(64) {
            0..=13 => self.series_body(rng, count),
            14..=37 => samples(&self.list(rng, count, World::row)),
            38..=49 => tombstones(&self.list(rng, count, World::tombstone)),
            50..=57 => self.idle_body(rng, count),
            58..=60 => build(rng.pick(&KINDS), &[]),
            61 | 62 => self.foreign_samples(rng, count.min(4)),
            _ => hand_made(rng),
        }
    }

    fn list<T>(
        &mut self,
        rng: &mut Rng,
        count: usize,
        one: fn(&mut World, &mut Rng) -> T,
    ) -> Vec<T> {
        (0..count).map(|_| one(self, rng)).collect()
    }

    fn tombstone(&mut self, rng: &mut Rng) -> (u64, i64, i64) {
        let (min, max) = self.range(rng);
        (self.id(rng), min, max)
    }

    /// Ids of this log with strings, the same id now and then twice.
    fn series_body(&mut self, rng: &mut Rng, count: usize) -> Vec<u8> {
        let text = rng.bytes(8);
        let entries: Vec<NewEntry> = (0..count)
            .map(|_| NewEntry::Series(SeriesId(rng.pick(&self.ids)), some_strings(rng, &text)))
            .collect();
        build(SERIES, &entries)
    }

    /// Exemplars, metadata or histograms of the ids of this log, which change nothing.
    fn idle_body(&mut self, rng: &mut Rng, count: usize) -> Vec<u8> {
        if rng.once_in(2) {
            return self.histograms(rng, count.min(40));
        }
        let text = rng.bytes(8);
        let kind = rng.pick(&[EXEMPLARS, METADATA]);
        let entries: Vec<NewEntry> = (0..count)
            .map(|_| match kind {
                EXEMPLARS => NewEntry::Exemplar(sample(self.row(rng)), some_strings(rng, &text)),
                _ => {
                    let id = SeriesId(self.id(rng));
                    NewEntry::Metadata(id, rng.byte(), some_strings(rng, &text))
                }
            })
            .collect();
        build(kind, &entries)
    }

    fn histograms(&mut self, rng: &mut Rng, count: usize) -> Vec<u8> {
        let rows = self.list(rng, count, World::row);
        let buckets = rng.below(10);
        if rng.once_in(2) {
            let buckets: Vec<i64> = (0..buckets).map(|_| any_number(rng, 0) as i64).collect();
            let all: Vec<_> = rows.iter().map(|&row| histogram(row, &buckets)).collect();
            let entries: Vec<NewEntry> = all.iter().map(NewEntry::Histogram).collect();
            return build(HISTOGRAMS, &entries);
        }
        let buckets: Vec<u64> = (0..buckets).map(|_| any_number(rng, 0)).collect();
        let all: Vec<_> = rows.iter().map(|&row| histogram(row, &buckets)).collect();
        let entries: Vec<NewEntry> = all.iter().map(NewEntry::FloatHistogram).collect();
        build(FLOAT_HISTOGRAMS, &entries)
    }

    /// Rows counted from any first id and time, their varints now and then longer than needed or
    /// bad: no builder makes them so.
    fn foreign_samples(&mut self, rng: &mut Rng, count: usize) -> Vec<u8> {
        let (first_id, first_time) = (any_number(rng, 7), any_number(rng, 1_000) as i64);
        let mut bytes = vec![SAMPLES];
        bytes.extend(first_id.to_be_bytes());
        bytes.extend(first_time.to_be_bytes());
        for _ in 0..count {
            let (id, time, bits) = self.row(rng);
            let deltas = [
                id.wrapping_sub(first_id) as i64,
                time.wrapping_sub(first_time),
            ];
            for delta in deltas {
                push_padded(rng, varint::zigzag(delta), &mut bytes);
            }
            bytes.extend(bits.to_be_bytes());
        }
        bytes
    }
}

/// A histogram of this id, time and sum.
pub fn histogram<B>((id, time, sum): (u64, i64, u64), buckets: &[B]) -> NewHistogram<'_, B> {
    let (offsets, lengths) = (&[-1, i32::MAX], &[2, u32::MAX]);
    NewHistogram {
        id: SeriesId(id),
        time: Timestamp(time),
        hint: 3,
        schema: i32::MIN,
        zero_threshold: 1,
        zero_count: id,
        count: sum,
        sum,
        positive_spans: Spans { offsets, lengths },
        negative_spans: Spans { offsets, lengths },
        positive_buckets: buckets,
        negative_buckets: buckets,
    }
}

/// A body of a type that is not known; its other bytes are any, or those of a good body.
fn unknown_body(rng: &mut Rng) -> Vec<u8> {
    let mut bytes = match rng.below(3) {
        0 => vec![0],
        1 => samples(&[(7, 1_000, 1), (8, 1_000, 2)]),
        _ => {
            let length = 1 + rng.below(60);
            rng.bytes(length)
        }
    };
    bytes[0] = match rng.below(4) {
        0 => rng.pick(&[0, 9, 255]),
        1 => 9 + rng.below(247) as u8,
        _ => rng.pick(&[5, 200]),
    };
    bytes
}

/// No, one or two pairs of strings, all from the same text of 8 bytes.
fn some_strings<'a>(rng: &mut Rng, text: &'a [u8]) -> Strings<'a> {
    let (text, lengths): (_, &[u64]) = match rng.below(4) {
        0 => (&text[..5], &[2, 3]),
        1 => (text, &[0, 1, 7, 0]),
        _ => (&text[..0], &[]),
    };
    Strings { text, lengths }
}

/// Ids in a row up or down, such that share their low bits or their high bits, and any.
fn some_ids(rng: &mut Rng, count: usize) -> Vec<u64> {
    let first = any_number(rng, 7);
    let step = match rng.below(8) {
        0..=2 => 1,
        3 => u64::MAX,
        4 => 1 << (8 + rng.below(8)),
        5 => 1 << (48 + rng.below(3)),
        6 => 3,
        _ => rng.number() | 1,
    };
    let mut ids: Vec<u64> = (0..count as u64)
        .map(|index| first.wrapping_add(index.wrapping_mul(step)))
        .collect();
    if rng.once_in(4) {
        for place in (1..count).rev() {
            ids.swap(place, rng.below(place + 1));
        }
    }
    ids
}
