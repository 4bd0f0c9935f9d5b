//! Building and reading of bodies against the second program: answer, `out`, every caller-owned
//! byte.

mod hand_made;
mod histograms;
mod long_lists;

pub(crate) use hand_made::{hand_made, noise, push_padded};

use crate::ffi::{self, Answer, END};
use crate::rng::Rng;
use crate::twin::Twin;
use crate::{Group, Outcome};
use reference::body::{self, Entry, NewEntry, Sample, SeriesId, State, Strings, Timestamp};
use reference::histogram::{self, Histogram};
use reference::refusal::Refusal;
use reference::segment::{self, Good, Reading, RECORD_MAX};
use reference::varint;
use reference::version::Version;
use std::fmt;

pub fn groups() -> Vec<Group> {
    vec![
        ("body, starts", compare_starts),
        ("body, single additions", compare_additions),
        ("body, additions at the limit", compare_limit),
        ("body, lists of additions", compare_lists),
        ("body, long lists of strings", long_lists::compare),
        ("body, histograms", histograms::compare_lists),
        ("body, single histograms", histograms::compare_additions),
        ("body, damaged histograms", histograms::compare_damage),
        ("body, histograms out of range", histograms::compare_ranges),
        ("body, hand-made bodies", hand_made::compare_hand_made),
        ("body, random bytes", hand_made::compare_noise),
        ("body, long bodies", compare_long),
    ]
}

pub(crate) const KINDS: [u8; 7] = [
    body::SERIES,
    body::SAMPLES,
    body::TOMBSTONES,
    body::EXEMPLARS,
    body::METADATA,
    body::HISTOGRAMS,
    body::FLOAT_HISTOGRAMS,
];

/// The types that `Facts` makes entries of.
const PLAIN: [u8; 5] = [
    body::SERIES,
    body::SAMPLES,
    body::TOMBSTONES,
    body::EXEMPLARS,
    body::METADATA,
];

/// The longest buffer.
const ROOM: usize = 70_000;
/// The most string bytes of one addition, long lists aside.
const TEXT: usize = 2_000;
/// Places and bytes used that nothing has.
const FAR: [usize; 6] = [
    usize::MAX,
    usize::MAX - 1,
    usize::MAX - 16,
    usize::MAX / 2 + 1,
    1 << 32,
    (1 << 32) + 1,
];

/// The caller-owned bytes, used again from case to case.
struct Bench {
    body: Twin,
    /// Noise to take the strings from, and how it was.
    text: Vec<u8>,
    old_text: Vec<u8>,
    cases: u64,
}

impl Bench {
    fn new(rng: &mut Rng) -> Bench {
        Bench::with_text(rng, TEXT)
    }

    /// With strings of at most `text` bytes together.
    fn with_text(rng: &mut Rng, text: usize) -> Bench {
        let body = Twin::new(rng, ROOM);
        let text = rng.bytes(64 + text + 64);
        let old_text = text.clone();
        let cases = 0;
        Bench {
            body,
            text,
            old_text,
            cases,
        }
    }

    fn start(&mut self, length: usize, kind: u8) -> Result<Answer<2>, String> {
        let (ours, theirs) = self.body.both(0..length);
        let got = ffi::body_start(ours, kind);
        let wanted = state_answer(0, body::start(theirs, kind));
        let what = || format!("start of type {kind} in {length} bytes");
        self.compare(length, got, wanted, what)
    }

    /// Adds an entry; its strings are taken from the middle of the text.
    fn add(
        &mut self,
        length: usize,
        state: State,
        facts: &Facts,
        kind: u8,
    ) -> Result<Answer<2>, String> {
        let guarded = facts.guarded_lengths();
        let strings = Strings {
            text: &self.text[64..64 + facts.text],
            lengths: &guarded[2..guarded.len() - 2],
        };
        let entry = facts.entry(kind, strings);
        let (ours, theirs) = self.body.both(0..length);
        let got = ffi::add(ours, state, &entry);
        let wanted = state_answer(state.used, body::add(theirs, state, &entry));
        let what = || format!("add to {state:?} in {length} bytes: kind {kind}, {facts}");
        if self.text != self.old_text || guarded != facts.guarded_lengths() {
            return Err(format!("{}: the lent strings were changed", what()));
        }
        self.compare(length, got, wanted, what)
    }

    fn check(&mut self, length: usize) -> Result<Answer<1>, String> {
        let (ours, theirs) = self.body.both(0..length);
        let got = ffi::body_check(ours);
        let wanted = match body::check(theirs) {
            Ok(count) => Answer::new(0, [count as u64]),
            Err(refusal) => Answer::new(refusal.number, [refusal.place as u64]),
        };
        self.compare(length, got, wanted, || format!("check of {length} bytes"))
    }

    fn entry_at(&mut self, length: usize, place: usize) -> Result<Answer<8>, String> {
        let (ours, theirs) = self.body.both(0..length);
        let got = ffi::entry_at(ours, place);
        let wanted = entry_answer(body::entry_at(theirs, place));
        let what = || format!("entry at {place} of {length} bytes");
        self.compare(length, got, wanted, what)
    }

    fn string_at(&mut self, length: usize, place: usize) -> Result<Answer<2>, String> {
        let (ours, theirs) = self.body.both(0..length);
        let got = ffi::string_at(ours, place);
        let wanted = match body::string_at(theirs, place) {
            Ok((start, length)) => Answer::new(0, [start as u64, length as u64]),
            Err(refusal) => Answer::new(refusal.number, [refusal.place as u64, 0]),
        };
        let what = || format!("string at {place} of {length} bytes");
        self.compare(length, got, wanted, what)
    }

    fn histogram_at(&mut self, length: usize, place: usize) -> Result<Answer<18>, String> {
        let (ours, theirs) = self.body.both(0..length);
        let got = ffi::histogram_at(ours, place);
        let wanted = histogram_answer(histogram::histogram_at(theirs, place));
        let what = || format!("histogram at {place} of {length} bytes");
        self.compare(length, got, wanted, what)
    }

    fn span_at(&mut self, length: usize, place: usize) -> Result<Answer<3>, String> {
        let (ours, theirs) = self.body.both(0..length);
        let got = ffi::span_at(ours, place);
        let wanted = match histogram::span_at(theirs, place) {
            Ok((offset, length, after)) => {
                Answer::new(0, [offset as u64, u64::from(length), after as u64])
            }
            Err(refusal) => Answer::new(refusal.number, [refusal.place as u64, 0, 0]),
        };
        let what = || format!("span at {place} of {length} bytes");
        self.compare(length, got, wanted, what)
    }

    fn bucket_at(&mut self, length: usize, place: usize) -> Result<Answer<2>, String> {
        let (ours, theirs) = self.body.both(0..length);
        let got = ffi::bucket_at(ours, place);
        let wanted = match histogram::bucket_at(theirs, place) {
            Ok((bucket, after)) => Answer::new(0, [bucket, after as u64]),
            Err(refusal) => Answer::new(refusal.number, [refusal.place as u64, 0]),
        };
        let what = || format!("bucket at {place} of {length} bytes");
        self.compare(length, got, wanted, what)
    }

    /// The answer, then every byte of the body and the guards around it.
    fn compare<const N: usize>(
        &mut self,
        length: usize,
        got: Answer<N>,
        wanted: Answer<N>,
        what: impl Fn() -> String,
    ) -> Result<Answer<N>, String> {
        self.cases += 1;
        let bytes = self.body.bytes(0..length.min(200));
        if got != wanted {
            return Err(format!(
                "{}: got {got:?}, wanted {wanted:?}; the body is {bytes:02X?}",
                what()
            ));
        }
        if !self.body.equal_to(length) {
            let place = self.body.first_difference();
            return Err(format!("{}: bytes differ at {place:?}", what()));
        }
        Ok(wanted)
    }

    /// Reads the whole body: check, each entry in turn, as a histogram too, each of its strings and
    /// of the elements of its lists.
    fn read_through(&mut self, length: usize) -> Result<(), String> {
        self.check(length)?;
        let mut place = 1;
        loop {
            let answer = self.entry_at(length, place)?;
            let histogram = self.histogram_at(length, place)?;
            if answer.number != 0 {
                return Ok(());
            }
            let [.., count, string, after] = answer.out;
            self.read_strings(length, string, count)?;
            if histogram.number == 0 {
                self.read_elements(length, &histogram.out)?;
            }
            place = after as usize;
        }
    }

    /// Reads the spans and the buckets of a histogram, each at the place after the one before.
    fn read_elements(&mut self, length: usize, histogram: &[u64; 18]) -> Result<(), String> {
        for list in histogram[9..13].chunks_exact(2) {
            let mut place = list[1] as usize;
            for _ in 0..list[0] {
                place = self.span_at(length, place)?.out[2] as usize;
            }
        }
        for list in histogram[13..17].chunks_exact(2) {
            let mut place = list[1] as usize;
            for _ in 0..list[0] {
                place = self.bucket_at(length, place)?.out[1] as usize;
            }
        }
        Ok(())
    }

    /// Reads so many strings, the first at a place, each other one after the one before.
    fn read_strings(&mut self, length: usize, mut place: u64, count: u64) -> Result<(), String> {
        for _ in 0..count {
            let [start, size] = self.string_at(length, place as usize)?.out;
            place = start + size;
        }
        Ok(())
    }

    /// Reads at every place, and past the end, by every call.
    fn read_everywhere(&mut self, length: usize) -> Result<(), String> {
        for place in (0..length + 3).chain(FAR) {
            self.read_at(length, place)?;
        }
        Ok(())
    }

    fn read_at(&mut self, length: usize, place: usize) -> Result<(), String> {
        self.entry_at(length, place)?;
        self.string_at(length, place)?;
        self.histogram_at(length, place)?;
        self.span_at(length, place)?;
        self.bucket_at(length, place)?;
        Ok(())
    }
}

/// What a start or an addition has to answer: after a refusal the bytes used that were given.
fn state_answer(used: usize, state: Result<State, Refusal>) -> Answer<2> {
    match state {
        Ok(state) => Answer::new(0, [state.used as u64, 0]),
        Err(refusal) => Answer::new(refusal.number, [used as u64, refusal.place as u64]),
    }
}

/// Type, id, time or min, max, value bits or metric type, string count, where the strings begin,
/// place after.
fn entry_answer(read: Result<Option<Entry>, Refusal>) -> Answer<8> {
    match read {
        Ok(Some(entry)) => Answer::new(
            0,
            [
                u64::from(entry.kind),
                entry.id.0,
                entry.time.0 as u64,
                entry.max.0 as u64,
                entry.bits | u64::from(entry.metric_type),
                entry.string_count,
                entry.strings as u64,
                entry.after as u64,
            ],
        ),
        Ok(None) => Answer::new(END, [0; 8]),
        Err(refusal) => place_only(refusal),
    }
}

/// The refusal's place, then zeros.
fn place_only<const N: usize>(refusal: Refusal) -> Answer<N> {
    let mut out = [0; N];
    out[0] = refusal.place as u64;
    Answer::new(refusal.number, out)
}

/// Type, id, time, hint, schema, zero threshold, zero count, count, sum, count and first place of
/// the four lists, place after.
fn histogram_answer(read: Result<Option<Histogram>, Refusal>) -> Answer<18> {
    let read = match read {
        Ok(Some(read)) => read,
        Ok(None) => return Answer::new(END, [0; 18]),
        Err(refusal) => return place_only(refusal),
    };
    let lists = [
        read.positive_spans,
        read.negative_spans,
        read.positive_buckets,
        read.negative_buckets,
    ];
    let mut out = [0; 18];
    out[..9].copy_from_slice(&[
        u64::from(read.kind),
        read.id.0,
        read.time.0 as u64,
        u64::from(read.hint),
        read.schema as u64,
        read.zero_threshold,
        read.zero_count,
        read.count,
        read.sum,
    ]);
    for (numbers, list) in out[9..17].chunks_exact_mut(2).zip(lists) {
        numbers.copy_from_slice(&[list.count, list.first as u64]);
    }
    out[17] = read.after as u64;
    Answer::new(0, out)
}

// ---- Building ----

/// What an addition is made of, whatever its type.
struct Facts {
    id: u64,
    time: i64,
    max: i64,
    bits: u64,
    /// The number of string bytes.
    text: usize,
    lengths: Vec<u64>,
}

impl Facts {
    /// Numbers at the edges, near the first id and time; strings that mostly add up.
    fn any(rng: &mut Rng, first: (u64, i64)) -> Facts {
        let mut lengths: Vec<u64> = (0..2 * rng.below(4)).map(|_| any_length(rng)).collect();
        let text = lengths.iter().sum::<u64>() as usize;
        if rng.once_in(6) {
            spoil(rng, &mut lengths);
        }
        Facts {
            id: any_number(rng, first.0),
            time: any_number(rng, first.1 as u64) as i64,
            max: any_number(rng, 0) as i64,
            bits: any_number(rng, 0x7FF8 << 48),
            text,
            lengths,
        }
    }

    fn entry<'a>(&self, kind: u8, strings: Strings<'a>) -> NewEntry<'a> {
        let id = SeriesId(self.id);
        let time = Timestamp(self.time);
        let bits = self.bits;
        let sample = Sample { id, time, bits };
        match kind {
            body::SERIES => NewEntry::Series(id, strings),
            body::SAMPLES => NewEntry::Sample(sample),
            body::TOMBSTONES => NewEntry::Tombstone(id, time, Timestamp(self.max)),
            body::EXEMPLARS => NewEntry::Exemplar(sample, strings),
            _ => NewEntry::Metadata(id, self.bits as u8, strings),
        }
    }

    /// The lengths with two words before and after them, which are not passed.
    fn guarded_lengths(&self) -> Vec<u64> {
        [&[!0, 7], &self.lengths[..], &[9, !0]].concat()
    }
}

impl fmt::Display for Facts {
    /// Of a long list only the first lengths are printed.
    fn fmt(&self, f: &mut fmt::Formatter) -> fmt::Result {
        let Facts { id, time, max, .. } = self;
        let (bits, text, count) = (self.bits, self.text, self.lengths.len());
        let lengths = &self.lengths[..count.min(16)];
        write!(f, "id {id}, time {time}, max {max}, bits {bits:#X}, ")?;
        write!(f, "{count} strings in {text} bytes, lengths {lengths:?}")
    }
}

/// Lengths of strings, short mostly, some around a uvarint's second byte.
fn any_length(rng: &mut Rng) -> u64 {
    match rng.below(8) {
        0 | 1 => 0,
        2 => 125 + rng.below(6) as u64,
        3 => rng.below(300) as u64,
        _ => rng.below(8) as u64,
    }
}

/// Lengths that do not add up, also such whose sum is right modulo 2^64.
fn spoil(rng: &mut Rng, lengths: &mut Vec<u64>) {
    match (rng.below(5), lengths.len()) {
        (0, _) | (_, 0) => lengths.push(rng.below(3) as u64),
        (1, count) => lengths[rng.below(count)] ^= 1 << rng.below(64),
        (2, _) => {
            lengths.pop();
        }
        (3, _) => {
            lengths[0] = lengths[0].wrapping_add(1 << 63);
            lengths[1] = lengths[1].wrapping_add(1 << 63);
        }
        _ => {
            lengths[0] = lengths[0].wrapping_sub(40);
            lengths[1] = lengths[1].wrapping_add(40);
        }
    }
}

/// Numbers near `base`, near powers of two, at both ends, and any.
pub(crate) fn any_number(rng: &mut Rng, base: u64) -> u64 {
    let little = rng.below(5) as u64;
    match rng.below(6) {
        0 | 1 => base.wrapping_add(little).wrapping_sub(2),
        2 => base.wrapping_add(rng.number() >> rng.below(64)),
        3 => (1u64 << rng.below(64)).wrapping_add(little).wrapping_sub(2),
        4 => little.wrapping_sub(2),
        _ => rng.number(),
    }
}

fn compare_starts(rng: &mut Rng) -> Outcome {
    let mut bench = Bench::new(rng);
    for kind in 0..=255 {
        for length in [0, 0, 1, 2, 17, 100] {
            bench.body.put(&[rng.byte()]);
            bench.start(length, kind)?;
        }
    }
    Ok(bench.cases)
}

/// The type, mostly a known one.
fn any_kind(rng: &mut Rng) -> u8 {
    match rng.below(12) {
        0 => rng.byte(),
        _ => rng.pick(&PLAIN),
    }
}

/// Additions to states that were never handed out, over any bytes.
fn compare_additions(rng: &mut Rng) -> Outcome {
    let mut bench = Bench::new(rng);
    for case in 0..200_000 {
        let used = any_used(rng);
        let length = match rng.below(4) {
            0 => rng.below(200),
            1 => used.saturating_add(rng.below(60)).min(300),
            _ => used.min(200) + rng.below(900),
        };
        add_once(rng, &mut bench, length, used)?;
        if case % 1_000 == 0 {
            bench.body.refill(rng);
            bench.body.shift(rng);
        }
    }
    Ok(bench.cases)
}

/// Bytes used: at and around the edges of types 2 and 4, and such as no buffer has.
fn any_used(rng: &mut Rng) -> usize {
    match rng.below(12) {
        0 => 0,
        1..=4 => 1,
        5 => 2 + rng.below(15),
        6 => 17,
        7 => rng.pick(&FAR),
        _ => 17 + rng.below(100),
    }
}

/// Additions that end near 65,536, in buffers that end there or later.
fn compare_limit(rng: &mut Rng) -> Outcome {
    let mut bench = Bench::new(rng);
    for _ in 0..30_000 {
        let used = match rng.below(8) {
            0 => 65_530 + rng.below(12),
            1 => 65_536 + rng.below(3_000),
            _ => 65_536 - rng.below(120),
        };
        let length = match rng.below(4) {
            0 => 65_536,
            1 => used + rng.below(60),
            2 => 65_530 + rng.below(12),
            _ => ROOM,
        };
        add_once(rng, &mut bench, length, used)?;
    }
    Ok(bench.cases)
}

/// One addition; the first byte, id and time are mostly set as the state has them.
fn add_once(rng: &mut Rng, bench: &mut Bench, length: usize, used: usize) -> Result<(), String> {
    let kind = any_kind(rng);
    let first = (any_number(rng, 7), any_number(rng, 1_000) as i64);
    if !rng.once_in(16) {
        bench.body.put(&[kind]);
    }
    if rng.once_in(2) {
        bench.body.put_at(1, &first.0.to_be_bytes());
        bench.body.put_at(9, &first.1.to_be_bytes());
    }
    let added = match rng.below(8) {
        0 => rng.pick(&PLAIN),
        _ => kind,
    };
    let facts = Facts::any(rng, first);
    bench.add(length, State { kind, used }, &facts, added)?;
    Ok(())
}

/// Bodies started and built entry by entry, each with what `out` names; then read.
fn compare_lists(rng: &mut Rng) -> Outcome {
    let mut bench = Bench::new(rng);
    for _ in 0..1_500 {
        bench.body.shift(rng);
        let used = build_list(rng, &mut bench)?;
        bench.read_through(used)?;
    }
    Ok(bench.cases)
}

/// Builds a body, some additions of another type among those of its own, and hands back the bytes
/// used.
fn build_list(rng: &mut Rng, bench: &mut Bench) -> Result<usize, String> {
    let kind = rng.pick(&PLAIN);
    let length = 1 + rng.below(3_000);
    let first = (any_number(rng, 7), any_number(rng, 1_000) as i64);
    let mut used = bench.start(length, kind)?.out[0] as usize;
    for _ in 0..rng.below(30) {
        let facts = Facts::any(rng, first);
        let added = match rng.once_in(20) {
            true => rng.pick(&PLAIN),
            false => kind,
        };
        let state = State { kind, used };
        used = bench.add(length, state, &facts, added)?.out[0] as usize;
    }
    Ok(used)
}

// ---- Reading ----

/// The bodies of a real segment, whole and cut.
pub fn compare_file(rng: &mut Rng, bytes: &[u8]) -> Outcome {
    let mut bench = Bench::new(rng);
    let mut buffer = vec![0; RECORD_MAX];
    let good = &mut Good::default();
    while let Ok(Reading::Record(record)) =
        segment::read(Version::One, bytes, good.offset, &mut buffer, good)
    {
        bench.body.put(&buffer[..record.length]);
        read_record(rng, &mut bench, record.length)?;
    }
    Ok(bench.cases)
}

/// Reads the body whole, cut, and at some places.
fn read_record(rng: &mut Rng, bench: &mut Bench, length: usize) -> Result<(), String> {
    bench.read_through(length)?;
    for _ in 0..20 {
        bench.check(rng.below(length + 1))?;
        bench.read_at(length, rng.below(length + 1))?;
    }
    Ok(())
}

/// Bodies longer than a record, of one entry with many strings or of many short entries: a body of
/// any length is checked (FORMAT 11.2).
fn compare_long(rng: &mut Rng) -> Outcome {
    let mut bench = Bench::new(rng);
    for kind in [body::SERIES, body::METADATA, body::EXEMPLARS] {
        read_many_strings(&mut bench, kind)?;
    }
    for kind in KINDS {
        read_many_entries(rng, &mut bench, kind)?;
    }
    Ok(bench.cases)
}

/// One entry with 30,000 pairs of empty strings, all its numbers 0; whole and cut.
fn read_many_strings(bench: &mut Bench, kind: u8) -> Result<(), String> {
    let mut bytes = vec![kind];
    bytes.resize(entry_head(kind), 0);
    varint::write_uvarint(30_000, &mut bytes);
    bytes.resize(bytes.len() + 60_000, 0);
    bench.body.put(&bytes);
    for cut in [0, 1, 2, 1_000] {
        bench.check(bytes.len() - cut)?;
        bench.entry_at(bytes.len() - cut, 1)?;
    }
    Ok(())
}

/// Bytes before the count of the first entry, all numbers short.
fn entry_head(kind: u8) -> usize {
    match kind {
        body::SERIES => 9,
        body::METADATA => 3,
        _ => 27,
    }
}

/// As many entries of zeros as there is room for; whole, cut, and at some places.
fn read_many_entries(rng: &mut Rng, bench: &mut Bench, kind: u8) -> Result<(), String> {
    let mut bytes = vec![kind];
    bytes.resize(ROOM, 0);
    bench.body.put(&bytes);
    for cut in 0..24 {
        bench.check(ROOM - cut)?;
    }
    for _ in 0..200 {
        bench.read_at(ROOM, rng.below(ROOM + 1))?;
    }
    Ok(())
}
