//! Histograms, types 7 and 8: built, refused, cut, damaged, and with fields and counts that no
//! builder writes.

use super::hand_made::{read_changed, read_cuts};
use super::{any_number, any_used, state_answer, Bench, KINDS, ROOM};
use crate::ffi::{self, Answer};
use crate::rng::Rng;
use crate::Outcome;
use reference::body::{
    self, NewEntry, SeriesId, State, Timestamp, BODY_MAX, FLOAT_HISTOGRAMS, HISTOGRAMS,
};
use reference::histogram::{NewHistogram, Spans};
use reference::refusal::{BAD_RANGE, SHORT};
use reference::varint;

const BOTH: [u8; 2] = [HISTOGRAMS, FLOAT_HISTOGRAMS];

/// Numbers in a list, with two before and two after them, which are not passed.
#[derive(Clone, Debug, PartialEq, Eq)]
struct Lent<T>(Vec<T>);

impl<T: Copy> Lent<T> {
    fn new(count: usize, mut one: impl FnMut() -> T) -> Lent<T> {
        Lent((0..count + 4).map(|_| one()).collect())
    }

    fn passed(&self) -> &[T] {
        &self.0[2..self.0.len() - 2]
    }
}

/// What a histogram is made of, whatever its type. Of its lists the positive one comes first.
#[derive(Clone, Debug, PartialEq, Eq)]
struct Facts {
    id: u64,
    time: i64,
    hint: u8,
    schema: i32,
    /// Zero threshold, zero count, count, sum.
    numbers: [u64; 4],
    offsets: [Lent<i32>; 2],
    lengths: [Lent<u32>; 2],
    signed: [Lent<i64>; 2],
    floats: [Lent<u64>; 2],
}

impl Facts {
    /// With numbers of all sizes; now and then with more offsets than lengths, or fewer.
    fn any(rng: &mut Rng, first: (u64, i64)) -> Facts {
        let spans = [rng.below(4), rng.below(4)];
        let mut lengths = spans;
        if rng.once_in(10) {
            lengths[rng.below(2)] = rng.below(5);
        }
        let buckets = [(); 2].map(|()| rng.pick(&[0, 0, 1, 2, 5, 7, 8, 9, 10, 20, 130]));
        Facts::with(rng, first, spans, lengths, buckets)
    }

    fn with(
        rng: &mut Rng,
        first: (u64, i64),
        offsets: [usize; 2],
        lengths: [usize; 2],
        buckets: [usize; 2],
    ) -> Facts {
        Facts {
            id: any_number(rng, first.0),
            time: any_number(rng, first.1 as u64) as i64,
            hint: rng.byte(),
            schema: any_number(rng, 3) as i32,
            numbers: [(); 4].map(|()| any_number(rng, 300)),
            offsets: offsets.map(|count| Lent::new(count, || any_number(rng, 0) as i32)),
            lengths: lengths.map(|count| Lent::new(count, || any_number(rng, 0) as u32)),
            signed: buckets.map(|count| Lent::new(count, || any_number(rng, 0) as i64)),
            floats: buckets.map(|count| Lent::new(count, || any_number(rng, 0))),
        }
    }

    fn new_histogram<'a, B: Copy>(&'a self, buckets: &'a [Lent<B>; 2]) -> NewHistogram<'a, B> {
        let [zero_threshold, zero_count, count, sum] = self.numbers;
        let spans = |side: usize| Spans {
            offsets: self.offsets[side].passed(),
            lengths: self.lengths[side].passed(),
        };
        NewHistogram {
            id: SeriesId(self.id),
            time: Timestamp(self.time),
            hint: self.hint,
            schema: self.schema,
            zero_threshold,
            zero_count,
            count,
            sum,
            positive_spans: spans(0),
            negative_spans: spans(1),
            positive_buckets: buckets[0].passed(),
            negative_buckets: buckets[1].passed(),
        }
    }
}

impl Bench {
    /// Adds a histogram of this type; what was lent for it is as it was.
    fn add_histogram(
        &mut self,
        length: usize,
        state: State,
        facts: &Facts,
        kind: u8,
    ) -> Result<Answer<2>, String> {
        let before = facts.clone();
        let (signed, floats) = (
            facts.new_histogram(&facts.signed),
            facts.new_histogram(&facts.floats),
        );
        let entry = match kind {
            HISTOGRAMS => NewEntry::Histogram(&signed),
            _ => NewEntry::FloatHistogram(&floats),
        };
        let (ours, theirs) = self.body.both(0..length);
        let got = ffi::add(ours, state, &entry);
        let wanted = state_answer(state.used, body::add(theirs, state, &entry));
        let what = || format!("add to {state:?} in {length} bytes: {entry:?}");
        if *facts != before {
            return Err(format!("{}: the lent lists were changed", what()));
        }
        self.compare(length, got, wanted, what)
    }
}

// ---- Building ----

/// Bodies started and built histogram by histogram, each with what `out` names; then read.
pub fn compare_lists(rng: &mut Rng) -> Outcome {
    let mut bench = Bench::new(rng);
    for _ in 0..1_200 {
        bench.body.shift(rng);
        let kind = rng.pick(&BOTH);
        let length = 1 + rng.below(6_000);
        let first = (any_number(rng, 7), any_number(rng, 1_000) as i64);
        let mut used = bench.start(length, kind)?.out[0] as usize;
        for _ in 0..rng.below(12) {
            let facts = Facts::any(rng, first);
            let added = if rng.once_in(20) {
                rng.pick(&BOTH)
            } else {
                kind
            };
            let state = State { kind, used };
            used = bench.add_histogram(length, state, &facts, added)?.out[0] as usize;
        }
        bench.read_through(used)?;
    }
    Ok(bench.cases)
}

/// Additions to states that were never handed out, also near 65,536, over any bytes.
pub fn compare_additions(rng: &mut Rng) -> Outcome {
    let mut bench = Bench::new(rng);
    for case in 0..60_000 {
        let (used, length) = any_room(rng);
        let kind = match rng.below(8) {
            0 => rng.pick(&KINDS),
            1 => rng.byte(),
            _ => rng.pick(&BOTH),
        };
        if !rng.once_in(16) {
            bench.body.put(&[kind]);
        }
        let first = (any_number(rng, 7), any_number(rng, 1_000) as i64);
        if rng.once_in(2) {
            bench.body.put_at(1, &first.0.to_be_bytes());
            bench.body.put_at(9, &first.1.to_be_bytes());
        }
        let facts = Facts::any(rng, first);
        let added = match kind {
            HISTOGRAMS | FLOAT_HISTOGRAMS if !rng.once_in(8) => kind,
            _ => rng.pick(&BOTH),
        };
        bench.add_histogram(length, State { kind, used }, &facts, added)?;
        if case % 500 == 0 {
            bench.body.refill(rng);
            bench.body.shift(rng);
        }
    }
    compare_just_enough(rng, &mut bench)?;
    Ok(bench.cases)
}

/// Bytes used and the buffer's length, near the edges of both.
fn any_room(rng: &mut Rng) -> (usize, usize) {
    if rng.once_in(4) {
        let used = BODY_MAX + 2 - rng.below(400);
        let length = rng.pick(&[BODY_MAX, used, used + 40, ROOM]);
        return (used, length);
    }
    let used = any_used(rng);
    let length = match rng.below(4) {
        0 => rng.below(200),
        1 => used.saturating_add(rng.below(200)).min(500),
        _ => used.min(200) + rng.below(3_000),
    };
    (used, length)
}

/// Buffers that just hold the histogram, and just do not.
fn compare_just_enough(rng: &mut Rng, bench: &mut Bench) -> Result<(), String> {
    for _ in 0..400 {
        let facts = Facts::any(rng, (7, 1_000));
        for kind in BOTH {
            let used = bench.start(ROOM, kind)?.out[0] as usize;
            let state = State { kind, used };
            let end = bench.add_histogram(ROOM, state, &facts, kind)?.out[0] as usize;
            for length in end.saturating_sub(2).max(1)..end + 2 {
                bench.add_histogram(length, state, &facts, kind)?;
            }
        }
    }
    Ok(())
}

// ---- Reading ----

/// A good body of a few histograms with short lists.
fn good_body(rng: &mut Rng, kind: u8) -> Vec<u8> {
    let mut buffer = vec![0; BODY_MAX];
    let mut state = body::start(&mut buffer, kind).expect("a known type");
    let first = (any_number(rng, 7), any_number(rng, 1_000) as i64);
    for _ in 0..1 + rng.below(3) {
        let spans = [rng.below(3), rng.below(3)];
        let buckets = [(); 2].map(|()| rng.pick(&[0, 1, 3, 9, 12]));
        let facts = Facts::with(rng, first, spans, spans, buckets);
        let (signed, floats) = (
            facts.new_histogram(&facts.signed),
            facts.new_histogram(&facts.floats),
        );
        let entry = match kind {
            HISTOGRAMS => NewEntry::Histogram(&signed),
            _ => NewEntry::FloatHistogram(&floats),
        };
        state = body::add(&mut buffer, state, &entry).expect("it fits");
    }
    buffer.truncate(state.used);
    buffer
}

/// Good bodies: every call at every place; cut at every byte; with each byte changed; and under
/// every other type.
pub fn compare_damage(rng: &mut Rng) -> Outcome {
    let mut bench = Bench::new(rng);
    for case in 0..240 {
        let kind = BOTH[case % 2];
        let mut bytes = good_body(rng, kind);
        bench.body.shift(rng);
        bench.body.put(&bytes);
        bench.read_through(bytes.len())?;
        bench.read_everywhere(bytes.len())?;
        read_cuts(rng, &mut bench, bytes.len())?;
        read_changed(rng, &mut bench, bytes.clone())?;
        change_every_byte(rng, &mut bench, &mut bytes)?;
        for other in 0..=9 {
            bytes[0] = other;
            bench.body.put(&bytes);
            bench.read_through(bytes.len())?;
            bench.read_at(bytes.len(), rng.below(bytes.len() + 1))?;
        }
    }
    Ok(bench.cases)
}

/// Each byte into one that a varint goes on with, and into any other.
fn change_every_byte(rng: &mut Rng, bench: &mut Bench, bytes: &mut [u8]) -> Result<(), String> {
    for place in 1..bytes.len() {
        let old = bytes[place];
        for new in [old | 0x80, 0xFF, rng.byte()] {
            bench.body.put_at(place, &[new]);
            bench.check(bytes.len())?;
            bench.histogram_at(bytes.len(), 1)?;
        }
        bench.body.put_at(place, &[old]);
    }
    Ok(())
}

// ---- Fields and counts that no builder writes ----

/// The fields of a histogram's body that are replaced.
#[derive(Clone, Copy, Debug, PartialEq, Eq)]
enum Field {
    Signed32,
    Unsigned32,
    /// The number of spans or of buckets.
    Count,
}

/// Numbers on both sides of what fits, and counts that no body has, in every such field. What both
/// answer is 27 at the field, or 22 where the list ends.
pub fn compare_ranges(rng: &mut Rng) -> Outcome {
    let mut bench = Bench::new(rng);
    let mut met = [0; 2];
    for case in 0..160 {
        let bytes = good_body(rng, BOTH[case % 2]);
        for (field, place) in fields(&bytes) {
            for number in numbers(field) {
                let changed = replaced(rng, &bytes, place, number);
                bench.body.shift(rng);
                bench.body.put(&changed);
                let answer = bench.check(changed.len())?;
                bench.read_through(changed.len())?;
                bench.read_at(changed.len(), place)?;
                let refused = (answer.number, answer.out[0]);
                met[0] += u64::from(refused == (BAD_RANGE, place as u64));
                met[1] += u64::from(answer.number == SHORT && field == Field::Count);
            }
        }
    }
    match met {
        [0, _] | [_, 0] => Err(format!("27 and 22 were met {met:?} times")),
        _ => Ok(bench.cases),
    }
}

fn numbers(field: Field) -> Vec<u64> {
    let signed = |number: i64| varint::zigzag(number);
    match field {
        Field::Signed32 => [
            i32::MIN.into(),
            i32::MAX.into(),
            -(1 << 31) - 1,
            1 << 31,
            i64::MIN,
            i64::MAX,
        ]
        .map(signed)
        .to_vec(),
        Field::Unsigned32 => vec![u32::MAX.into(), 1 << 32, 1 << 63, u64::MAX],
        Field::Count => vec![
            1,
            1 << 60,
            1 << 61,
            (1 << 61) + 1,
            1 << 62,
            1 << 63,
            (1 << 63) + 1,
            u64::MAX - 7,
            u64::MAX,
        ],
    }
}

/// The body with the uvarint at a place replaced, sometimes by a longer one than needed; sometimes
/// it ends there.
fn replaced(rng: &mut Rng, bytes: &[u8], place: usize, number: u64) -> Vec<u8> {
    let (_, length) = varint::read_uvarint(&bytes[place..]).expect("a good body");
    let mut changed = bytes[..place].to_vec();
    super::push_padded(rng, number, &mut changed);
    if !rng.once_in(4) {
        changed.extend(&bytes[place + length..]);
    }
    changed
}

/// The fields of a good body, found field by field as document 003 draws them.
fn fields(bytes: &[u8]) -> Vec<(Field, usize)> {
    let mut walk = Walk { bytes, place: 17 };
    let mut fields = Vec::new();
    while walk.place < bytes.len() {
        walk.uvarint();
        walk.uvarint();
        walk.place += 1;
        fields.push((Field::Signed32, walk.place));
        walk.uvarint();
        walk.place += 8;
        walk.bucket();
        walk.bucket();
        walk.place += 8;
        for _ in 0..2 {
            fields.push((Field::Count, walk.place));
            for _ in 0..walk.uvarint() {
                fields.push((Field::Signed32, walk.place));
                walk.uvarint();
                fields.push((Field::Unsigned32, walk.place));
                walk.uvarint();
            }
        }
        for _ in 0..2 {
            fields.push((Field::Count, walk.place));
            for _ in 0..walk.uvarint() {
                walk.bucket();
            }
        }
    }
    fields
}

struct Walk<'a> {
    bytes: &'a [u8],
    place: usize,
}

impl Walk<'_> {
    fn uvarint(&mut self) -> u64 {
        let read = varint::read_uvarint(&self.bytes[self.place..]);
        let (number, length) = read.expect("a good body");
        self.place += length;
        number
    }

    /// A bucket, or a count.
    fn bucket(&mut self) {
        match self.bytes[0] {
            HISTOGRAMS => drop(self.uvarint()),
            _ => self.place += 8,
        }
    }
}
