//! Bodies of types 7 and 8 (document 02 [7]): literal bytes, what was built read back, and damage
//! against a walk over the fields that is written down as document 003 draws them.

mod rng;

use reference::body::{
    self, NewEntry, SeriesId, State, Timestamp, EXEMPLARS, FLOAT_HISTOGRAMS, HISTOGRAMS, SAMPLES,
    SERIES,
};
use reference::histogram::{bucket_at, histogram_at, span_at, List, NewHistogram, Spans};
use reference::refusal::*;
use reference::varint;
use rng::Rng;

const KINDS: [u8; 2] = [HISTOGRAMS, FLOAT_HISTOGRAMS];

const ONE: u64 = 0x3FF0 << 48;

// ---- Histograms to build ----

/// A histogram of either type: its buckets are read as signed numbers or as the bits of floats.
#[derive(Clone, Debug, PartialEq, Eq)]
struct Given {
    id: u64,
    time: i64,
    hint: u8,
    schema: i32,
    zero_threshold: u64,
    zero_count: u64,
    count: u64,
    sum: u64,
    /// Positive, negative.
    spans: [Vec<(i32, u32)>; 2],
    buckets: [Vec<u64>; 2],
}

impl Given {
    fn example() -> Given {
        Given {
            id: 7,
            time: 1_000,
            hint: 2,
            schema: -1,
            zero_threshold: ONE,
            zero_count: 300,
            count: 5,
            sum: 0x7FF8_0000_0000_0001,
            spans: [vec![(0, 2), (-3, 300)], vec![]],
            buckets: [vec![1, u64::MAX, 64], vec![2]],
        }
    }

    fn any(rng: &mut Rng) -> Given {
        let spans = |rng: &mut Rng| {
            let count = rng.below(4);
            let span = |_| (any_number(rng) as i32, any_number(rng) as u32);
            (0..count).map(span).collect()
        };
        let buckets = |rng: &mut Rng| {
            let count = rng.pick(&[0, 1, 3, 7, 8, 9, 20, 130]);
            (0..count).map(|_| any_number(rng)).collect()
        };
        Given {
            id: any_number(rng),
            time: any_number(rng) as i64,
            hint: rng.next() as u8,
            schema: any_number(rng) as i32,
            zero_threshold: rng.next(),
            zero_count: any_number(rng),
            count: any_number(rng),
            sum: rng.next(),
            spans: [spans(rng), spans(rng)],
            buckets: [buckets(rng), buckets(rng)],
        }
    }

    /// Adds it to a body of its type.
    fn add(&self, kind: u8, buffer: &mut [u8], state: State) -> Result<State, Refusal> {
        let [positive, negative] = &self.spans;
        let offsets = |spans: &[(i32, u32)]| spans.iter().map(|span| span.0).collect();
        let lengths = |spans: &[(i32, u32)]| spans.iter().map(|span| span.1).collect();
        let offsets: [Vec<i32>; 2] = [offsets(positive), offsets(negative)];
        let lengths: [Vec<u32>; 2] = [lengths(positive), lengths(negative)];
        let lists = [0, 1].map(|side| Spans {
            offsets: &offsets[side],
            lengths: &lengths[side],
        });
        self.add_lists(kind, lists, buffer, state)
    }

    fn add_lists(
        &self,
        kind: u8,
        spans: [Spans; 2],
        buffer: &mut [u8],
        state: State,
    ) -> Result<State, Refusal> {
        let [positive, negative] = &self.buckets;
        if kind == HISTOGRAMS {
            let signed = |list: &[u64]| list.iter().map(|&n| n as i64).collect::<Vec<_>>();
            let (positive, negative) = (signed(positive), signed(negative));
            let new = self.new_histogram(spans, &positive, &negative);
            return body::add(buffer, state, &NewEntry::Histogram(&new));
        }
        let new = self.new_histogram(spans, positive, negative);
        body::add(buffer, state, &NewEntry::FloatHistogram(&new))
    }

    fn new_histogram<'a, B>(
        &self,
        [positive_spans, negative_spans]: [Spans<'a>; 2],
        positive_buckets: &'a [B],
        negative_buckets: &'a [B],
    ) -> NewHistogram<'a, B> {
        NewHistogram {
            id: SeriesId(self.id),
            time: Timestamp(self.time),
            hint: self.hint,
            schema: self.schema,
            zero_threshold: self.zero_threshold,
            zero_count: self.zero_count,
            count: self.count,
            sum: self.sum,
            positive_spans,
            negative_spans,
            positive_buckets,
            negative_buckets,
        }
    }
}

/// Near 0, near powers of two, and any.
fn any_number(rng: &mut Rng) -> u64 {
    let little = rng.below(5) as u64;
    match rng.below(4) {
        0 | 1 => little.wrapping_sub(2),
        2 => (1u64 << rng.below(64)).wrapping_add(little).wrapping_sub(2),
        _ => rng.next(),
    }
}

fn build(kind: u8, given: &[Given]) -> Vec<u8> {
    let mut buffer = vec![0xAA; 65_536];
    let mut state = body::start(&mut buffer, kind).expect("a known type");
    for histogram in given {
        state = histogram.add(kind, &mut buffer, state).expect("it fits");
    }
    assert!(buffer[state.used..].iter().all(|&byte| byte == 0xAA));
    buffer.truncate(state.used);
    buffer
}

// ---- Reading back ----

fn spans_of(body: &[u8], list: List) -> Vec<(i32, u32)> {
    let mut place = list.first;
    let mut next = || {
        let (offset, length, after) = span_at(body, place).expect("a span");
        place = after;
        (offset, length)
    };
    (0..list.count).map(|_| next()).collect()
}

fn buckets_of(body: &[u8], list: List) -> Vec<u64> {
    let mut place = list.first;
    let mut next = || {
        let (bucket, after) = bucket_at(body, place).expect("a bucket");
        place = after;
        bucket
    };
    (0..list.count).map(|_| next()).collect()
}

/// All histograms of a good body.
fn read(body: &[u8]) -> Vec<Given> {
    let mut all = Vec::new();
    let mut place = 1;
    while let Some(read) = histogram_at(body, place).expect("a good body") {
        let entry = body::entry_at(body, place)
            .expect("good")
            .expect("an entry");
        assert_eq!(
            (entry.kind, entry.id, entry.time),
            (body[0], read.id, read.time)
        );
        assert_eq!((entry.bits, entry.after), (read.sum, read.after));
        assert_eq!((entry.string_count, entry.strings), (0, read.after));
        assert_eq!((entry.max, entry.metric_type), (Timestamp(0), 0));
        assert_eq!(read.kind, body[0]);
        place = read.after;
        all.push(Given {
            id: read.id.0,
            time: read.time.0,
            hint: read.hint,
            schema: read.schema,
            zero_threshold: read.zero_threshold,
            zero_count: read.zero_count,
            count: read.count,
            sum: read.sum,
            spans: [read.positive_spans, read.negative_spans].map(|list| spans_of(body, list)),
            buckets: [read.positive_buckets, read.negative_buckets]
                .map(|list| buckets_of(body, list)),
        });
    }
    assert_eq!(place, body.len().max(1));
    assert_eq!(body::check(body), Ok(all.len()));
    all
}

#[test]
fn literal_bytes() {
    let second = Given {
        id: 6,
        time: 1_064,
        spans: [vec![], vec![]],
        buckets: [vec![], vec![]],
        ..Given::example()
    };
    let given = [Given::example(), second];
    let first: &[u8] = b"\0\0\0\0\0\0\0\x07\0\0\0\0\0\0\x03\xE8";
    let one: &[u8] = b"\x3F\xF0\0\0\0\0\0\0";
    let sum: &[u8] = b"\x7F\xF8\0\0\0\0\0\x01";
    let spans: &[u8] = b"\x02\x00\x02\x05\xAC\x02\x00";
    // 300 and 5; the buckets 1, -1, 64 and 2.
    let body = [
        &[7],
        first,
        b"\0\0\x02\x01",
        one,
        b"\xAC\x02\x05",
        sum,
        spans,
        b"\x03\x02\x01\x80\x01\x01\x04",
        b"\x01\x80\x01\x02\x01",
        one,
        b"\xAC\x02\x05",
        sum,
        &[0; 4],
    ]
    .concat();
    assert_eq!(build(HISTOGRAMS, &given), body);
    assert_eq!(read(&body), given);
    // All of them 8 bytes, and the bits as given.
    let counts: &[u8] = b"\0\0\0\0\0\0\x01\x2C\0\0\0\0\0\0\0\x05";
    let body = [
        &[8],
        first,
        b"\0\0\x02\x01",
        one,
        counts,
        sum,
        spans,
        b"\x03\0\0\0\0\0\0\0\x01\xFF\xFF\xFF\xFF\xFF\xFF\xFF\xFF\0\0\0\0\0\0\0\x40",
        b"\x01\0\0\0\0\0\0\0\x02",
        b"\x01\x80\x01\x02\x01",
        one,
        counts,
        sum,
        &[0; 4],
    ]
    .concat();
    assert_eq!(build(FLOAT_HISTOGRAMS, &given), body);
    assert_eq!(read(&body), given);
}

#[test]
fn what_is_built_is_read_back() {
    let mut rng = Rng(7);
    for _ in 0..2_000 {
        let given: Vec<Given> = (0..rng.below(6)).map(|_| Given::any(&mut rng)).collect();
        for kind in KINDS {
            assert_eq!(read(&build(kind, &given)), given);
        }
    }
}

#[test]
fn places() {
    let given = [Given::example(), Given::example()];
    for kind in KINDS {
        let body = build(kind, &given);
        assert_eq!(histogram_at(&body, 1), histogram_at(&body, 17));
        for place in [0, 2, 16, body.len() + 1, usize::MAX] {
            assert_eq!(histogram_at(&body, place), refuse(BAD_PLACE, 0));
            assert_eq!(body::entry_at(&body, place), refuse(BAD_PLACE, 0));
        }
        for place in [0, body.len() + 1, usize::MAX] {
            assert_eq!(span_at(&body, place), refuse(BAD_PLACE, 0));
            assert_eq!(bucket_at(&body, place), refuse(BAD_PLACE, 0));
        }
        let end = body.len();
        assert_eq!(histogram_at(&body, end), Ok(None));
        assert_eq!(span_at(&body, end), refuse(SHORT, end));
        assert_eq!(bucket_at(&body, end), refuse(SHORT, end));
        // No row yet, and no first id.
        for length in [1, 17] {
            assert_eq!(histogram_at(&body[..length], 1), Ok(None));
            assert_eq!(body::check(&body[..length]), Ok(0));
        }
        assert_eq!(histogram_at(&body[..8], 8), refuse(BAD_PLACE, 0));
        assert_eq!(histogram_at(&body[..8], 1), refuse(SHORT, 1));
        assert_eq!(histogram_at(&body[..16], 1), refuse(SHORT, 9));
    }
}

/// 21 before 20 before 26 before 2.
#[test]
fn bodies_of_other_types() {
    for place in [0, 1, 9] {
        for (body, number) in [
            (&[][..], EMPTY_BODY),
            (&[5, 0], UNKNOWN_TYPE),
            (&[9], UNKNOWN_TYPE),
            (&[1, 0, 0], WRONG_KIND),
            (&[2], WRONG_KIND),
            (&[3], WRONG_KIND),
            (&[4, 0], WRONG_KIND),
            (&[6, 0], WRONG_KIND),
        ] {
            assert_eq!(histogram_at(body, place), refuse(number, 0));
            assert_eq!(span_at(body, place), refuse(number, 0));
            assert_eq!(bucket_at(body, place), refuse(number, 0));
        }
    }
    // A string may be read in them as in any type, and no list of samples filled.
    for kind in KINDS {
        assert_eq!(body::string_at(&[kind, 1, 65], 1), Ok((2, 1)));
        assert_eq!(body::fill_samples(&[kind], &mut []), refuse(WRONG_KIND, 0));
    }
}

// ---- Faults ----

#[derive(Clone, Copy, Debug, PartialEq, Eq)]
enum Field {
    /// Fixed bytes.
    Fixed,
    /// A varint of any size.
    Varint,
    /// One that has to fit 32 bits.
    Signed32,
    Unsigned32,
    /// The number of spans, or of buckets.
    Spans,
    Buckets,
}

/// Where each field of a good body begins, entry by entry, as document 003 draws them.
fn fields(body: &[u8]) -> Vec<Vec<(Field, usize)>> {
    let float = body[0] == FLOAT_HISTOGRAMS;
    let bucket = if float { Field::Fixed } else { Field::Varint };
    let mut walk = Walk { body, place: 17 };
    let mut entries = Vec::new();
    while walk.place < body.len() {
        let mut entry = Vec::new();
        walk.field(&mut entry, Field::Varint);
        walk.field(&mut entry, Field::Varint);
        walk.fixed(&mut entry, 1);
        walk.field(&mut entry, Field::Signed32);
        walk.fixed(&mut entry, 8);
        walk.field(&mut entry, bucket);
        walk.field(&mut entry, bucket);
        walk.fixed(&mut entry, 8);
        for _ in 0..2 {
            for _ in 0..walk.field(&mut entry, Field::Spans) {
                walk.field(&mut entry, Field::Signed32);
                walk.field(&mut entry, Field::Unsigned32);
            }
        }
        for _ in 0..2 {
            for _ in 0..walk.field(&mut entry, Field::Buckets) {
                walk.field(&mut entry, bucket);
            }
        }
        entries.push(entry);
    }
    entries
}

struct Walk<'a> {
    body: &'a [u8],
    place: usize,
}

impl Walk<'_> {
    fn fixed(&mut self, fields: &mut Vec<(Field, usize)>, length: usize) {
        fields.push((Field::Fixed, self.place));
        self.place += length;
    }

    /// A varint and its number, or 8 fixed bytes.
    fn field(&mut self, fields: &mut Vec<(Field, usize)>, field: Field) -> u64 {
        if field == Field::Fixed {
            self.fixed(fields, 8);
            return 0;
        }
        fields.push((field, self.place));
        let (number, length) = varint::read_uvarint(&self.body[self.place..]).expect("good");
        self.place += length;
        number
    }
}

/// The first of the histograms that may be refused, and so every call over them.
fn assert_refused(body: &[u8], number: u32, place: usize) {
    assert_eq!(body::check(body), refuse(number, place));
    let mut at = 1;
    let refused = loop {
        match histogram_at(body, at) {
            Ok(read) => at = read.expect("a refusal before the end").after,
            Err(refusal) => break refusal,
        }
    };
    assert_eq!(refused, Refusal { number, place });
    assert_eq!(body::entry_at(body, at), refuse(number, place));
}

#[test]
fn a_body_that_ends_anywhere() {
    let mut rng = Rng(8);
    for _ in 0..60 {
        let given: Vec<Given> = (0..3).map(|_| Given::any(&mut rng)).collect();
        for kind in KINDS {
            let body = build(kind, &given);
            let entries = fields(&body);
            let starts: Vec<usize> = entries.iter().map(|entry| entry[0].1).collect();
            let all: Vec<usize> = entries.concat().iter().map(|field| field.1).collect();
            for cut in 18..body.len() {
                if starts.contains(&cut) {
                    assert!(body::check(&body[..cut]).is_ok());
                    continue;
                }
                // The field that the body ends in, or that is not there at all.
                let field = all.iter().rfind(|&&start| start <= cut).expect("a field");
                assert_refused(&body[..cut], SHORT, *field);
            }
        }
    }
}

/// The body with the uvarint at a place replaced by other bytes.
fn replaced(body: &[u8], place: usize, bytes: &[u8]) -> Vec<u8> {
    let (_, length) = varint::read_uvarint(&body[place..]).expect("good");
    [&body[..place], bytes, &body[place + length..]].concat()
}

fn uvarint(number: u64) -> Vec<u8> {
    let mut bytes = Vec::new();
    varint::write_uvarint(number, &mut bytes);
    bytes
}

/// Every varint of a body with a tenth byte above 1.
#[test]
fn bad_varints() {
    for kind in KINDS {
        let body = build(kind, &[Given::example(), Given::example()]);
        for (field, place) in fields(&body).concat() {
            if field != Field::Fixed {
                let bad = [&[0xFF; 9][..], &[2]].concat();
                assert_refused(&replaced(&body, place, &bad), BAD_VARINT, place);
            }
        }
    }
}

/// Longer than needed is accepted, also where it has to fit 32 bits.
#[test]
fn long_varints() {
    for kind in KINDS {
        let given = [Given::example(), Given::example()];
        let body = build(kind, &given);
        for (field, place) in fields(&body).concat() {
            if field != Field::Fixed {
                let (number, _) = varint::read_uvarint(&body[place..]).expect("good");
                let mut long = [0x80; 10];
                for (index, byte) in long.iter_mut().enumerate() {
                    *byte |= (number >> (7 * index)) as u8;
                }
                long[9] &= 1;
                assert_eq!(read(&replaced(&body, place, &long)), given);
            }
        }
    }
}

#[test]
fn out_of_range() {
    let too_high = varint::zigzag(1 << 31);
    let too_low = varint::zigzag(-(1 << 31) - 1);
    for kind in KINDS {
        let body = build(kind, &[Given::example(), Given::example()]);
        for (field, place) in fields(&body).concat() {
            let (good, bad) = match field {
                Field::Signed32 => (
                    vec![
                        varint::zigzag(i32::MAX.into()),
                        varint::zigzag(i32::MIN.into()),
                    ],
                    vec![too_high, too_low, u64::MAX, u64::MAX - 1],
                ),
                Field::Unsigned32 => (vec![0, u32::MAX.into()], vec![1 << 32, 1 << 63, u64::MAX]),
                _ => continue,
            };
            for number in good {
                let body = replaced(&body, place, &uvarint(number));
                assert_eq!(body::check(&body), Ok(2));
            }
            for number in bad {
                let body = replaced(&body, place, &uvarint(number));
                assert_refused(&body, BAD_RANGE, place);
                if field == Field::Signed32 {
                    assert_eq!(span_at(&body, place), refuse(BAD_RANGE, place));
                }
            }
        }
    }
}

/// Lists that say they have 2^61 elements, or 2^63, or 2^64 - 1: the first that is not there is
/// short.
#[test]
fn long_lists() {
    for kind in KINDS {
        for with_lists in [true, false] {
            let mut given = Given::example();
            if !with_lists {
                given.spans = [vec![], vec![]];
                given.buckets = [vec![], vec![]];
            }
            let body = build(kind, &[given]);
            for (field, place) in fields(&body).concat() {
                if !matches!(field, Field::Spans | Field::Buckets) {
                    continue;
                }
                for count in [1 << 61, 1 << 62, 1 << 63, u64::MAX, u64::MAX - 7] {
                    let body = replaced(&body, place, &uvarint(count));
                    let refusal = body::check(&body).expect_err("no such list");
                    // It reads on through what follows, to a field that is no longer there.
                    assert!(matches!(refusal.number, SHORT | BAD_RANGE));
                    let ends = &body[..place + uvarint(count).len()];
                    assert_refused(ends, SHORT, ends.len());
                    let more = [ends, &[0; 21]].concat();
                    let element = match (field, kind) {
                        (Field::Buckets, FLOAT_HISTOGRAMS) => 8,
                        _ => 1,
                    };
                    assert_refused(&more, SHORT, ends.len() + 21 / element * element);
                }
            }
        }
    }
}

// ---- Building ----

/// In order: 2, 26, 25, 9, 11.
#[test]
fn refused_additions() {
    let given = Given::example();
    let unequal = Spans {
        offsets: &[1, 2],
        lengths: &[1],
    };
    let equal = Spans {
        offsets: &[1],
        lengths: &[1],
    };
    let lists = [[unequal, equal], [equal, unequal]];
    for (kind, other) in [
        (HISTOGRAMS, FLOAT_HISTOGRAMS),
        (FLOAT_HISTOGRAMS, HISTOGRAMS),
    ] {
        let mut buffer = vec![kind; 70_000];
        for used in [0, 2, 16, 70_001, usize::MAX] {
            let state = State { kind, used };
            let added = given.add_lists(other, lists[0], &mut buffer, state);
            assert_eq!(added, refuse(BAD_PLACE, 0));
        }
        for used in [1, 17, 65_536, 69_999] {
            let state = State { kind, used };
            for lists in lists {
                let added = given.add_lists(other, lists, &mut buffer, state);
                assert_eq!(added, refuse(WRONG_KIND, 0));
                let added = given.add_lists(kind, lists, &mut buffer, state);
                assert_eq!(added, refuse(BAD_LIST, 0));
            }
        }
        let state = State { kind, used: 65_530 };
        let added = given.add(kind, &mut buffer[..65_531], state);
        assert_eq!(added, refuse(TOO_LONG, 65_530));
        let state = State { kind, used: 17 };
        let added = given.add(kind, &mut buffer[..40], state);
        assert_eq!(added, refuse(NO_ROOM, 17));
        assert!(buffer.iter().all(|&byte| byte == kind));
    }
}

/// The last byte of the buffer, and one too few.
#[test]
fn just_enough_room() {
    let mut rng = Rng(9);
    for _ in 0..300 {
        let given = Given::any(&mut rng);
        for kind in KINDS {
            let length = build(kind, std::slice::from_ref(&given)).len();
            let mut buffer = vec![0; length];
            let state = body::start(&mut buffer, kind).expect("a known type");
            let added = given.add(kind, &mut buffer[..length - 1], state);
            assert_eq!(added, refuse(NO_ROOM, 1));
            let added = given.add(kind, &mut buffer, state);
            assert_eq!(added, Ok(State { kind, used: length }));
        }
    }
}

/// A row of samples is no histogram, nor the other way round.
#[test]
fn other_types() {
    let given = Given::example();
    for kind in [SERIES, SAMPLES, EXEMPLARS] {
        let mut buffer = [kind; 100];
        let state = State { kind, used: 1 };
        for histogram in KINDS {
            let added = given.add(histogram, &mut buffer, state);
            assert_eq!(added, refuse(WRONG_KIND, 0));
        }
    }
    for kind in KINDS {
        assert_eq!(body::start(&mut [], kind), refuse(NO_ROOM, 0));
        let mut buffer = [kind; 100];
        let entry = NewEntry::Tombstone(SeriesId(1), Timestamp(2), Timestamp(3));
        let state = State { kind, used: 1 };
        assert_eq!(body::add(&mut buffer, state, &entry), refuse(WRONG_KIND, 0));
    }
}
