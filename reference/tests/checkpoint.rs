//! The checkpoint (document 02 [14]): small ones by hand, the refusals in their order, and generated
//! logs, of which the entries read back are those of the source that are kept.

mod rng;

use reference::body::{
    self, NewEntry, Sample, SeriesId, Strings, Timestamp, EXEMPLARS, FLOAT_HISTOGRAMS, HISTOGRAMS,
    METADATA, SAMPLES, SERIES, TOMBSTONES,
};
use reference::checkpoint::{checkpoint, Checkpoint, Kept};
use reference::facts::{entries_of, Facts};
use reference::histogram::{NewHistogram, Spans};
use reference::refusal::*;
use reference::replay::{replay, Row, SERIES_MAX};
use reference::segment::{self, Good, Reading, HEADER, PAGE, RECORD_MAX, SEGMENT_MAX};
use reference::varint;
use reference::vectors::SWITCH;
use reference::version::Version::{self, One, Two};
use rng::Rng;

// ---- Bodies and segments ----

fn build(kind: u8, entries: &[NewEntry]) -> Vec<u8> {
    let mut buffer = vec![0; RECORD_MAX];
    let mut state = body::start(&mut buffer, kind).expect("a known type");
    for entry in entries {
        state = body::add(&mut buffer, state, entry).expect("it fits");
    }
    buffer.truncate(state.used);
    buffer
}

const LABEL: Strings = Strings {
    text: b"jobdepot",
    lengths: &[3, 5],
};

fn sample(id: u64, time: i64, bits: u64) -> Sample {
    let (id, time) = (SeriesId(id), Timestamp(time));
    Sample { id, time, bits }
}

/// A body of samples: ids and times.
fn samples(rows: &[(u64, i64)]) -> Vec<u8> {
    let rows = rows.iter().zip(1..);
    let entries = rows.map(|(&(id, time), bits)| NewEntry::Sample(sample(id, time, bits)));
    build(SAMPLES, &entries.collect::<Vec<_>>())
}

fn histogram_of<B>(id: u64, time: i64, buckets: &[B]) -> NewHistogram<'_, B> {
    let (offsets, lengths) = (&[-1, i32::MAX], &[2, u32::MAX]);
    NewHistogram {
        id: SeriesId(id),
        time: Timestamp(time),
        hint: 2,
        schema: -3,
        zero_threshold: 1,
        zero_count: id,
        count: 300,
        sum: u64::MAX,
        positive_spans: Spans { offsets, lengths },
        negative_spans: Spans {
            offsets: &[],
            lengths: &[],
        },
        positive_buckets: buckets,
        negative_buckets: &buckets[..buckets.len() / 2],
    }
}

/// One entry of each type about this id and time, which is the max of the tombstone.
fn one_of_each(id: u64, time: i64) -> [Vec<u8>; 7] {
    let row = sample(id, time, 5);
    let id = SeriesId(id);
    let (signed, floats) = ([1, -2, 3], [1, 2, 3]);
    [
        build(SERIES, &[NewEntry::Series(id, LABEL)]),
        build(SAMPLES, &[NewEntry::Sample(row)]),
        build(
            TOMBSTONES,
            &[NewEntry::Tombstone(id, Timestamp(i64::MAX), row.time)],
        ),
        build(EXEMPLARS, &[NewEntry::Exemplar(row, LABEL)]),
        build(METADATA, &[NewEntry::Metadata(id, 9, LABEL)]),
        build(
            HISTOGRAMS,
            &[NewEntry::Histogram(&histogram_of(id.0, time, &signed))],
        ),
        build(
            FLOAT_HISTOGRAMS,
            &[NewEntry::FloatHistogram(&histogram_of(id.0, time, &floats))],
        ),
    ]
}

/// A segment with these records, cut after the last, and where each starts.
fn segment_of(version: Version, bodies: &[Vec<u8>]) -> (Vec<u8>, Vec<usize>) {
    let length: usize = bodies.iter().map(|body| body.len() + 4 * HEADER).sum();
    let mut segment = vec![0; (length / PAGE + 2) * PAGE];
    let mut place = 0;
    let mut starts = Vec::new();
    for body in bodies {
        starts.push(place);
        place = segment::write(version, &mut segment, place, body).expect("it fits");
    }
    segment.truncate(place);
    (segment, starts)
}

/// The records of a segment that is good.
fn records(version: Version, segment: &[u8]) -> Vec<Vec<u8>> {
    let mut buffer = vec![0; RECORD_MAX];
    let mut good = Good::default();
    let mut list = Vec::new();
    while let Reading::Record(record) =
        segment::read(version, segment, good.offset, &mut buffer, &mut good).expect("a good one")
    {
        list.push(buffer[..record.length].to_vec());
    }
    list
}

/// The answer, and the target; the work buffers are zero in the end.
fn run(
    version: Version,
    source: &[u8],
    ids: &[u64],
    time: i64,
    pages: usize,
) -> (Checkpoint, Vec<u8>) {
    let ids: Vec<SeriesId> = ids.iter().map(|&id| SeriesId(id)).collect();
    let kept = Kept {
        ids: &ids,
        time: Timestamp(time),
    };
    let mut target = vec![0xAA; pages * PAGE];
    let (mut work, mut room) = (vec![0xBB; RECORD_MAX + 9], vec![0xCC; RECORD_MAX]);
    let number = version.number();
    let answer = checkpoint(number, source, kept, &mut target, &mut work, &mut room);
    assert!(work.iter().chain(&room).all(|&byte| byte == 0));
    assert!(target[answer.place..].iter().all(|&byte| byte == 0xAA));
    target.truncate(answer.place);
    (answer, target)
}

fn done(place: usize) -> Checkpoint {
    let refusal = None;
    Checkpoint { place, refusal }
}

fn refused(place: usize, number: u32, at: usize) -> Checkpoint {
    let refusal = Some(Refusal { number, place: at });
    Checkpoint { place, refusal }
}

// ---- By hand ----

#[test]
fn half_of_the_switch() {
    let (source, _) = segment_of(One, &[SWITCH.to_vec()]);
    // Id 8 at time 1000 to 1.0, first in its record: 27 bytes.
    let mut wanted = vec![2];
    wanted.extend(8u64.to_be_bytes());
    wanted.extend(1_000u64.to_be_bytes());
    wanted.extend([0, 0, 0x3F, 0xF0, 0, 0, 0, 0, 0, 0]);
    let (answer, target) = run(One, &source, &[8], 1_000, 1);
    assert_eq!(answer, done(34));
    assert_eq!(target[..3], [1, 0, 27]);
    assert_eq!(target[7..], wanted);
    // Both, in any order and again; none; a millisecond too late.
    assert_eq!(
        run(One, &source, &[8, 7, 8], -5, 1),
        (done(44), source.clone())
    );
    for (ids, time) in [
        (&[9][..], 0),
        (&[], 0),
        (&[7, 8], 1_001),
        (&[7, 8], i64::MAX),
    ] {
        assert_eq!(run(One, &source, ids, time, 1), (done(0), Vec::new()));
    }
    assert_eq!(run(Two, &[], &[7], 0, 1), (done(0), Vec::new()));
}

#[test]
fn each_type_by_its_time() {
    for version in [One, Two] {
        for (id, time, kept) in [
            (7, 10, [0, 1, 2, 3, 4, 5, 6].as_slice()),
            (7, 11, &[0, 1, 2, 3, 4, 5, 6]),
            (7, i64::MAX, &[0, 1, 2, 3, 4, 5, 6]),
            (7, 9, &[0, 4]),
            (7, i64::MIN, &[0, 4]),
            (8, 10, &[]),
        ] {
            let bodies = one_of_each(id, time);
            let (source, _) = segment_of(version, &bodies);
            let (answer, target) = run(version, &source, &[7, 9], 10, 1);
            let wanted: Vec<Vec<u8>> = kept.iter().map(|&one| bodies[one].clone()).collect();
            assert_eq!(answer, done(target.len()));
            assert_eq!(records(version, &target), wanted, "{id} at {time}");
        }
    }
}

/// A row of samples as no builder writes it: with varints a byte longer than needed.
fn long_row(id_delta: i64, time_delta: i64, bytes: &mut Vec<u8>) {
    for delta in [id_delta, time_delta] {
        varint::write_varint(delta, bytes);
        *bytes.last_mut().expect("a varint has bytes") |= 0x80;
        bytes.push(0);
    }
    bytes.extend([0; 8]);
}

#[test]
fn records_are_rebuilt() {
    // The header names an id that no row has.
    let mut body = vec![SAMPLES];
    body.extend(1u64.to_be_bytes());
    body.extend(100u64.to_be_bytes());
    for (id_delta, time_delta) in [(6, 0), (7, 5), (6, -100)] {
        long_row(id_delta, time_delta, &mut body);
    }
    let unknown = vec![5, 1, 2];
    let header = body[..17].to_vec();
    let bodies = [unknown, vec![SERIES], header, vec![HISTOGRAMS], body];
    let (source, _) = segment_of(Two, &bodies);
    let all = [sample(7, 100, 0), sample(8, 105, 0), sample(7, 0, 0)].map(NewEntry::Sample);
    for (ids, time, kept) in [
        (&[7, 8][..], i64::MIN, &all[..]),
        (&[7, 8], 100, &all[..2]),
        (&[8], 0, &all[1..2]),
    ] {
        let (answer, target) = run(Two, &source, ids, time, 1);
        assert_eq!(answer, done(target.len()));
        assert_eq!(records(Two, &target), [build(SAMPLES, kept)]);
    }
}

// ---- Refusals ----

/// A body that grows when it is rebuilt: its header is near its rows, but the first of them is far
/// from all others. The last `wide` rows are at 64, the others at 0.
fn growing(rows: usize, wide: usize) -> Vec<u8> {
    let mut body = vec![SAMPLES];
    body.extend(7u64.to_be_bytes());
    body.extend(0u64.to_be_bytes());
    for row in 0..rows {
        let id_delta = if row == 0 { 1 << 62 } else { 0 };
        let time_delta = if row + wide < rows { 0 } else { 64 };
        varint::write_varint(id_delta, &mut body);
        varint::write_varint(time_delta, &mut body);
        body.extend(row.to_be_bytes());
    }
    body
}

const FAR: u64 = (1 << 62) + 7;

/// Rows of the longest body, with 7 of them wide. The first takes 10 bytes after the 17 before it,
/// every other 9 for the id, 1 for the time and 8 for the value; a wide one takes 1 more.
const MOST: usize = 3_640;

#[test]
fn a_record_that_grows() {
    assert_eq!(27 + 18 * (MOST - 1) + 7, RECORD_MAX);
    for (rows, wide, fits) in [
        (2, 0, true),
        (MOST, 7, true),
        (MOST, 8, false),
        (MOST + 1, 0, false),
    ] {
        let bodies = [samples(&[(7, 1)]), growing(rows, wide), samples(&[(7, 2)])];
        let (source, starts) = segment_of(One, &bodies);
        let (answer, target) = run(One, &source, &[7, FAR], i64::MIN, 4);
        if fits {
            assert_eq!(answer, done(target.len()));
            let length = records(One, &target)[1].len();
            assert_eq!(length, 27 + 18 * (rows - 1) + wide);
        } else {
            assert_eq!(answer, refused(34, TOO_LONG, starts[1]));
            assert_eq!(target, source[..34]);
        }
    }
    // TooLong comes before NoRoom, but NoRoom of a record before it comes first.
    let long = growing(MOST, 8);
    let full = samples(&vec![(7, 1); 2_980]);
    let (source, starts) = segment_of(One, &[full.clone(), long.clone()]);
    let (answer, target) = run(One, &source, &[7, FAR], 0, 1);
    assert_eq!(answer, refused(target.len(), TOO_LONG, starts[1]));
    assert_eq!(records(One, &target), std::slice::from_ref(&full));
    let (source, starts) = segment_of(One, &[full.clone(), full, long]);
    let (answer, _) = run(One, &source, &[7, FAR], 0, 1);
    assert_eq!(answer.refusal, refused(0, NO_ROOM, starts[1]).refusal);
}

#[test]
fn a_source_that_is_refused() {
    let good = samples(&[(7, 1)]);
    let mut short = samples(&[(9, 1)]);
    short.pop();
    let (source, starts) = segment_of(Two, &[good.clone(), short, vec![METADATA, 0]]);
    // Nothing is written, also where nothing of the bad record would be kept.
    let wanted = refused(0, SHORT, starts[1]);
    assert_eq!(run(Two, &source, &[7], 0, 1), (wanted, Vec::new()));
    assert_eq!(run(One, &source, &[7], 0, 1).0, refused(0, BAD_SUM, 0));
    let (mut source, starts) = segment_of(One, &[good.clone(), good.clone()]);
    let torn = &source[..source.len() - 1];
    assert_eq!(run(One, torn, &[7], 0, 1).0, refused(0, TORN, starts[1]));
    let end = source.len();
    source.extend([0, 0, 1]);
    assert_eq!(
        run(One, &source, &[7], 0, 1).0,
        refused(0, NOT_ZERO, end + 2)
    );
    source.pop();
    assert_eq!(run(One, &source, &[7], 0, 1).0, done(end));
}

#[test]
fn lengths_and_versions() {
    let (source, _) = segment_of(One, &[samples(&[(7, 1)])]);
    let long = vec![0; SEGMENT_MAX + 1];
    let kept = Kept {
        ids: &[SeriesId(7)],
        time: Timestamp(0),
    };
    for (version, source, target, work, body, number) in [
        (1, &source, PAGE, RECORD_MAX, RECORD_MAX, 0),
        (1, &source, PAGE, RECORD_MAX + 1, RECORD_MAX + 70, 0),
        (1, &source, PAGE, RECORD_MAX - 1, RECORD_MAX, BAD_BUFFER),
        (1, &source, PAGE, RECORD_MAX, RECORD_MAX - 1, BAD_BUFFER),
        (1, &source, PAGE, 0, 0, BAD_BUFFER),
        (1, &source, 0, RECORD_MAX, RECORD_MAX, BAD_BUFFER),
        (1, &source, PAGE + 1, RECORD_MAX, RECORD_MAX, BAD_BUFFER),
        (
            1,
            &source,
            SEGMENT_MAX + PAGE,
            RECORD_MAX,
            RECORD_MAX,
            BAD_BUFFER,
        ),
        (1, &long, PAGE, RECORD_MAX, RECORD_MAX, BAD_BUFFER),
        (0, &source, PAGE, RECORD_MAX, RECORD_MAX, BAD_NAME),
        (3, &long, 0, RECORD_MAX, 5, BAD_NAME),
    ] {
        let mut target = vec![0xAA; target];
        let (mut work, mut body) = (vec![0xBB; work], vec![0xBB; body]);
        let answer = checkpoint(version, source, kept, &mut target, &mut work, &mut body);
        let place = if number == 0 { 34 } else { 0 };
        assert_eq!(answer.place, place);
        let refusal = (number != 0).then_some(Refusal { number, place: 0 });
        assert_eq!(answer.refusal, refusal);
        let zero = work.len() >= RECORD_MAX && body.len() >= RECORD_MAX;
        let byte = if zero { 0 } else { 0xBB };
        assert!(work.iter().chain(&body).all(|&found| found == byte));
        assert!(target[place..].iter().all(|&found| found == 0xAA));
    }
}

// ---- Generated logs ----

/// The entries of each record; none of a body whose type is not known.
fn entries(bodies: &[Vec<u8>]) -> Vec<Vec<Facts>> {
    let bodies = bodies.iter();
    bodies
        .map(|body| entries_of(body).unwrap_or_default())
        .collect()
}

/// The definition: what is kept of each record, and of these records those that have any.
fn filter(records: Vec<Vec<Facts>>, ids: &[u64], time: i64) -> Vec<Vec<Facts>> {
    let is_kept = |Facts { entry, .. }: &Facts| {
        let late = match entry.kind {
            SERIES | METADATA => true,
            TOMBSTONES => entry.max.0 >= time,
            _ => entry.time.0 >= time,
        };
        late && ids.contains(&entry.id.0)
    };
    let kept = records.into_iter().map(|record| {
        let kept = record.into_iter().filter(|facts| is_kept(facts));
        kept.collect::<Vec<_>>()
    });
    kept.filter(|record| !record.is_empty()).collect()
}

fn any_time(rng: &mut Rng) -> i64 {
    match rng.below(8) {
        0 => rng.pick(&[i64::MIN, i64::MAX, -1]),
        1 => rng.next() as i64,
        _ => rng.below(6) as i64,
    }
}

/// Up to six entries of one type about ids below 6, rows far apart among them.
fn any_body(rng: &mut Rng) -> Vec<u8> {
    let kind = rng.pick(&[
        SERIES, SAMPLES, SAMPLES, TOMBSTONES, EXEMPLARS, METADATA, 7, 8, 5,
    ]);
    if kind == 5 {
        return vec![rng.pick(&[5, 0, 9]), 1, 2];
    }
    let count = rng.below(7);
    let rows: Vec<(u64, i64)> = (0..count)
        .map(|_| {
            let id = if rng.once_in(9) {
                rng.next()
            } else {
                rng.below(6) as u64
            };
            (id, any_time(rng))
        })
        .collect();
    let (signed, floats) = ([rng.next() as i64, -1, 64], [rng.next(), 2, 0]);
    let histograms: Vec<_> = rows
        .iter()
        .map(|&(id, time)| histogram_of(id, time, &signed))
        .collect();
    let float: Vec<_> = rows
        .iter()
        .map(|&(id, time)| histogram_of(id, time, &floats))
        .collect();
    let entries: Vec<NewEntry> = (0..count)
        .map(|at| {
            let (id, time) = (SeriesId(rows[at].0), Timestamp(rows[at].1));
            let row = Sample {
                id,
                time,
                bits: rng.next(),
            };
            match kind {
                SERIES => NewEntry::Series(id, LABEL),
                SAMPLES => NewEntry::Sample(row),
                TOMBSTONES => NewEntry::Tombstone(id, Timestamp(any_time(rng)), time),
                EXEMPLARS => NewEntry::Exemplar(row, LABEL),
                METADATA => NewEntry::Metadata(id, rng.next() as u8, LABEL),
                HISTOGRAMS => NewEntry::Histogram(&histograms[at]),
                _ => NewEntry::FloatHistogram(&float[at]),
            }
        })
        .collect();
    build(kind, &entries)
}

#[test]
fn the_entries_that_are_kept() {
    let mut rng = Rng(14);
    for _ in 0..3_000 {
        let version = rng.pick(&[One, Two]);
        let bodies: Vec<Vec<u8>> = (0..rng.below(20)).map(|_| any_body(&mut rng)).collect();
        let ids: Vec<u64> = (0..rng.below(5)).map(|_| rng.below(6) as u64).collect();
        let time = any_time(&mut rng);
        let (source, _) = segment_of(version, &bodies);
        let (answer, target) = run(version, &source, &ids, time, 2);
        assert_eq!(answer, done(target.len()));
        let written = entries(&records(version, &target));
        assert_eq!(written, filter(entries(&bodies), &ids, time));
        // Of the checkpoint, again: the same bytes.
        assert_eq!(run(version, &target, &ids, time, 2), (answer, target));
    }
}

/// Rows that are all at or after the time: what each kept series had last is the same.
#[test]
fn the_latest_rows_stay() {
    let mut rng = Rng(15);
    for _ in 0..500 {
        let time = any_time(&mut rng).min(i64::MAX - 9);
        let mut bodies = vec![build(SERIES, &[NewEntry::Series(SeriesId(3), LABEL)])];
        for _ in 0..rng.below(20) {
            let late = |rng: &mut Rng| time + rng.below(8) as i64;
            let id = rng.below(6) as u64;
            let min = Timestamp(late(&mut rng));
            let max = Timestamp(late(&mut rng));
            bodies.push(match rng.below(4) {
                0 => build(SERIES, &[NewEntry::Series(SeriesId(id), LABEL)]),
                1 => build(TOMBSTONES, &[NewEntry::Tombstone(SeriesId(id), min, max)]),
                _ => samples(&[(id, late(&mut rng)), (id ^ 1, late(&mut rng))]),
            });
        }
        let (source, _) = segment_of(One, &bodies);
        let ids: Vec<u64> = (0..rng.below(6)).map(|_| rng.below(6) as u64).collect();
        let (_, target) = run(One, &source, &ids, time, 1);
        let table = |segment: &[u8]| {
            let mut rows = [Row::default(); SERIES_MAX];
            let replayed = replay(One, segment, &mut vec![0; RECORD_MAX], &mut rows);
            assert_eq!(replayed.refusal, None);
            rows[..replayed.series].to_vec()
        };
        let mut kept = table(&source);
        kept.retain(|row| ids.contains(&row.id.0));
        assert_eq!(table(&target), kept);
    }
}
