//! Replay (document 02 [3] and [6]): each rule by a small log, generated logs against a replay that
//! is written down as the paper says it, one look at the whole table for every row, and real ones.

mod rng;

use reference::body::{
    self, Entry, NewEntry, Sample, SeriesId, Strings, Timestamp, EXEMPLARS, FLOAT_HISTOGRAMS,
    HISTOGRAMS, METADATA, SAMPLES, SERIES, TOMBSTONES,
};
use reference::histogram::{NewHistogram, Spans};
use reference::refusal::*;
use reference::replay::{replay, replay_strict, Replayed, Row, Table, SERIES_MAX};
use reference::segment::{self, Good, Reading, HEADER, PAGE, RECORD_MAX, SEGMENT_MAX};
use reference::version::Version;
use rng::Rng;
use std::collections::BTreeSet;

// ---- Logs ----

fn body(kind: u8, entries: &[NewEntry]) -> Vec<u8> {
    let mut buffer = vec![0; RECORD_MAX];
    let mut state = body::start(&mut buffer, kind).expect("a known type");
    for entry in entries {
        state = body::add(&mut buffer, state, entry).expect("it fits");
    }
    buffer.truncate(state.used);
    buffer
}

const LABEL: Strings = Strings {
    text: b"jobdepot",
    lengths: &[3, 5],
};

fn series(ids: impl IntoIterator<Item = u64>) -> Vec<u8> {
    let entries = ids.into_iter();
    let entries = entries.map(|id| NewEntry::Series(SeriesId(id), LABEL));
    body(SERIES, &entries.collect::<Vec<_>>())
}

/// An id, a time and a value.
type Given = (u64, i64, u64);

fn sample((id, time, bits): Given) -> Sample {
    let (id, time) = (SeriesId(id), Timestamp(time));
    Sample { id, time, bits }
}

fn samples(rows: &[Given]) -> Vec<u8> {
    let entries = rows.iter().map(|&row| NewEntry::Sample(sample(row)));
    body(SAMPLES, &entries.collect::<Vec<_>>())
}

fn exemplars(rows: &[Given]) -> Vec<u8> {
    let entries = rows
        .iter()
        .map(|&row| NewEntry::Exemplar(sample(row), LABEL));
    body(EXEMPLARS, &entries.collect::<Vec<_>>())
}

fn metadata(ids: &[u64]) -> Vec<u8> {
    let entries = ids.iter();
    let entries = entries.map(|&id| NewEntry::Metadata(SeriesId(id), 1, LABEL));
    body(METADATA, &entries.collect::<Vec<_>>())
}

/// Histograms of one type with these ids, times and sums.
fn histograms(kind: u8, rows: &[Given]) -> Vec<u8> {
    let floats: Vec<_> = rows.iter().map(|&row| histogram(row, &[1, 2])).collect();
    let signed: Vec<_> = rows.iter().map(|&row| histogram(row, &[1, -2])).collect();
    let entries: Vec<NewEntry> = match kind {
        HISTOGRAMS => signed.iter().map(NewEntry::Histogram).collect(),
        _ => floats.iter().map(NewEntry::FloatHistogram).collect(),
    };
    body(kind, &entries)
}

fn histogram<B>((id, time, sum): Given, buckets: &[B]) -> NewHistogram<'_, B> {
    let (offsets, lengths) = (&[-1], &[2]);
    NewHistogram {
        id: SeriesId(id),
        time: Timestamp(time),
        hint: 0,
        schema: 3,
        zero_threshold: 0,
        zero_count: 1,
        count: 4,
        sum,
        positive_spans: Spans { offsets, lengths },
        negative_spans: Spans { offsets, lengths },
        positive_buckets: buckets,
        negative_buckets: buckets,
    }
}

/// An id, a min and a max time each.
fn tombstones(given: &[(u64, i64, i64)]) -> Vec<u8> {
    let entries = given
        .iter()
        .map(|&(id, min, max)| NewEntry::Tombstone(SeriesId(id), Timestamp(min), Timestamp(max)));
    body(TOMBSTONES, &entries.collect::<Vec<_>>())
}

/// A segment with these records, cut after the last, and where each starts.
fn log(bodies: &[Vec<u8>]) -> (Vec<u8>, Vec<usize>) {
    let length: usize = bodies.iter().map(|body| body.len() + 4 * HEADER).sum();
    let mut segment = vec![0; (length / PAGE + 2) * PAGE];
    let mut place = 0;
    let mut starts = Vec::new();
    for body in bodies {
        starts.push(place);
        place = segment::write(Version::One, &mut segment, place, body).expect("it fits");
    }
    segment.truncate(place);
    (segment, starts)
}

// ---- Replay as the paper says it ----

/// What the table holds before the call; no row of a log is like it.
const BEFORE: Row = Row {
    id: SeriesId(77),
    rows: 77,
    latest: Timestamp(77),
    bits: 77,
    deleted: true,
};

/// The series so far, and the rows of unknown ids.
#[derive(Clone, Default)]
struct Plain {
    series: Vec<Row>,
    orphans: u64,
    /// Sample rows of the records replayed, counted from the log itself.
    sample_rows: u64,
    skipped: u64,
    /// Records replayed and the place after the last.
    records: u64,
    end: usize,
}

impl Plain {
    fn row(&mut self, id: SeriesId) -> Option<&mut Row> {
        self.series.iter_mut().find(|row| row.id == id)
    }

    fn take(&mut self, entry: &Entry) {
        let &Entry { id, time, bits, .. } = entry;
        match (entry.kind, self.row(id)) {
            (SERIES, None) => self.series.push(Row {
                id,
                ..Row::default()
            }),
            (SAMPLES, None) => self.orphans += 1,
            (SAMPLES, Some(row)) => {
                if row.rows == 0 || time.0 > row.latest.0 {
                    (row.latest, row.bits, row.deleted) = (time, bits, false);
                }
                row.rows += 1;
            }
            (TOMBSTONES, Some(row)) => {
                let covered = (time.0..=entry.max.0).contains(&row.latest.0);
                row.deleted = row.deleted || (row.rows > 0 && covered);
            }
            _ => {}
        }
    }

    /// The state with a record more, or the refusal's number.
    fn with(&self, body: &[u8]) -> Result<Plain, u32> {
        let count = body::check(body).map_err(|refusal| refusal.number)?;
        let mut next = self.clone();
        let mut place = 1;
        while let Ok(Some(entry)) = body::entry_at(body, place) {
            next.take(&entry);
            place = entry.after;
        }
        if body[0] == SAMPLES {
            next.sample_rows += count as u64;
        }
        match next.series.len() {
            0..=SERIES_MAX => Ok(next),
            _ => Err(TABLE_FULL),
        }
    }

    fn replay(mode: Mode, segment: &[u8], buffer: &mut [u8]) -> (Plain, Option<Refusal>) {
        let mut state = Plain::default();
        let mut place = 0;
        loop {
            let record =
                match segment::read(Version::One, segment, place, buffer, &mut Good::default()) {
                    Ok(Reading::Record(record)) => record,
                    Ok(Reading::End) => return (state, None),
                    Err(refusal) => return (state, Some(refusal)),
                };
            match state.with(&buffer[..record.length]) {
                Ok(next) => state = next,
                Err(UNKNOWN_TYPE) if mode == Mode::Default => state.skipped += 1,
                Err(number) => {
                    let place = record.start;
                    return (state, Some(Refusal { number, place }));
                }
            }
            place = record.after;
            (state.records, state.end) = (state.records + 1, place);
        }
    }
}

#[derive(Clone, Copy, Debug, PartialEq, Eq)]
enum Mode {
    Default,
    Strict,
}

/// Replays a log in both modes, and answers what the default gave. Where nothing is skipped they
/// are the same; else the strict one ends at the first record that the default skips.
fn compare(segment: &[u8]) -> (Replayed, Vec<Row>) {
    let default = compare_as(Mode::Default, segment);
    let strict = compare_as(Mode::Strict, segment);
    let number = |refusal: Option<Refusal>| refusal.map(|refusal| refusal.number);
    assert_ne!(number(default.0.refusal), Some(UNKNOWN_TYPE));
    assert_eq!(strict.0.skipped, 0);
    match default.0.skipped {
        0 => assert_eq!(strict, default),
        _ => assert_eq!(number(strict.0.refusal), Some(UNKNOWN_TYPE)),
    }
    default
}

/// Replays a log and replays it as the paper says, compares everything, and answers what came out.
fn compare_as(mode: Mode, segment: &[u8]) -> (Replayed, Vec<Row>) {
    let mut table: Table = [BEFORE; SERIES_MAX];
    let mut buffer = vec![0xAA; RECORD_MAX + 1];
    let replayed = match mode {
        Mode::Default => replay(Version::One, segment, &mut buffer, &mut table),
        Mode::Strict => replay_strict(Version::One, segment, &mut buffer, &mut table),
    };
    let mut plain_buffer = vec![0xAA; RECORD_MAX + 1];
    let (plain, refusal) = Plain::replay(mode, segment, &mut plain_buffer);
    let expected = Replayed {
        refusal,
        series: plain.series.len(),
        orphans: plain.orphans,
        skipped: plain.skipped,
        good: Good {
            records: plain.records,
            offset: plain.end,
        },
    };
    assert_eq!(replayed, expected);
    let (series, behind) = table.split_at(replayed.series);
    assert_eq!(series, plain.series);
    assert!(behind.iter().all(|&row| row == BEFORE));
    assert!(buffer == plain_buffer, "the record buffer");
    let counted: u64 = series.iter().map(|row| row.rows).sum();
    assert_eq!(counted + replayed.orphans, plain.sample_rows);
    (replayed, series.to_vec())
}

/// A log of these records that is replayed to its end: the series, and the orphans.
fn replay_good(bodies: &[Vec<u8>]) -> (Vec<Row>, u64) {
    let (replayed, series) = compare(&log(bodies).0);
    assert_eq!(replayed.refusal, None);
    (series, replayed.orphans)
}

/// A log of these records of which the last is refused, with this number at its start.
fn replay_refused(bodies: &[Vec<u8>], number: u32) -> (Vec<Row>, u64) {
    let (segment, starts) = log(bodies);
    let place = *starts.last().expect("a record");
    let (replayed, series) = compare(&segment);
    assert_eq!(replayed.refusal, Some(Refusal { number, place }));
    (series, replayed.orphans)
}

fn row(id: u64, rows: u64, latest: i64, bits: u64) -> Row {
    Row {
        id: SeriesId(id),
        rows,
        latest: Timestamp(latest),
        bits,
        deleted: false,
    }
}

fn deleted(row: Row) -> Row {
    let deleted = true;
    Row { deleted, ..row }
}

// ---- Series and rows ----

#[test]
fn an_empty_log() {
    assert_eq!(replay_good(&[]), (vec![], 0));
    assert_eq!(compare(&[0; 2 * PAGE]).0.refusal, None);
}

#[test]
fn series_in_the_order_first_entered() {
    let (series, _) = replay_good(&[series([9, 3]), series([u64::MAX, 0])]);
    let ids = [9, 3, u64::MAX, 0].map(|id| row(id, 0, 0, 0));
    assert_eq!(series, ids);
}

#[test]
fn a_repeated_id_keeps_its_first_entry() {
    let (series, _) = replay_good(&[
        series([7, 8, 7, 7]),
        samples(&[(7, 5, 50)]),
        series([9, 7, 9, 8]),
    ]);
    let expected = [row(7, 1, 5, 50), row(8, 0, 0, 0), row(9, 0, 0, 0)];
    assert_eq!(series, expected);
}

#[test]
fn orphans() {
    let bodies = [
        samples(&[(7, 1, 10), (8, 1, 10)]),
        series([7]),
        samples(&[(7, 2, 20), (8, 2, 20), (7, 3, 30)]),
        // Entered later: what came before stays an orphan.
        series([8]),
        samples(&[(8, 1, 40)]),
    ];
    let expected = vec![row(7, 2, 3, 30), row(8, 1, 1, 40)];
    assert_eq!(replay_good(&bodies), (expected, 3));
}

#[test]
fn the_first_row_always_sets_the_time() {
    for time in [-1, i64::MIN, 0, i64::MAX] {
        let (series, _) = replay_good(&[series([7]), samples(&[(7, time, 50)])]);
        assert_eq!(series, [row(7, 1, time, 50)]);
    }
}

#[test]
fn a_row_that_is_not_later_is_counted_only() {
    for (times, latest, bits) in [
        ([5, 5, 5], 5, 0),
        ([5, 4, 6], 6, 2),
        ([5, 6, 4], 6, 1),
        ([-5, -6, -4], -4, 2),
        ([i64::MIN, i64::MAX, i64::MIN], i64::MAX, 1),
        ([0, -1, i64::MIN], 0, 0),
    ] {
        let rows: Vec<Given> = (0..).zip(times).map(|(bits, t)| (7, t, bits)).collect();
        let apart: Vec<Vec<u8>> = rows.iter().map(|&row| samples(&[row])).collect();
        let expected = [row(7, 3, latest, bits)];
        assert_eq!(replay_good(&[series([7]), samples(&rows)]).0, expected);
        let bodies = [vec![series([7])], apart].concat();
        assert_eq!(replay_good(&bodies).0, expected);
    }
}

#[test]
fn what_changes_nothing() {
    let rows = [(7, 6, 60), (8, 6, 60)];
    let bodies = [
        series([7]),
        samples(&[(7, 5, 50)]),
        exemplars(&rows),
        metadata(&[7, 9]),
        histograms(HISTOGRAMS, &rows),
        histograms(FLOAT_HISTOGRAMS, &rows),
    ];
    assert_eq!(replay_good(&bodies), (vec![row(7, 1, 5, 50)], 0));
}

// ---- Tombstones ----

#[test]
fn a_tombstone_that_covers_the_latest_time() {
    for (min, max, covers) in [
        (5, 5, true),
        (i64::MIN, i64::MAX, true),
        (-9, 5, true),
        (5, 9, true),
        (6, 9, false),
        (-9, 4, false),
        // Min above max covers nothing, even if both are at the latest time's sides.
        (6, 4, false),
        (6, 5, false),
        (5, 4, false),
        (i64::MAX, i64::MIN, false),
    ] {
        let given = [series([7, 8]), samples(&[(7, 5, 50), (8, 20, 80)])];
        let (series, _) = replay_good(&[&given[..], &[tombstones(&[(7, min, max)])]].concat());
        let plain = row(7, 1, 5, 50);
        let marked = if covers { deleted(plain) } else { plain };
        let other = row(8, 1, 20, 80);
        assert_eq!(series, [marked, other], "{min} to {max}");
    }
}

#[test]
fn a_tombstone_for_nothing() {
    let all = (i64::MIN, i64::MAX);
    // An unknown series, one that is entered later, and one without rows, whose time reads 0.
    let bodies = [
        series([7]),
        tombstones(&[(7, 0, 0), (8, all.0, all.1), (9, 0, 0)]),
        series([9]),
        tombstones(&[(9, all.0, all.1)]),
        samples(&[(7, 0, 50), (8, 0, 50)]),
    ];
    let expected = vec![row(7, 1, 0, 50), row(9, 0, 0, 0)];
    assert_eq!(replay_good(&bodies), (expected, 1));
}

#[test]
fn only_a_later_row_clears_the_mark() {
    for (time, expected) in [
        (4, deleted(row(7, 2, 5, 50))),
        (5, deleted(row(7, 2, 5, 50))),
        (6, row(7, 2, 6, 60)),
        (i64::MAX, row(7, 2, i64::MAX, 60)),
    ] {
        let bodies = [
            series([7]),
            samples(&[(7, 5, 50)]),
            tombstones(&[(7, 5, 5)]),
            samples(&[(7, time, 60)]),
        ];
        assert_eq!(replay_good(&bodies).0, [expected]);
        // A tombstone that does not cover it and an entry of the same id leave the mark.
        let more = [tombstones(&[(7, 100, 200)]), series([7])];
        assert_eq!(replay_good(&[&bodies[..], &more].concat()).0, [expected]);
    }
}

#[test]
fn a_mark_is_set_again() {
    let bodies = [
        series([7]),
        samples(&[(7, 5, 50)]),
        tombstones(&[(7, 5, 5), (7, 0, 1)]),
        samples(&[(7, 6, 60)]),
        tombstones(&[(7, 0, 5)]),
        tombstones(&[(7, 0, 6)]),
    ];
    assert_eq!(replay_good(&bodies).0, [deleted(row(7, 2, 6, 60))]);
}

// ---- The table's end ----

#[test]
fn the_table_holds_256() {
    let full = series(1..=256);
    let (series_of_256, _) = replay_good(&[full.clone(), series([256, 1, 128])]);
    assert_eq!(series_of_256.len(), 256);
    assert_eq!(series_of_256[255], row(256, 0, 0, 0));
    // Full, it still counts, and takes what brings no series.
    let bodies = [full, samples(&[(1, 9, 90), (257, 9, 90)]), metadata(&[257])];
    let (series_of_256, orphans) = replay_good(&bodies);
    assert_eq!((series_of_256[0], orphans), (row(1, 1, 9, 90), 1));
}

#[test]
fn the_257th_series_is_refused() {
    replay_refused(&[series(1..=257)], TABLE_FULL);
    let (known, _) = replay_refused(&[series(1..=256), series([257])], TABLE_FULL);
    assert_eq!(known.len(), 256);
    let mut one_by_one: Vec<Vec<u8>> = (1..=257).map(|id| series([id])).collect();
    let (known, _) = replay_refused(&one_by_one, TABLE_FULL);
    assert_eq!(known.len(), 256);
    // Nothing behind it is looked at.
    one_by_one.push(vec![5]);
    let (segment, starts) = log(&one_by_one);
    let place = starts[256];
    let number = TABLE_FULL;
    let (replayed, _) = compare(&segment);
    assert_eq!(replayed.refusal, Some(Refusal { number, place }));
}

#[test]
fn a_record_with_the_257th_series_is_refused_whole() {
    let bodies = [
        series(1..=250),
        samples(&[(1, 5, 50), (251, 5, 50)]),
        series([3, 251, 252, 253, 251, 254, 255, 256, 257, 2]),
    ];
    let (known, orphans) = replay_refused(&bodies, TABLE_FULL);
    assert_eq!((known.len(), orphans), (250, 1));
    assert_eq!(known[0], row(1, 1, 5, 50));
    // The same record without one of them brings six.
    let more = series([3, 251, 252, 253, 251, 254, 255, 256, 256, 2]);
    let (known, _) = replay_good(&[&bodies[..2], &[more]].concat());
    assert_eq!(known.len(), 256);
}

#[test]
fn a_bodys_refusal_comes_before_28() {
    let mut short = series(1..=257);
    short.pop();
    replay_refused(&[short.clone()], SHORT);
    let (known, _) = replay_refused(&[series([7]), short], SHORT);
    assert_eq!(known, [row(7, 0, 0, 0)]);
}

// ---- Refused bodies ----

/// Document 02 [5]: no empty record comes out, so replay never meets a body without a byte.
#[test]
fn an_empty_record() {
    let (mut segment, _) = log(&[series([7])]);
    let place = segment.len();
    segment.extend([1, 0, 0, 0, 0, 0, 0]);
    segment.extend(log(&[series([8])]).0);
    let (replayed, known) = compare(&segment);
    let number = HOLLOW;
    assert_eq!(replayed.refusal, Some(Refusal { number, place }));
    assert_eq!(known, [row(7, 0, 0, 0)]);
}

/// The types that no body has.
fn unknown_types() -> impl Iterator<Item = u8> {
    (0..=255).filter(|kind| !matches!(kind, 1 | 2 | 3 | 4 | 6 | 7 | 8))
}

#[test]
fn an_unknown_type_is_skipped() {
    for kind in unknown_types() {
        let bodies = [
            series([7]),
            vec![kind, 1, 2],
            samples(&[(7, 5, 50)]),
            vec![kind],
        ];
        let (replayed, known) = compare(&log(&bodies).0);
        assert_eq!((replayed.refusal, replayed.skipped), (None, 2));
        assert_eq!(replayed.good.records, 4);
        assert_eq!(known, [row(7, 1, 5, 50)]);
    }
}

#[test]
fn an_unknown_type_stops_a_strict_replay() {
    for kind in unknown_types() {
        let bodies = [series([7]), vec![kind, 1, 2], samples(&[(7, 5, 50)])];
        let (segment, starts) = log(&bodies);
        let (replayed, known) = compare_as(Mode::Strict, &segment);
        assert_eq!(
            (replayed.good.records, replayed.good.offset),
            (1, starts[1])
        );
        let (number, place) = (UNKNOWN_TYPE, starts[1]);
        assert_eq!(replayed.refusal, Some(Refusal { number, place }));
        assert_eq!((replayed.skipped, known), (0, vec![row(7, 0, 0, 0)]));
    }
}

/// Skipped or not, every other refusal ends a replay: of a body, of a full table, of the reading.
#[test]
fn what_is_not_skipped() {
    let skipped = vec![vec![5, 9, 9], vec![200]];
    let full = series(1..=256);
    for (last, number) in [
        (vec![SERIES, 0], SHORT),
        ([&[METADATA], &[0xFF; 10][..]].concat(), BAD_VARINT),
        (out_of_range(HISTOGRAMS), BAD_RANGE),
        (out_of_range(FLOAT_HISTOGRAMS), BAD_RANGE),
        (series([257]), TABLE_FULL),
    ] {
        let bodies = [vec![full.clone()], skipped.clone(), vec![last]].concat();
        let (segment, starts) = log(&bodies);
        let (replayed, _) = compare(&segment);
        let place = starts[3];
        assert_eq!(replayed.refusal, Some(Refusal { number, place }));
        assert_eq!(replayed.skipped, 2);
    }
    let (mut segment, _) = log(&[vec![full], skipped].concat());
    let place = segment.len();
    segment.extend([1, 0, 0, 0, 0, 0, 0]);
    let (replayed, _) = compare(&segment);
    let number = HOLLOW;
    assert_eq!(replayed.refusal, Some(Refusal { number, place }));
    assert_eq!(replayed.skipped, 2);
}

/// A body whose first histogram has a schema of 2^31, in zigzag form; no more of it is read.
fn out_of_range(kind: u8) -> Vec<u8> {
    let mut body = histograms(kind, &[(7, 5, 50)]);
    body.splice(20.., [0x80, 0x80, 0x80, 0x80, 0x10]);
    body
}

/// A skipped record of several fragments leaves its bytes in the record buffer, as the reads left
/// them; `compare` looks at them.
#[test]
fn a_long_record_is_skipped() {
    let (replayed, known) = compare(&log(&[vec![5; 60_000], series([7]), vec![200; 9]]).0);
    assert_eq!((replayed.refusal, replayed.skipped), (None, 2));
    assert_eq!(known, [row(7, 0, 0, 0)]);
}

/// A body of each type, with entries that would change the table.
fn telling() -> [Vec<u8>; 7] {
    [
        series([8, 9, 300]),
        samples(&[(7, 6, 60), (8, 1_000_000, 80), (7, 7, 70)]),
        tombstones(&[(7, 0, 9), (7, i64::MIN, i64::MAX)]),
        exemplars(&[(7, 6, 60), (7, 7, 70)]),
        metadata(&[7, 300]),
        histograms(HISTOGRAMS, &[(7, 6, 60), (8, 7, 70)]),
        histograms(FLOAT_HISTOGRAMS, &[(7, 6, 60), (8, 7, 70)]),
    ]
}

#[test]
fn a_body_that_ends_anywhere() {
    let given = [series([7]), samples(&[(7, 5, 50), (1, 5, 50)])];
    let before = (vec![row(7, 1, 5, 50)], 1);
    for body in telling() {
        for length in 1..body.len() {
            let bodies = [&given[..], &[body[..length].to_vec()]].concat();
            match body::check(&body[..length]) {
                Ok(_) => drop(replay_good(&bodies)),
                Err(refusal) => assert_eq!(replay_refused(&bodies, refusal.number), before),
            }
        }
    }
}

#[test]
fn a_body_with_a_bad_varint() {
    let given = [series([7]), samples(&[(7, 5, 50), (1, 5, 50)])];
    let before = (vec![row(7, 1, 5, 50)], 1);
    for mut body in telling() {
        // Ids of eight bytes take what the varints have too many; the field after them does not.
        body.extend([0xFF; 19]);
        let bodies = [&given[..], &[body]].concat();
        assert_eq!(replay_refused(&bodies, BAD_VARINT), before);
    }
}

// ---- Refused logs ----

#[test]
fn a_torn_log() {
    let (segment, starts) = log(&[
        series([7]),
        samples(&[(7, 5, 50)]),
        samples(&[(7, 6, 60), (7, 7, 70)]),
    ]);
    for length in starts[2] + 1..segment.len() {
        let (replayed, series) = compare(&segment[..length]);
        let torn = Refusal {
            number: TORN,
            place: starts[2],
        };
        assert_eq!(replayed.refusal, Some(torn));
        assert_eq!(series, [row(7, 1, 5, 50)]);
    }
    let (replayed, _) = compare(&segment[..starts[2]]);
    assert_eq!(replayed.refusal, None);
}

#[test]
fn a_reading_refusal_keeps_its_place() {
    let (mut segment, starts) = log(&[series([7]), samples(&[(7, 5, 50)])]);
    // The last data byte: the sum differs, at the type byte of its fragment.
    *segment.last_mut().expect("a byte") ^= 1;
    let (replayed, _) = compare(&segment);
    let (number, place) = (BAD_SUM, starts[1]);
    assert_eq!(replayed.refusal, Some(Refusal { number, place }));
    // A nonzero byte in an empty page: at that byte.
    segment.truncate(starts[1]);
    segment.extend([0, 0, 0, 9]);
    let (replayed, series) = compare(&segment);
    let (number, place) = (NOT_ZERO, starts[1] + 3);
    assert_eq!(replayed.refusal, Some(Refusal { number, place }));
    assert_eq!(series, [row(7, 0, 0, 0)]);
}

#[test]
fn a_record_of_several_fragments() {
    let ids: Vec<u64> = (1..=256).collect();
    let rows: Vec<Given> = (0..4_500).map(|n| (n % 300, n as i64, n)).collect();
    let bodies = [series(ids), samples(&rows), samples(&rows)];
    assert!(bodies[1].len() > PAGE);
    let (series, orphans) = replay_good(&bodies);
    assert_eq!(orphans, 2 * 15 * 44);
    assert_eq!(series[0], row(1, 30, 4_201, 4_201));
    let mut short = bodies.clone();
    short[2].pop();
    replay_refused(&short, SHORT);
}

#[test]
fn wrong_lengths() {
    let (segment, _) = log(&[series([7]), samples(&[(1, 1, 1)])]);
    let refused = Replayed {
        refusal: Some(Refusal {
            number: BAD_BUFFER,
            place: 0,
        }),
        series: 0,
        orphans: 0,
        skipped: 0,
        good: Good::default(),
    };
    let mut table: Table = [BEFORE; SERIES_MAX];
    let mut short = vec![0xAA; RECORD_MAX - 1];
    assert_eq!(
        replay(Version::One, &segment, &mut short, &mut table),
        refused
    );
    assert_eq!(
        replay_strict(Version::One, &segment, &mut short, &mut table),
        refused
    );
    let mut none = [];
    assert_eq!(replay(Version::One, &[9], &mut none, &mut table), refused);
    assert!(short.iter().all(|&byte| byte == 0xAA));
    let mut buffer = vec![0xAA; RECORD_MAX];
    let mut long = segment;
    long.resize(SEGMENT_MAX + 1, 0);
    assert_eq!(
        replay(Version::One, &long, &mut buffer, &mut table),
        refused
    );
    assert!(buffer.iter().all(|&byte| byte == 0xAA));
    assert_eq!(table, [BEFORE; SERIES_MAX]);
    // At the limit it is a log.
    long.pop();
    let good = replay(Version::One, &long, &mut buffer, &mut table);
    assert_eq!((good.refusal, good.series, good.orphans), (None, 1, 1));
}

// ---- Generated logs ----

/// Few ids, so that they meet, and some at the ends.
fn id(rng: &mut Rng) -> u64 {
    match rng.below(12) {
        0 => rng.below(400) as u64,
        1 => rng.pick(&[0, 1, u64::MAX, 1 << 63, u64::MAX - 1]),
        _ => 1 + rng.below(9) as u64,
    }
}

fn time(rng: &mut Rng) -> i64 {
    match rng.below(8) {
        0 => rng.pick(&[0, -1, i64::MIN, i64::MAX, i64::MIN + 1]),
        _ => rng.below(40) as i64 - 20,
    }
}

fn rows(rng: &mut Rng) -> Vec<Given> {
    let count = match rng.below(20) {
        0 => rng.below(2_000),
        _ => rng.below(6),
    };
    let row = |_| (id(rng), time(rng), rng.next());
    (0..count).map(row).collect()
}

fn few_rows(rng: &mut Rng) -> Vec<Given> {
    let count = rng.below(4);
    let row = |_| (id(rng), time(rng), rng.next());
    (0..count).map(row).collect()
}

fn covers(rng: &mut Rng) -> Vec<(u64, i64, i64)> {
    let cover = |_| (id(rng), time(rng), time(rng));
    (0..3).map(cover).collect()
}

/// A few ids, now and then very many new ones.
fn ids(rng: &mut Rng) -> Vec<u64> {
    if rng.once_in(30) {
        let first = rng.below(400) as u64;
        return (first..first + rng.below(260) as u64).collect();
    }
    (0..rng.below(4)).map(|_| id(rng)).collect()
}

/// A body that is good, nearly always.
fn any_body(rng: &mut Rng) -> Vec<u8> {
    let mut body = match rng.below(9) {
        0 | 1 => series(ids(rng)),
        2..=4 => samples(&rows(rng)),
        5 => tombstones(&covers(rng)),
        6 => exemplars(&[(id(rng), time(rng), rng.next())]),
        7 => histograms(rng.pick(&[HISTOGRAMS, FLOAT_HISTOGRAMS]), &few_rows(rng)),
        _ => metadata(&ids(rng)),
    };
    if rng.once_in(40) {
        body.truncate(1 + rng.below(body.len()));
    }
    if rng.once_in(60) {
        let place = rng.below(body.len());
        body[place] = rng.next() as u8;
    }
    if rng.once_in(200) {
        let length = 1 + rng.below(30);
        body = rng.bytes(length);
    }
    if rng.once_in(150) {
        body.extend([0xFF; 19]);
    }
    if rng.once_in(30) {
        body[0] = rng.pick(&[0, 5, 200, 255]);
    }
    body
}

fn any_log(rng: &mut Rng) -> Vec<u8> {
    let count = rng.below(60);
    let bodies: Vec<Vec<u8>> = (0..count).map(|_| any_body(rng)).collect();
    let (mut segment, _) = log(&bodies);
    if rng.once_in(4) {
        segment.truncate(rng.below(segment.len() + 1));
    }
    if rng.once_in(4) && !segment.is_empty() {
        let place = rng.below(segment.len());
        segment[place] ^= 1 << rng.below(8);
    }
    segment
}

#[test]
fn generated_logs() {
    let mut rng = Rng(5);
    let mut numbers = BTreeSet::new();
    let mut orphans = 0;
    let mut skipped = 0;
    let mut marked = 0;
    for _ in 0..3_000 {
        let (replayed, series) = compare(&any_log(&mut rng));
        numbers.extend(replayed.refusal.map(|refusal| refusal.number));
        orphans += replayed.orphans;
        skipped += replayed.skipped;
        marked += series.iter().filter(|row| row.deleted).count();
    }
    // What has to be met was met.
    assert!(orphans > 0 && skipped > 0 && marked > 0);
    for number in [BAD_SUM, TORN, SHORT, BAD_VARINT, BAD_RANGE, TABLE_FULL] {
        assert!(numbers.contains(&number), "{number} in {numbers:?}");
    }
}

/// Ids whose first slots are the same, if the index spreads them by that factor.
#[test]
fn ids_that_collide() {
    let mut inverse: u64 = 1;
    for _ in 0..6 {
        let product = inverse.wrapping_mul(0x9E37_79B9_7F4A_7C15);
        inverse = inverse.wrapping_mul(2u64.wrapping_sub(product));
    }
    for top in [0, u64::MAX << 54] {
        let ids: Vec<u64> = (0..256u64).map(|n| inverse.wrapping_mul(top | n)).collect();
        let rows: Vec<Given> = ids.iter().map(|&id| (id, 5, id)).collect();
        let unknown = inverse.wrapping_mul(top | 256);
        let bodies = [
            series(ids.clone()),
            samples(&rows),
            samples(&[(unknown, 1, 1)]),
        ];
        let (series, orphans) = replay_good(&bodies);
        assert_eq!(orphans, 1);
        for (row, id) in series.iter().zip(ids) {
            assert_eq!((row.id.0, row.rows, row.bits), (id, 1, id));
        }
    }
}

// ---- Real logs ----

const FIXTURES: &str = concat!(env!("CARGO_MANIFEST_DIR"), "/../tests/fixtures");

fn fixture(name: &str) -> Vec<u8> {
    std::fs::read(format!("{FIXTURES}/{name}_00000000")).expect("a fixture")
}

/// A real log, and how its replay ends.
struct Real {
    name: &'static str,
    /// The number and the place, or a clean end.
    refusal: Option<(u32, usize)>,
    skipped: u64,
    /// The records replayed, and the place after the last.
    good: (u64, usize),
}

/// No fixture has a record of an unknown type before its end, so that both replays say the same.
const REAL: [Real; 4] = [
    Real {
        name: "small_kill9",
        refusal: None,
        skipped: 0,
        good: (294, 52_878),
    },
    // Many more series than a table holds: its eighth record brings the 257th.
    Real {
        name: "cut_enospc_kill9",
        refusal: Some((TABLE_FULL, 3_986)),
        skipped: 0,
        good: (7, 3_986),
    },
    // Its empty record comes before its types 5 and 200.
    Real {
        name: "real_encoder_extremes",
        refusal: Some((HOLLOW, 22_162)),
        skipped: 0,
        good: (24, 22_162),
    },
    Real {
        name: "compressed_default",
        refusal: Some((COMPRESSED, 0)),
        skipped: 0,
        good: (0, 0),
    },
];

#[test]
fn what_prometheus_wrote() {
    for real in REAL {
        let (replayed, _) = compare(&fixture(real.name));
        let refusal = replayed.refusal.map(|why| (why.number, why.place));
        let Good { records, offset } = replayed.good;
        assert_eq!(refusal, real.refusal, "{}", real.name);
        assert_eq!(replayed.skipped, real.skipped, "{}", real.name);
        assert_eq!((records, offset), real.good, "{}", real.name);
    }
}
