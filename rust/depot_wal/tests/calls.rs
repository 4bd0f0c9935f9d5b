//! The safe calls: what each gives and refuses. That the answers are right is proved and compared
//! elsewhere (`tests/compare`); here they arrive as Rust has them.

mod common;

use common::Rng;
use depot_wal::body::{self, Builder, Entry, Kind, Sample, Strings, Tombstone};
use depot_wal::checkpoint::{checkpoint, Work};
use depot_wal::checksum::{self, Table};
use depot_wal::feed::{self, Feed, ReadError, Step};
use depot_wal::histogram::{Float, NewHistogram, NewSide, Numbers, Span, Whole};
use depot_wal::index::Index;
use depot_wal::names::{Name, NAME_MAX};
use depot_wal::replay::Replay;
use depot_wal::report::Report;
use depot_wal::resume::resume;
use depot_wal::segment::{Records, Writer, PAGE, RECORD_MAX, SEGMENT_MAX};
use depot_wal::size::pages_for;
use depot_wal::{Error, Good, Id, Refusal, Time, Value, Version};

const VERSIONS: [Version; 2] = [Version::V1, Version::V2];

fn refused<T>(refusal: Refusal, place: usize) -> Result<T, Error> {
    Err(Error { refusal, place })
}

/// Records of any length, mostly short.
fn records(rng: &mut Rng, count: usize) -> Vec<Vec<u8>> {
    let length = |rng: &mut Rng| match rng.below(8) {
        0 => rng.between(1, RECORD_MAX),
        _ => rng.between(1, 600),
    };
    (0..count)
        .map(|_| {
            let length = length(rng);
            rng.bytes(length)
        })
        .collect()
}

/// A segment of these records.
fn segment_of(version: Version, records: &[Vec<u8>]) -> Vec<u8> {
    let bytes: usize = records.iter().map(Vec::len).sum();
    let pages = pages_for(records.len() as u64, bytes as u64).unwrap();
    let mut segment = vec![0; pages as usize * PAGE];
    let mut writer = Writer::new(version, &mut segment);
    for record in records {
        writer.write(record).unwrap();
    }
    let end = writer.place();
    segment.truncate(end);
    segment
}

/// All records of a reading, and how it ended.
fn read_all(mut reading: Records) -> (Vec<Vec<u8>>, Option<Error>, Good) {
    let (mut found, mut error) = (Vec::new(), None);
    while let Some(record) = reading.next() {
        match record {
            Ok(record) => found.push(record.bytes.to_vec()),
            Err(refusal) => error = Some(refusal),
        }
    }
    assert!(reading.next().is_none(), "it stays at its end");
    (found, error, reading.good())
}

// ---- Segments ----

#[test]
fn checksums_agree() {
    let mut rng = Rng(3);
    let table = Table::new();
    assert_eq!(&table, Table::shared());
    for length in [0, 1, 9, 511, 512, 4096] {
        let data = rng.bytes(length);
        let sum = checksum::crc32c_plain(&data);
        assert_eq!((checksum::crc32c(&data), table.crc32c(&data)), (sum, sum));
    }
    assert_eq!(checksum::crc32c(b""), 0);
}

#[test]
fn records_read_back_with_and_without_a_table() {
    let mut rng = Rng(4);
    let (own, mut buffer) = (Table::new(), [0; RECORD_MAX]);
    for version in VERSIONS {
        let records = records(&mut rng, 40);
        let segment = segment_of(version, &records);
        for table in [None, Some(&own), Some(Table::shared())] {
            let mut again = vec![0xAA; segment.len().next_multiple_of(PAGE)];
            let mut writer = Writer::new(version, &mut again).with_table(table);
            for record in &records {
                writer.write(record).unwrap();
            }
            assert!(writer.written() == segment);
            let reading = Records::new(version, &segment, &mut buffer).with_table(table);
            let (found, error, good) = read_all(reading);
            assert!(found == records && error.is_none());
            assert_eq!(good.records, 40);
        }
        let other = VERSIONS[usize::from(version == Version::V1)];
        let reading = Records::new(other, &segment, &mut buffer);
        let wrong = Error {
            refusal: Refusal::BadSum,
            place: 0,
        };
        assert_eq!(read_all(reading), (vec![], Some(wrong), Good::default()));
    }
}

#[test]
fn a_write_that_is_refused_changes_nothing() {
    let mut segment = vec![0xAA; 2 * PAGE];
    let whole = segment.clone();
    let mut writer = Writer::new(Version::V1, &mut segment);
    assert_eq!(writer.write(b""), refused(Refusal::Hollow, 0));
    assert_eq!(
        writer.write(&[0; RECORD_MAX + 1]),
        refused(Refusal::TooLong, 0)
    );
    assert_eq!(writer.write(&[0; RECORD_MAX]), refused(Refusal::NoRoom, 0));
    assert_eq!(writer.place(), 0);
    assert!(segment == whole);
    assert_eq!(
        Writer::new(Version::V1, &mut []).write(b"a"),
        refused(Refusal::BadBuffer, 0)
    );
    let mut writer = Writer::at(Version::V1, &mut segment, PAGE - 3);
    assert_eq!(writer.write(b"a"), refused(Refusal::BadPlace, 0));
    let mut writer = Writer::at(Version::V1, &mut segment, 3 * PAGE);
    assert_eq!(writer.write(b"a"), refused(Refusal::BadPlace, 0));
    assert_eq!(writer.written().len(), 2 * PAGE);
    assert!(segment == whole);
}

#[test]
fn a_reading_ends_at_what_it_refuses() {
    let mut buffer = [0; RECORD_MAX];
    let mut segment = segment_of(Version::V1, &[b"one".to_vec(), b"two".to_vec()]);
    segment[17] ^= 1;
    let (found, error, good) = read_all(Records::new(Version::V1, &segment, &mut buffer));
    assert_eq!(found, [b"one"]);
    assert_eq!(
        error,
        Some(Error {
            refusal: Refusal::BadSum,
            place: 10
        })
    );
    assert_eq!(
        good,
        Good {
            records: 1,
            offset: 10
        }
    );
    let error = error.unwrap();
    assert_eq!(error.to_string(), "corrupt: checksum mismatch (10 at 10)");
    assert_eq!(error.number(), 10);
    let mut beyond = Records::at(Version::V1, &segment, 21, &mut buffer);
    assert_eq!(beyond.next(), Some(refused(Refusal::BadPlace, 0)));
    assert_eq!(beyond.next(), None);
}

#[test]
fn resumed_segments_have_no_scar() {
    let mut rng = Rng(5);
    for version in VERSIONS {
        let records = records(&mut rng, 30);
        let whole = segment_of(version, &records);
        for _ in 0..200 {
            let survived = rng.below(whole.len() + 1);
            let mut segment = vec![0xAA; whole.len().next_multiple_of(PAGE)];
            segment[..survived].copy_from_slice(&whole[..survived]);
            let (mut writer, good) = Writer::resume(version, &mut segment, survived).unwrap();
            for record in &records[good.records as usize..] {
                writer.write(record).unwrap();
            }
            assert!(writer.written() == whole);
        }
    }
    let mut page = vec![0; PAGE];
    let none = Good::default();
    let bad = resume(Version::V1, &mut page, PAGE + 1).unwrap_err();
    assert_eq!((bad.error.refusal, bad.good), (Refusal::BadPlace, none));
    let bad = resume(Version::V1, &mut page[..5], 0).unwrap_err();
    assert_eq!((bad.error.refusal, bad.good), (Refusal::BadBuffer, none));
    Writer::new(Version::V1, &mut page).write(b"one").unwrap();
    page[10] = 0xFF;
    let bad = resume(Version::V1, &mut page, 20).unwrap_err();
    assert_eq!(
        bad.error,
        Error {
            refusal: Refusal::Reserved,
            place: 10
        }
    );
    assert_eq!(
        bad.good,
        Good {
            records: 1,
            offset: 10
        }
    );
    let text = "corrupt: reserved bit set in a type byte (3 at 10); 1 records are good, 10 bytes";
    assert_eq!(bad.to_string(), text);
}

// ---- The feed ----

#[test]
fn a_feed_reads_as_one_slice() {
    let mut rng = Rng(6);
    let (mut page, mut buffer) = ([0; PAGE], [0; RECORD_MAX]);
    for version in VERSIONS {
        let records = records(&mut rng, 30);
        let whole = segment_of(version, &records);
        for case in 0..60 {
            let cut = [whole.len(), rng.below(whole.len())][case % 2];
            let mut segment = whole[..cut].to_vec();
            if case % 3 == 0 {
                let place = rng.below(cut.max(1));
                segment[place] ^= 1 << rng.below(8);
            }
            let wanted = read_all(Records::new(version, &segment, &mut buffer));
            let (mut found, mut error) = (Vec::new(), None);
            let mut pages = segment.chunks(PAGE);
            let mut feed = Feed::new(version, &mut page, &mut buffer);
            loop {
                match feed.read() {
                    Ok(Step::Record(record)) => found.push(record.bytes.to_vec()),
                    Ok(Step::Ask(ask)) if case % 4 == 0 => ask
                        .fill(|page| {
                            let next = pages.next().unwrap_or(&[]);
                            page[..next.len()].copy_from_slice(next);
                            Ok::<_, Error>(next.len())
                        })
                        .unwrap(),
                    Ok(Step::Ask(ask)) => ask.feed(pages.next().unwrap_or(&[])).unwrap(),
                    Ok(Step::End) => break,
                    Err(refusal) => {
                        assert_eq!(feed.read().err(), Some(refusal), "it is given again");
                        error = Some(refusal);
                        break;
                    }
                }
            }
            assert!((found, error, feed.good()) == wanted);

            let mut reader = feed::Records::new(version, &segment[..]);
            let found: Vec<Vec<u8>> = reader.by_ref().map_while(Result::ok).collect();
            assert!(found == wanted.0);
            assert_eq!(reader.good(), wanted.2);
            assert!(reader.next().is_none());
        }
    }
}

#[test]
fn a_feed_takes_no_wrong_page() {
    let (mut page, mut buffer) = ([0; PAGE], [0; RECORD_MAX]);
    let mut feed = Feed::new(Version::V1, &mut page, &mut buffer);
    let Ok(Step::Ask(ask)) = feed.read() else {
        panic!()
    };
    assert_eq!(ask.feed(&[0; PAGE + 1]), refused(Refusal::BadBuffer, 0));
    let Ok(Step::Ask(ask)) = feed.read() else {
        panic!()
    };
    assert_eq!(ask.fill(|_| Ok(PAGE + 1)), refused(Refusal::BadBuffer, 0));
    let Ok(Step::Ask(ask)) = feed.read() else {
        panic!()
    };
    ask.feed(&[]).unwrap();
    assert!(matches!(feed.read(), Ok(Step::End)));

    // Zeros for ever: above the limit of a segment.
    let mut records = feed::Records::new(Version::V1, std::io::repeat(0));
    let Some(Err(ReadError::Refused(error))) = records.next() else {
        panic!()
    };
    assert_eq!(
        error,
        Error {
            refusal: Refusal::BadBuffer,
            place: 0
        }
    );
    assert!(records.next().is_none());
}

// ---- Bodies ----

/// Pairs of strings, and their lengths.
fn strings(rng: &mut Rng) -> (Vec<u8>, Vec<u64>) {
    let lengths: Vec<u64> = (0..2 * rng.below(4))
        .map(|_| rng.below(200) as u64)
        .collect();
    (rng.bytes(lengths.iter().sum::<u64>() as usize), lengths)
}

/// The pairs as they are read.
fn pairs<'a>(text: &'a [u8], lengths: &[u64]) -> Vec<(&'a [u8], &'a [u8])> {
    let mut rest = text;
    let mut take = |length: u64| {
        let (first, last) = rest.split_at(length as usize);
        rest = last;
        first
    };
    lengths
        .chunks(2)
        .map(|pair| (take(pair[0]), take(pair[1])))
        .collect()
}

fn any_sample(rng: &mut Rng) -> Sample {
    Sample {
        id: Id(rng.next()),
        time: Time(rng.next() as i64),
        value: Value(rng.next()),
    }
}

#[test]
fn bodies_read_back() {
    let mut rng = Rng(7);
    let mut buffer = [0; RECORD_MAX];
    for _ in 0..50 {
        let (text, lengths) = strings(&mut rng);
        let lent = Strings {
            text: &text,
            lengths: &lengths,
        };
        let sample = any_sample(&mut rng);
        let tombstone = Tombstone {
            id: sample.id,
            min: sample.time,
            max: Time(rng.next() as i64),
        };
        let count = rng.between(1, 5);

        let mut series = Builder::series(&mut buffer).unwrap();
        (0..count).for_each(|_| series.push(sample.id, lent).unwrap());
        let body = series.finish();
        assert_eq!(
            (body::kind(body), body::check(body)),
            (Ok(Kind::Series), Ok(count as u64))
        );
        for entry in body::entries(body) {
            let Ok(Entry::Series(read)) = entry else {
                panic!("{entry:?}")
            };
            assert_eq!((read.id, read.labels.len()), (sample.id, lengths.len() / 2));
            assert!(read.labels.eq(pairs(&text, &lengths)));
        }

        let mut samples = Builder::samples(&mut buffer).unwrap();
        let rows: Vec<Sample> = (0..count).map(|_| any_sample(&mut rng)).collect();
        rows.iter().for_each(|row| samples.push(*row).unwrap());
        let mut list = vec![Sample::default(); count + 1];
        assert_eq!(body::fill_samples(samples.bytes(), &mut list), Ok(count));
        assert_eq!(
            (&list[..count], list[count]),
            (&rows[..], Sample::default())
        );
        let full = body::fill_samples(samples.bytes(), &mut list[..count - 1]);
        assert_eq!(full, refused(Refusal::ListFull, 0));

        let mut tombstones = Builder::tombstones(&mut buffer).unwrap();
        tombstones.push(tombstone).unwrap();
        let entry = body::entries(tombstones.bytes()).next();
        assert!(matches!(entry, Some(Ok(Entry::Tombstone(read))) if read == tombstone));

        let mut exemplars = Builder::exemplars(&mut buffer).unwrap();
        exemplars.push(sample, lent).unwrap();
        let entry = body::entries(exemplars.bytes()).next();
        let Some(Ok(Entry::Exemplar(read))) = entry else {
            panic!("{entry:?}")
        };
        assert_eq!(read.sample, sample);
        assert!(read.labels.eq(pairs(&text, &lengths)));

        let mut metadata = Builder::metadata(&mut buffer).unwrap();
        metadata.push(sample.id, 9, lent).unwrap();
        let entry = body::entries(metadata.bytes()).next();
        let Some(Ok(Entry::Metadata(read))) = entry else {
            panic!("{entry:?}")
        };
        assert_eq!((read.id, read.metric_type), (sample.id, 9));
        assert!(read.fields.eq(pairs(&text, &lengths)));
    }
}

fn histogram<'a, N: Numbers>(rng: &mut Rng, buckets: &'a [N::Bucket]) -> NewHistogram<'a, N> {
    let sample = any_sample(rng);
    NewHistogram {
        id: sample.id,
        time: sample.time,
        hint: rng.next() as u8,
        schema: rng.next() as i32,
        zero_threshold: sample.value,
        sum: Value(rng.next()),
        positive: NewSide {
            offsets: &[i32::MIN, 5],
            lengths: &[u32::MAX, 0],
            buckets,
        },
        negative: NewSide {
            offsets: &[],
            lengths: &[],
            buckets: &buckets[..1],
        },
        ..NewHistogram::default()
    }
}

#[test]
fn histograms_read_back() {
    let mut rng = Rng(8);
    let mut buffer = [0; RECORD_MAX];
    let spans = [
        Span {
            offset: i32::MIN,
            length: u32::MAX,
        },
        Span {
            offset: 5,
            length: 0,
        },
    ];

    let buckets = [i64::MIN, -1, i64::MAX];
    let new = NewHistogram::<Whole> {
        count: u64::MAX,
        ..histogram(&mut rng, &buckets)
    };
    let mut body = Builder::histograms(&mut buffer).unwrap();
    body.push(&new).unwrap();
    let bad = NewHistogram {
        positive: NewSide {
            offsets: &[1],
            ..new.negative
        },
        ..new
    };
    assert_eq!(body.push(&bad), refused(Refusal::BadList, 0));
    body.push(&new).unwrap();
    assert_eq!(body::check(body.bytes()), Ok(2));
    for entry in body::entries(body.bytes()) {
        let Ok(Entry::Histogram(read)) = entry else {
            panic!("{entry:?}")
        };
        assert_eq!(
            (read.id, read.time, read.hint),
            (new.id, new.time, new.hint)
        );
        assert_eq!((read.schema, read.sum), (new.schema, new.sum));
        assert_eq!(
            (read.zero_threshold, read.zero_count),
            (new.zero_threshold, 0)
        );
        assert_eq!(read.count, u64::MAX);
        assert!(read.positive.spans.eq(spans) && read.positive.buckets.eq(buckets));
        assert!(read.negative.spans.eq([]) && read.negative.buckets.eq([i64::MIN]));
    }

    let floats = [Value(u64::MAX), 0.5.into()];
    let new = NewHistogram::<Float> {
        count: 2.5.into(),
        ..histogram(&mut rng, &floats)
    };
    let mut body = Builder::float_histograms(&mut buffer).unwrap();
    body.push(&new).unwrap();
    let entry = body::entries(body.bytes()).next();
    let Some(Ok(Entry::FloatHistogram(read))) = entry else {
        panic!("{entry:?}")
    };
    assert_eq!((read.count, read.zero_count), (2.5.into(), Value(0)));
    assert!(read.positive.buckets.eq(floats) && read.negative.buckets.len() == 1);
}

#[test]
fn bodies_are_refused_as_the_papers_say() {
    assert_eq!(body::kind(&[]), refused(Refusal::EmptyBody, 0));
    assert_eq!(body::check(&[]), refused(Refusal::EmptyBody, 0));
    assert_eq!(body::kind(&[5]), refused(Refusal::UnknownType, 0));
    assert_eq!(body::check(&[5]), refused(Refusal::UnknownType, 0));
    for (bytes, error) in [(&[][..], Refusal::EmptyBody), (&[5], Refusal::UnknownType)] {
        let mut entries = body::entries(bytes);
        assert_eq!(entries.next().unwrap().unwrap_err().refusal, error);
        assert!(entries.next().is_none());
        assert_eq!(body::fill_samples(bytes, &mut []), refused(error, 0));
    }
    assert_eq!(
        body::fill_samples(&[1, 0], &mut []),
        refused(Refusal::WrongKind, 0)
    );
    assert_eq!(
        body::fill_samples(&[2, 0], &mut []),
        refused(Refusal::Short, 1)
    );
    assert_eq!(body::entries(&[7]).count(), 0);
    assert_eq!(
        Builder::samples(&mut []).err(),
        refused::<()>(Refusal::NoRoom, 0).err()
    );

    let mut small = [0; 20];
    let mut samples = Builder::samples(&mut small).unwrap();
    assert_eq!(samples.push(Sample::default()), refused(Refusal::NoRoom, 1));
    assert_eq!(samples.bytes(), [2]);
    let mut series = Builder::series(&mut small).unwrap();
    let odd = Strings {
        text: b"a",
        lengths: &[1],
    };
    assert_eq!(series.push(Id(1), odd), refused(Refusal::BadList, 0));
    let text = vec![0; RECORD_MAX];
    let long = Strings {
        text: &text,
        lengths: &[RECORD_MAX as u64, 0],
    };
    assert_eq!(series.push(Id(1), long), refused(Refusal::TooLong, 1));
}

// ---- What the records say together ----

fn samples_body(rows: &[(u64, i64, f64)]) -> Vec<u8> {
    let mut buffer = [0; RECORD_MAX];
    let mut samples = Builder::samples(&mut buffer).unwrap();
    for &(id, time, value) in rows {
        let (id, time, value) = (Id(id), Time(time), value.into());
        samples.push(Sample { id, time, value }).unwrap();
    }
    samples.finish().to_vec()
}

fn series_body(ids: std::ops::Range<u64>) -> Vec<u8> {
    let mut buffer = [0; RECORD_MAX];
    let mut series = Builder::series(&mut buffer).unwrap();
    ids.for_each(|id| series.push(Id(id), Strings::default()).unwrap());
    series.finish().to_vec()
}

#[test]
fn a_replay_counts() {
    let mut buffer = [0; RECORD_MAX];
    let mut tombstone = [0; 32];
    let mut tombstones = Builder::tombstones(&mut tombstone).unwrap();
    tombstones
        .push(Tombstone {
            id: Id(2),
            min: Time(0),
            max: Time(50),
        })
        .unwrap();
    let records = [
        series_body(1..4),
        samples_body(&[(1, 10, 0.5), (2, 20, 1.0), (9, 5, 0.0)]),
        tombstones.finish().to_vec(),
        vec![200, 1],
        samples_body(&[(1, 5, 2.0)]),
    ];
    for version in VERSIONS {
        let segment = segment_of(version, &records);
        let mut replay = Replay::new();
        assert_eq!(replay.series().len(), 0);
        replay.run(version, &segment, &mut buffer).unwrap();
        let series: Vec<_> = replay.series().collect();
        assert_eq!(series.len(), 3);
        assert_eq!(
            (series[0].id, series[0].rows, series[0].deleted),
            (Id(1), 2, false)
        );
        assert_eq!(series[0].last, Some((Time(10), 0.5.into())));
        assert_eq!((series[1].rows, series[1].deleted), (1, true));
        assert_eq!((series[2].rows, series[2].last), (0, None));
        assert_eq!((replay.orphans(), replay.skipped()), (1, 1));
        assert_eq!(
            replay.good(),
            Good {
                records: 5,
                offset: segment.len()
            }
        );

        let error = replay
            .run_strict(version, &segment, &mut buffer)
            .unwrap_err();
        assert_eq!(error.refusal, Refusal::UnknownType);
        assert_eq!((replay.good().records, replay.skipped()), (3, 0));
        assert_eq!(replay.series().next().unwrap().rows, 1);
    }
    let segment = segment_of(Version::V1, &[series_body(0..257)]);
    let full = Replay::default().run(Version::V1, &segment, &mut buffer);
    assert_eq!(full, refused(Refusal::TableFull, 0));
}

#[test]
fn a_report_counts_and_ends() {
    let mut buffer = [0; RECORD_MAX];
    let rows = [
        (7, 1, 11.5),
        (8, 1, f64::NAN),
        (7, 2, 12.5),
        (7, 3, f64::NAN),
    ];
    let segment = segment_of(Version::V2, &[samples_body(&rows)]);
    let mut report = Report::new();
    report
        .add_segment(Version::V2, &segment, &mut buffer)
        .unwrap();
    let torn = report.add_segment(Version::V2, &segment[..20], &mut buffer);
    assert_eq!(torn, refused(Refusal::Torn, 0));
    assert_eq!(
        report.add_misnamed(),
        Error {
            refusal: Refusal::BadName,
            place: 0
        }
    );
    assert_eq!((report.segments(), report.ended()), (3, None));
    let series: Vec<_> = report.series().collect();
    assert_eq!(series.len(), 2);
    assert_eq!(
        (series[0].id, series[0].rows, series[0].nans),
        (Id(7), 3, 1)
    );
    assert_eq!(series[0].extremes, Some((11.5.into(), 12.5.into())));
    assert_eq!((series[1].rows, series[1].extremes), (1, None));

    let many: Vec<_> = (0..255).map(|id| (100 + id, 1, 1.0)).collect();
    let segment = segment_of(Version::V1, &[samples_body(&many)]);
    let full = Error {
        refusal: Refusal::TableFull,
        place: 0,
    };
    assert_eq!(
        report.add_segment(Version::V1, &segment, &mut buffer),
        Err(full)
    );
    assert_eq!((report.ended(), report.series().len()), (Some(full), 2));
    assert_eq!(report.add_misnamed(), full);

    let mut report = Report::default();
    for _ in 0..Report::SEGMENTS_MAX {
        report.add_segment(Version::V1, &[], &mut buffer).unwrap();
    }
    let over = Error {
        refusal: Refusal::BadBuffer,
        place: 0,
    };
    assert_eq!(report.add_segment(Version::V1, &[], &mut buffer), Err(over));
    assert_eq!((report.ended(), report.segments()), (Some(over), 1024));
}

#[test]
fn a_checkpoint_keeps_what_is_listed() {
    let (mut buffer, mut work) = ([0; RECORD_MAX], Box::new(Work::default()));
    let records = [
        series_body(1..4),
        samples_body(&[(1, 10, 0.5), (2, 20, 1.0), (2, 5, 1.0)]),
        vec![200],
        samples_body(&[(1, 30, 2.0)]),
    ];
    for version in VERSIONS {
        let source = segment_of(version, &records);
        let mut target = vec![0xAA; PAGE];
        let ids = [Id(2), Id(3)];
        let end = checkpoint(version, &source, &ids, Time(10), &mut target, &mut work).unwrap();
        let wanted = segment_of(version, &[series_body(2..4), samples_body(&[(2, 20, 1.0)])]);
        assert!(target[..end] == wanted && target[end..].iter().all(|&byte| byte == 0xAA));
        let (kept, error, _) = read_all(Records::new(version, &target[..end], &mut buffer));
        assert_eq!((kept.len(), error), (2, None));

        let torn = &source[..source.len() - 1];
        let error = checkpoint(version, torn, &ids, Time(0), &mut target, &mut work).unwrap_err();
        assert_eq!((error.error.refusal, error.written), (Refusal::Torn, 0));
        let error = checkpoint(version, &source, &ids, Time(0), &mut [], &mut work).unwrap_err();
        assert_eq!(
            (error.error.refusal, error.written),
            (Refusal::BadBuffer, 0)
        );
    }
}

// ---- The index, the size, names ----

#[test]
fn an_index_finds_records() {
    let mut rng = Rng(9);
    let mut buffer = [0; RECORD_MAX];
    for version in VERSIONS {
        let records = records(&mut rng, 50);
        let segment = segment_of(version, &records);
        let half = {
            let mut reading = Records::new(version, &segment, &mut buffer);
            (0..25).for_each(|_| assert!(reading.next().unwrap().is_ok()));
            reading.good().offset
        };
        let mut bytes = vec![0; 12 + 8 * 50];
        let used = Index::build(version, &segment[..half], &mut bytes)
            .unwrap()
            .bytes()
            .len();
        assert_eq!(used, 12 + 8 * 25);
        let index = Index::extend(version, &segment, &mut bytes, used).unwrap();
        assert_eq!((index.len(), index.is_empty()), (50, false));
        for (number, record) in records.iter().enumerate() {
            let row = index.get(number as u64).unwrap();
            let mut reading = Records::at(version, &segment, row.start, &mut buffer);
            assert!(reading.next().unwrap().unwrap().bytes == record);
            assert_eq!(row.length, record.len());
        }
        assert_eq!((index.get(50), index.get(u64::MAX)), (None, None));
        let checked = Index::check(version, &segment, index.bytes());
        assert_eq!(checked, Ok(index));
        bytes[20] ^= 1;
        let bad = Err(Error {
            refusal: Refusal::BadIndex,
            place: 0,
        });
        assert_eq!(Index::check(version, &segment, &bytes), bad);
        assert_eq!(Index::extend(version, &segment, &mut bytes, 500), bad);
        let small = Index::build(version, &segment, &mut bytes[..411]);
        assert_eq!(small, refused(Refusal::NoRoom, 0));
    }
    let empty = Index::build(Version::V1, &[], &mut buffer).unwrap();
    assert_eq!(
        (empty.len(), empty.is_empty(), empty.get(0)),
        (0, true, None)
    );
}

#[test]
fn sizes_and_names() {
    assert_eq!(pages_for(0, 0), Ok(1));
    assert_eq!(pages_for(u64::MAX, u64::MAX), refused(Refusal::NoRoom, 0));
    assert_eq!(SEGMENT_MAX / PAGE, 4096);

    let name = Name {
        sequence: 999_999,
        version: Version::V1,
    };
    assert_eq!(name.make(&mut [0; NAME_MAX]), Ok("999999"));
    assert_eq!("999999-v1".parse(), Ok(name));
    assert_eq!(name.make(&mut [0; 5]), refused(Refusal::NoRoom, 0));
    let high = Name {
        sequence: 1_000_000,
        ..name
    };
    assert_eq!(high.make(&mut [0; NAME_MAX]), refused(Refusal::BadName, 0));
    for bad in ["", "00042", "0000042", "000042-v3", "000042-v02", "000042 "] {
        assert_eq!(bad.parse::<Name>(), refused(Refusal::BadName, 0), "{bad}");
    }
}
