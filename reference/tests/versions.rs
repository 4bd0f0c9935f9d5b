//! Versions and names (document 02 [11]): version 2 beside version 1 through every call, and names
//! of every shape.

mod rng;

use reference::crc32c;
use reference::feed::{Feed, Read};
use reference::refusal::*;
use reference::replay::{replay, replay_strict, Row, SERIES_MAX};
use reference::segment::{
    self, Good, Reading, FIRST, FULL, HEADER, LAST, PAGE, RECORD_MAX, SEGMENT_MAX,
};
use reference::vectors::SWITCH;
use reference::version::{make_name, parse_name, Name, Version};
use reference::{index, listing};
use rng::Rng;

const BOTH: [Version; 2] = [Version::One, Version::Two];

fn other(version: Version) -> Version {
    match version {
        Version::One => Version::Two,
        Version::Two => Version::One,
    }
}

// ---- Sums ----

/// Writes records of these lengths from 0, and hands back their starts too, with the final place.
fn written(version: Version, lengths: &[usize]) -> (Vec<u8>, Vec<usize>) {
    let mut segment = vec![0xAA; 8 * PAGE];
    let mut places = vec![0];
    for (&length, place) in lengths.iter().zip(0..) {
        let record: Vec<u8> = (0..length).map(|i| (i * 7 + place) as u8).collect();
        let next = segment::write(version, &mut segment, places[place], &record);
        places.push(next.expect("it fits"));
    }
    segment.truncate(places[lengths.len()]);
    (segment, places)
}

/// Records of one to four fragments: the second leaves 7 bytes.
const LENGTHS: [usize; 6] = [5, 32_742, RECORD_MAX, 1, 40_000, 37];

#[test]
fn what_is_summed() {
    let mut page = vec![0; PAGE];
    for (version, summed) in [(Version::One, 3), (Version::Two, 0)] {
        segment::write(version, &mut page, 0, &SWITCH).expect("it fits");
        let bytes = [&[FULL, 0, 37][summed..], &SWITCH].concat();
        assert_eq!(page[..3], [FULL, 0, 37]);
        assert_eq!(page[3..7], crc32c::bitwise(&bytes).to_be_bytes());
        assert_eq!(page[7..44], SWITCH);
    }
    // Worked out apart from this program.
    assert_eq!(Version::One.sum(&[FULL, 0, 37], &SWITCH), 0x262D_464A);
    assert_eq!(Version::Two.sum(&[FULL, 0, 37], &SWITCH), 0xD417_E54E);
    assert_eq!(Version::Two.sum(&[FIRST, 0, 0], &[]), 0x2F0B_F177);
    // Of no data it is 0 in version 1 only.
    assert_eq!(Version::One.sum(&[FIRST, 0, 0], &[]), 0);
    let sum = crc32c::bitwise(&[FIRST, 0, 0]);
    assert_eq!(Version::Two.sum(&[FIRST, 0, 0], &[]), sum);
    let (segment, places) = written(Version::Two, &LENGTHS);
    assert_eq!(segment[places[2]..][..3], [FIRST, 0, 0]);
    assert_eq!(segment[places[2] + 3..][..4], sum.to_be_bytes());
}

#[test]
fn only_the_sums_differ() {
    let [(one, places), (two, same)] = BOTH.map(|version| written(version, &LENGTHS));
    assert_eq!(places, same);
    let mut differ = Vec::new();
    let mut at = 0;
    while at < one.len() {
        if segment::left_in_page(at) < HEADER {
            at += segment::left_in_page(at);
            continue;
        }
        differ.extend(at + 3..at + HEADER);
        assert_ne!(one[at + 3..at + HEADER], two[at + 3..at + HEADER]);
        at += HEADER + usize::from(u16::from_be_bytes([one[at + 1], one[at + 2]]));
    }
    for (place, bytes) in one.iter().zip(&two).enumerate() {
        assert!(bytes.0 == bytes.1 || differ.contains(&place));
    }
}

#[test]
fn versions_that_are_not_known() {
    for version in BOTH {
        assert_eq!(Version::of(version.number()), Ok(version));
    }
    for number in [0, 3, 12, 1 << 32, (1 << 32) + 1, u64::MAX] {
        assert_eq!(Version::of(number), refuse(BAD_NAME, 0));
    }
}

// ---- Every call ----

/// What reading gives: the records' starts, lengths and places after, and the refusal.
type Readings = (Vec<[usize; 3]>, Option<Refusal>);

fn by_slice(version: Version, segment: &[u8]) -> Readings {
    let mut buffer = vec![0; RECORD_MAX];
    let mut good = Good::default();
    let mut records = Vec::new();
    loop {
        match segment::read(version, segment, good.offset, &mut buffer, &mut good) {
            Ok(Reading::Record(record)) => {
                records.push([record.start, record.length, record.after]);
            }
            end => return (records, end.err()),
        }
    }
}

fn by_feed(version: Version, segment: &[u8]) -> Readings {
    let mut buffer = vec![0; RECORD_MAX];
    let mut feed = Feed::start(version);
    let mut pages = segment.chunks(PAGE);
    let mut page: &[u8] = &[];
    let mut records = Vec::new();
    loop {
        match feed.read(page, &mut buffer) {
            Read::Record {
                start,
                length,
                next,
            } => records.push([start, length, next]),
            Read::More => {
                page = pages.next().unwrap_or(&[]);
                feed.feed_page(page).expect("it was asked for");
            }
            Read::CleanEnd => return (records, None),
            Read::Refused(refusal) => return (records, Some(refusal)),
        }
    }
}

/// Starts and lengths.
fn by_index(version: Version, segment: &[u8]) -> Vec<[usize; 2]> {
    let mut bytes = vec![0; index::HEAD + segment.len()];
    let length = index::build(version, segment, &mut bytes).expect("room for any");
    bytes.truncate(length);
    let count = index::check(version, segment, &bytes).expect("its own index");
    let mut grown = bytes.clone();
    assert_eq!(
        index::extend(version, segment, &mut grown, length),
        Ok(length)
    );
    assert_eq!(grown, bytes);
    let found = (0..count as u64).map(|record| index::at(&bytes, record).expect("a row"));
    found.map(|found| [found.start, found.length]).collect()
}

/// Cut anywhere, exactly the records come out that are whole before the cut, in both versions.
#[test]
fn cut_anywhere() {
    for version in BOTH {
        let (segment, places) = written(version, &LENGTHS);
        let (all, end) = by_slice(version, &segment);
        assert_eq!((all.len(), end), (LENGTHS.len(), None));
        let near = |cut: usize| places.iter().any(|place| cut.abs_diff(*place) < 16);
        let edge = |cut: usize| cut % PAGE < 16 || PAGE - cut % PAGE < 16;
        for cut in (0..=segment.len()).filter(|&cut| near(cut) || edge(cut)) {
            let whole: Vec<_> = all
                .iter()
                .copied()
                .filter(|[_, _, after]| *after <= cut)
                .collect();
            let torn = places[whole.len()];
            let end = (torn < cut).then_some(Refusal {
                number: TORN,
                place: torn,
            });
            let readings = (whole, end);
            assert_eq!(by_slice(version, &segment[..cut]), readings, "cut at {cut}");
            assert_eq!(by_feed(version, &segment[..cut]), readings, "cut at {cut}");
        }
    }
}

#[test]
fn read_as_the_other_version() {
    for version in BOTH {
        let (segment, _) = written(version, &LENGTHS);
        let bad_sum = Refusal {
            number: BAD_SUM,
            place: 0,
        };
        let nothing = (vec![], Some(bad_sum));
        assert_eq!(by_slice(other(version), &segment), nothing);
        assert_eq!(by_feed(other(version), &segment), nothing);
        assert_eq!(by_index(other(version), &segment), [[0; 2]; 0]);
        let mut own = vec![0; index::HEAD + segment.len()];
        let length = index::build(version, &segment, &mut own).expect("room for any");
        let checked = index::check(other(version), &segment, &own[..length]);
        assert_eq!(checked, refuse(BAD_INDEX, 0));
        let extended = index::extend(other(version), &segment, &mut own, length);
        assert_eq!(extended, refuse(BAD_INDEX, 0));
    }
    let (segment, _) = written(Version::Two, &LENGTHS);
    assert_eq!(listing::text(&segment), "refused 10 0 0\n");
}

#[test]
fn indexes_and_replays() {
    let mut body = SWITCH.to_vec();
    for version in BOTH {
        let mut segment = vec![0; 2 * PAGE];
        let mut place = 0;
        for time in 0..1_000_u64 {
            body[9..17].copy_from_slice(&time.to_be_bytes());
            place = segment::write(version, &mut segment, place, &body).expect("it fits");
        }
        let segment = &segment[..place];
        let (records, _) = by_slice(version, segment);
        let rows: Vec<_> = records
            .iter()
            .map(|&[start, length, _]| [start, length])
            .collect();
        assert_eq!(by_index(version, segment), rows);
        for replay in [replay, replay_strict] {
            let mut buffer = vec![0; RECORD_MAX];
            let table = &mut [Row::default(); SERIES_MAX];
            let done = replay(version, segment, &mut buffer, table);
            assert_eq!(
                (done.refusal, done.orphans, done.good.records),
                (None, 2_000, 1_000)
            );
            let refused = replay(other(version), segment, &mut buffer, table);
            let refusal = refused
                .refusal
                .map(|refusal| (refusal.number, refusal.place));
            assert_eq!(
                (refusal, refused.good),
                (Some((BAD_SUM, 0)), Good::default())
            );
        }
    }
}

/// In version 2 a header that was damaged is found out, also where version 1 reads on.
#[test]
fn a_damaged_header() {
    for (version, number) in [(Version::One, None), (Version::Two, Some(BAD_SUM))] {
        let (mut segment, places) = written(version, &[5, 40_000]);
        // The second record's first fragment says that it is a record.
        segment[places[1]] = FULL;
        let (records, end) = by_slice(version, &segment);
        match number {
            None => assert_eq!(
                (records.len(), end.map(|end| end.number)),
                (2, Some(OUT_OF_ORDER))
            ),
            _ => assert_eq!((records.len(), end.map(|end| end.number)), (1, number)),
        }
    }
}

#[test]
fn random_damage_is_read_alike_by_slice_and_by_pages() {
    let mut rng = Rng(11);
    for case in 0..400 {
        let version = BOTH[case % 2];
        let (mut segment, places) = written(version, &[5, 32_742, 40_000, 1, 37]);
        let place = match case % 3 {
            0 => rng.below(segment.len()),
            _ => rng.pick(&places[..5]) + rng.below(HEADER + 1),
        };
        let any = rng.next() as u8;
        segment[place] = rng.pick(&[0, FULL, LAST, any]);
        let readings = by_slice(version, &segment);
        assert_eq!(by_feed(version, &segment), readings);
        assert_eq!(by_index(version, &segment).len(), readings.0.len());
    }
}

#[test]
fn the_limit_in_version_2() {
    let mut segment = vec![0; SEGMENT_MAX];
    let last = SEGMENT_MAX - PAGE;
    let record = [9; PAGE - HEADER];
    assert_eq!(
        segment::write(Version::Two, &mut segment, last, &record),
        Ok(SEGMENT_MAX)
    );
    let readings = (vec![[last, record.len(), SEGMENT_MAX]], None);
    assert_eq!(by_slice(Version::Two, &segment), readings);
    assert_eq!(by_feed(Version::Two, &segment), readings);
}

// ---- Names ----

#[test]
fn names_read() {
    for (name, sequence, version) in [
        ("000000", 0, Version::One),
        ("000001", 1, Version::One),
        ("123456", 123_456, Version::One),
        ("999999", 999_999, Version::One),
        ("000042-v1", 42, Version::One),
        ("000042-v2", 42, Version::Two),
        ("999999-v2", 999_999, Version::Two),
    ] {
        assert_eq!(parse_name(name.as_bytes()), Ok(Name { sequence, version }));
    }
    for name in [
        "",
        "0",
        "00001",
        "0000001",
        "00000a",
        " 00001",
        "+00001",
        "-00001",
        "0x0001",
        "000001-",
        "000001-v",
        "000001-v0",
        "000001-v3",
        "000001-v4",
        "000001-v01",
        "000001-v02",
        "000001-v10",
        "000001-v21",
        "000001-v2 ",
        "000001-v2\n",
        "000001-v2-v2",
        "000001-V2",
        "000001v2",
        "000001_v2",
        "000001-v+2",
        "000001-v-2",
        "000001.v2",
        "00001-v2",
        "0000001-v2",
        "-v2",
        "000001-v18446744073709551617",
        "000001-v18446744073709551618",
        "000001-v4294967298",
        "٠٠٠٠٠١",
        "00000٢",
        "/000001",
        "000001/",
        "./000001",
        "000001\0",
        "checkpoint.000001",
    ] {
        assert_eq!(parse_name(name.as_bytes()), refuse(BAD_NAME, 0), "{name}");
    }
}

/// Of all bytes at every place of a name only digits are read there, and other versions.
#[test]
fn every_byte_of_a_name() {
    for name in ["482913", "482913-v1", "482913-v2"] {
        for place in 0..name.len() {
            for byte in 0..=255 {
                let mut changed = name.as_bytes().to_vec();
                changed[place] = byte;
                let good = match place {
                    0..6 => byte.is_ascii_digit(),
                    8 => byte == b'1' || byte == b'2',
                    _ => byte == name.as_bytes()[place],
                };
                assert_eq!(parse_name(&changed).is_ok(), good, "{changed:?}");
            }
        }
    }
}

#[test]
fn names_made_are_read() {
    for sequence in (0..=999_999).step_by(7).chain([999_999]) {
        for version in BOTH {
            let mut name = [b'#'; 10];
            let length = if version == Version::One { 6 } else { 9 };
            assert_eq!(make_name(sequence, version.number(), &mut name), Ok(length));
            assert!(name[length..].iter().all(|&byte| byte == b'#'));
            assert_eq!(parse_name(&name[..length]), Ok(Name { sequence, version }));
            let mut short = [b'#'; 8];
            let short = &mut short[..length - 1];
            let refused = make_name(sequence, version.number(), short);
            assert_eq!(refused, refuse(NO_ROOM, 0));
            assert!(short.iter().all(|&byte| byte == b'#'));
        }
    }
}

#[test]
fn names_that_are_not_made() {
    for (sequence, version) in [
        (1_000_000, 1),
        (u64::MAX, 2),
        ((1 << 32) + 5, 1),
        (5, 0),
        (5, 3),
        (5, (1 << 32) + 1),
        (5, u64::MAX),
    ] {
        // Before 11.
        for room in [0, 5, 6, 9, 12] {
            let mut name = vec![b'#'; room];
            assert_eq!(make_name(sequence, version, &mut name), refuse(BAD_NAME, 0));
            assert!(name.iter().all(|&byte| byte == b'#'));
        }
    }
}
