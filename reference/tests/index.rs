//! The index (document 02 [9]) against the list that reading gives, and damage to it.

mod rng;

use reference::crc32c;
use reference::index::{at, build, check, extend, Found, HEAD, ROW};
use reference::refusal::*;
use reference::segment::{self, Good, Reading, FIRST, LAST, MIDDLE, PAGE, RECORD_MAX, SEGMENT_MAX};
use reference::version::Version;
use rng::Rng;

/// What a buffer holds where nothing was put.
const UNTOUCHED: u8 = 0xAA;

/// The index as the paper has it, from the reads of the segment.
fn plain(segment: &[u8]) -> Vec<u8> {
    let mut buffer = vec![0; RECORD_MAX];
    let good = &mut Good::default();
    let mut rows = Vec::new();
    while let Ok(Reading::Record(record)) =
        segment::read(Version::One, segment, good.offset, &mut buffer, good)
    {
        rows.extend([record.start as u32, record.length as u32]);
    }
    let numbers = [good.records as u32, 12, segment.len() as u32];
    let numbers = numbers.into_iter().chain(rows);
    numbers.flat_map(u32::to_be_bytes).collect()
}

/// The index by the call, into a buffer that is longer by so much.
fn built(segment: &[u8], excess: usize) -> Vec<u8> {
    let mut index = vec![UNTOUCHED; plain(segment).len() + excess];
    let length = build(Version::One, segment, &mut index).expect("it fits");
    assert!(index[length..].iter().all(|&byte| byte == UNTOUCHED));
    index.truncate(length);
    index
}

fn fragment(kind: u8, data: &[u8]) -> Vec<u8> {
    let mut bytes = vec![kind];
    bytes.extend((data.len() as u16).to_be_bytes());
    bytes.extend(crc32c::checksum(data).to_be_bytes());
    bytes.extend(data);
    bytes
}

/// Records of these lengths, written from 0.
fn written(pages: usize, lengths: &[usize]) -> Vec<u8> {
    let mut segment = vec![0; pages * PAGE];
    let mut place = 0;
    for &length in lengths {
        place =
            segment::write(Version::One, &mut segment, place, &vec![7; length]).expect("it fits");
    }
    segment.truncate(place);
    segment
}

/// Three records, one after the end of a page and one across it; then a foreign one in short
/// fragments, and filler.
fn mixed() -> Vec<u8> {
    let mut segment = written(3, &[5, 32_743, 40_000]);
    for (kind, data) in [
        (FIRST, &[][..]),
        (MIDDLE, &[1]),
        (MIDDLE, &[]),
        (LAST, &[2]),
    ] {
        segment.extend(fragment(kind, data));
    }
    segment
}

#[test]
fn the_switch() {
    let segment = written(1, &[37]);
    let index = [
        0, 0, 0, 1, 0, 0, 0, 12, 0, 0, 0, 44, 0, 0, 0, 0, 0, 0, 0, 37,
    ];
    assert_eq!(built(&segment, 0), index);
    assert_eq!(check(Version::One, &segment, &index), Ok(1));
    // Torn, a length that is covered all the same.
    let torn = [0, 0, 0, 0, 0, 0, 0, 12, 0, 0, 0, 43];
    assert_eq!(built(&segment[..43], 0), torn);
    assert_eq!(check(Version::One, &segment, &torn), Ok(0));
    assert_eq!(
        check(Version::One, &segment[..43], &index),
        refuse(BAD_INDEX, 0)
    );
    assert_eq!(built(&[], 0), [0, 0, 0, 0, 0, 0, 0, 12, 0, 0, 0, 0]);
}

#[test]
fn cut_anywhere_and_with_any_room() {
    let segment = mixed();
    let near = |cut: usize| cut % PAGE < 30 || PAGE - cut % PAGE < 30;
    let cuts = (0..=segment.len()).filter(|&cut| near(cut) || cut + 40 > segment.len());
    for cut in cuts {
        let bytes = &segment[..cut];
        for excess in [0, 1, 7, 8, 40, cut + HEAD] {
            assert_eq!(built(bytes, excess), plain(bytes), "cut at {cut}");
        }
        assert_eq!(
            check(Version::One, &segment, &plain(bytes)),
            check(Version::One, bytes, &plain(bytes))
        );
    }
}

#[test]
fn too_short_a_buffer_is_left() {
    let segment = mixed();
    for length in 0..HEAD + 4 * ROW {
        let mut index = vec![UNTOUCHED; length];
        assert_eq!(
            build(Version::One, &segment, &mut index),
            refuse(NO_ROOM, 0)
        );
        assert!(index.iter().all(|&byte| byte == UNTOUCHED));
    }
}

#[test]
fn every_byte_of_an_index_counts() {
    let segment = mixed();
    let index = built(&segment, 0);
    assert_eq!(check(Version::One, &segment, &index), Ok(4));
    for place in 0..index.len() {
        for change in 1..=255 {
            let mut damaged = index.clone();
            damaged[place] ^= change;
            // The segment ends with its last record, so that a smaller cover loses it.
            assert_eq!(
                check(Version::One, &segment, &damaged),
                refuse(BAD_INDEX, 0),
                "{place}"
            );
        }
    }
    for length in 0..index.len() {
        assert_eq!(
            check(Version::One, &segment, &index[..length]),
            refuse(BAD_INDEX, 0)
        );
    }
    let longer = [&index[..], &[0; 9]].concat();
    for more in 1..=9 {
        let longer = &longer[..index.len() + more];
        assert_eq!(check(Version::One, &segment, longer), refuse(BAD_INDEX, 0));
    }
}

#[test]
fn a_cover_of_its_own() {
    // Zeros after the records: the same rows at every cover.
    let segment = [written(1, &[5]), vec![0; 100]].concat();
    for covered in 12..=112 {
        let index = built(&segment[..covered], 0);
        assert_eq!(check(Version::One, &segment, &index), Ok(1));
        assert_eq!(
            check(Version::One, &segment[..covered - 1], &index),
            refuse(BAD_INDEX, 0)
        );
    }
}

#[test]
fn a_grown_segment() {
    let segment = mixed();
    let ends = [
        0,
        11,
        12,
        19,
        20,
        PAGE - 7,
        PAGE,
        PAGE + 9,
        segment.len() - 1,
    ];
    for from in ends {
        for to in ends
            .into_iter()
            .chain([segment.len()])
            .filter(|&to| to >= from)
        {
            let fresh = plain(&segment[..to]);
            let old = plain(&segment[..from]);
            for room in [fresh.len(), fresh.len() + 3, fresh.len() + to] {
                let mut index = vec![UNTOUCHED; room];
                index[..old.len()].copy_from_slice(&old);
                let length = extend(Version::One, &segment[..to], &mut index, old.len());
                assert_eq!(length, Ok(fresh.len()), "{from} to {to}");
                assert_eq!(index[..fresh.len()], fresh);
                assert!(index[fresh.len()..].iter().all(|&byte| byte == UNTOUCHED));
            }
            if old.len() < fresh.len() {
                let mut index = vec![UNTOUCHED; fresh.len() - 1];
                index[..old.len()].copy_from_slice(&old);
                let before = index.clone();
                let refused = extend(Version::One, &segment[..to], &mut index, old.len());
                assert_eq!(refused, refuse(NO_ROOM, 0));
                assert_eq!(index, before);
            }
        }
    }
}

#[test]
fn only_an_accepted_index_is_extended() {
    let segment = mixed();
    let old = plain(&segment[..30]);
    let mut index = [&old[..], &[UNTOUCHED; 40]].concat();
    for used in [0, 11, 12, 19, 21, 28, 60, 61, usize::MAX] {
        let before = index.clone();
        assert_eq!(
            extend(Version::One, &segment, &mut index, used),
            refuse(BAD_INDEX, 0)
        );
        assert_eq!(index, before);
    }
    // 29 comes before 11.
    index[3] = 2;
    let short = &mut index[..20];
    assert_eq!(
        extend(Version::One, &segment, short, 20),
        refuse(BAD_INDEX, 0)
    );
}

#[test]
fn generated_segments() {
    let mut rng = Rng(9);
    for _ in 0..200 {
        let lengths: Vec<usize> = (0..rng.below(40))
            .map(|_| 1 + rng.pick(&[3, 60, 2_000]).min(rng.below(3_000)))
            .collect();
        let mut segment = written(4, &lengths);
        for _ in 0..rng.below(3) {
            if !segment.is_empty() {
                let place = rng.below(segment.len());
                segment[place] = rng.next() as u8;
            }
        }
        let cut = rng.below(segment.len() + 1);
        let fresh = plain(&segment);
        let mut index = plain(&segment[..cut]);
        let used = index.len();
        assert_eq!(built(&segment, rng.below(9)), fresh);
        index.resize(fresh.len() + rng.below(9), UNTOUCHED);
        assert_eq!(
            extend(Version::One, &segment, &mut index, used),
            Ok(fresh.len())
        );
        assert_eq!(index[..fresh.len()], fresh);
        assert!(check(Version::One, &segment, &fresh).is_ok());
    }
}

#[test]
fn look_up() {
    let segment = mixed();
    let index = built(&segment, 0);
    let starts = [
        (0, 5),
        (12, 32_743),
        (PAGE, 40_000),
        (segment.len() - 30, 2),
    ];
    for (record, (start, length)) in starts.into_iter().enumerate() {
        assert_eq!(at(&index, record as u64), Ok(Found { start, length }));
    }
    for record in [4, 5, 1 << 61, u64::MAX] {
        assert_eq!(at(&index, record), refuse(BAD_PLACE, 0));
    }
    for length in 0..index.len() {
        assert_eq!(at(&index[..length], 0), refuse(BAD_INDEX, 0));
    }
    // The cover and the rows are not looked at; the table's offset is.
    let numbers = [1, 12, u32::MAX, 8, u32::MAX]
        .map(u32::to_be_bytes)
        .concat();
    let (start, length) = (8, u32::MAX as usize);
    assert_eq!(at(&numbers, 0), Ok(Found { start, length }));
    let numbers = [1, 13, 0, 8, 9].map(u32::to_be_bytes).concat();
    assert_eq!(at(&numbers, 0), refuse(BAD_INDEX, 0));
    let numbers = [u32::MAX, 12, 0].map(u32::to_be_bytes).concat();
    assert_eq!(at(&numbers, 0), refuse(BAD_INDEX, 0));
}

#[test]
fn the_limit() {
    let mut segment = vec![0; SEGMENT_MAX + 1];
    segment::write(
        Version::One,
        &mut segment[..SEGMENT_MAX],
        SEGMENT_MAX - PAGE,
        &[1; 9],
    )
    .expect("it fits");
    let mut index = [UNTOUCHED; HEAD + ROW];
    assert_eq!(
        build(Version::One, &segment, &mut index),
        refuse(BAD_BUFFER, 0)
    );
    assert_eq!(check(Version::One, &segment, &index), refuse(BAD_BUFFER, 0));
    assert_eq!(
        extend(Version::One, &segment, &mut index, 99),
        refuse(BAD_BUFFER, 0)
    );
    assert_eq!(index, [UNTOUCHED; HEAD + ROW]);
    assert_eq!(
        build(Version::One, &segment[..SEGMENT_MAX], &mut index),
        Ok(20)
    );
    assert_eq!(check(Version::One, &segment[..SEGMENT_MAX], &index), Ok(1));
    assert_eq!(
        extend(Version::One, &segment[..SEGMENT_MAX], &mut index, 20),
        Ok(20)
    );
}
