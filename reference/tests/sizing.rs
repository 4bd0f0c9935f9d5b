//! How big the partition must be (document 02 [10]): the pages, and the law over written lists.

mod rng;

use reference::refusal::*;
use reference::segment::{self, left_in_page, FRAGMENT_MAX, FULL, HEADER, LAST, PAGE, RECORD_MAX};
use reference::sizing::{fragments_of, pages_for, PAGES_MAX};
use reference::version::Version;
use rng::Rng;

/// Writes records of these lengths from 0 into as many pages as they are said to need, holds them to
/// the law, and hands back how far the final place stays below the bound.
fn slack(lengths: &[usize]) -> usize {
    let (records, bytes) = (lengths.len(), lengths.iter().sum::<usize>());
    let pages = pages_for(records as u64, bytes as u64).expect("a segment holds them");
    let mut slice = vec![0xAA; pages * PAGE];
    let record = vec![7; RECORD_MAX];
    let (mut place, mut fragments, mut filler) = (0, 0, 0);
    for &length in lengths {
        let next = segment::write(Version::One, &mut slice, place, &record[..length])
            .expect("room for every list");
        let (count, after) = split(&slice, place);
        assert_eq!(count, fragments_of(place, length));
        assert!(count <= 4);
        fragments += count;
        filler += next - after;
        place = next;
    }
    assert_eq!(place, bytes + HEADER * fragments + filler);
    let bound = bytes + HEADER * records + HEADER * (place / PAGE);
    assert!(place <= bound, "{place} of {lengths:?}");
    bound - place
}

/// The fragments of the record at a place, and the place after the last.
fn split(slice: &[u8], mut place: usize) -> (usize, usize) {
    for count in 1.. {
        let length = u16::from_be_bytes([slice[place + 1], slice[place + 2]]);
        let after = place + HEADER + usize::from(length);
        if [FULL, LAST].contains(&slice[place]) {
            return (count, after);
        }
        place = after;
    }
    unreachable!("a record ends")
}

/// A record from a fresh page or after 7 bytes that leaves so many bytes in the page that it ends
/// in.
fn leaving(left: usize) -> usize {
    FRAGMENT_MAX - left
}

#[test]
fn numbers() {
    let max = PAGES_MAX as u64;
    let whole = max * FRAGMENT_MAX as u64;
    for (records, bytes, pages) in [
        (0, 0, 1),
        (0, u64::MAX, 1),
        (1, 0, 1),
        (1, 1, 1),
        (1, 32_761, 1),
        (1, 32_762, 2),
        (1, 65_522, 2),
        (1, 65_523, 3),
        (1, 65_536, 3),
        (2, 32_754, 1),
        (2, 32_755, 2),
        (4_096, 4_096, 1),
        (4_097, 4_097, 2),
        (1, whole, max),
        (2, whole - 7, max),
        (whole / 7 + 1, whole % 7, max),
    ] {
        assert_eq!(
            pages_for(records, bytes),
            Ok(pages as usize),
            "{records} {bytes}"
        );
    }
    for (records, bytes) in [
        (1, whole + 1),
        (2, whole - 6),
        (whole / 7 + 1, whole % 7 + 1),
        (u64::MAX, 0),
        (u64::MAX, u64::MAX),
        // Sums that are small modulo 2^64.
        (2, u64::MAX - 6),
        (u64::MAX / 7 + 2, 0),
        (1 << 63, 1 << 63),
    ] {
        assert_eq!(
            pages_for(records, bytes),
            refuse(NO_ROOM, 0),
            "{records} {bytes}"
        );
    }
}

/// One record is given the fewest pages that hold it.
#[test]
fn one_record_exactly() {
    let record = vec![7; RECORD_MAX];
    let edges = [1, FRAGMENT_MAX, 2 * FRAGMENT_MAX, RECORD_MAX];
    for length in edges
        .into_iter()
        .flat_map(|edge| edge.saturating_sub(9)..edge + 9)
    {
        if !(1..=RECORD_MAX).contains(&length) {
            continue;
        }
        slack(&[length]);
        let fewer = PAGE * (pages_for(1, length as u64).expect("a few pages") - 1);
        let written = segment::write(Version::One, &mut vec![0; fewer], 0, &record[..length]);
        match fewer {
            0 => assert_eq!(length, length.min(FRAGMENT_MAX)),
            _ => assert_eq!(written, refuse(NO_ROOM, 0)),
        }
    }
}

/// With 7 bytes left at every page's end the bound is reached; with 6 a byte is spared each time.
#[test]
fn worst_cases() {
    for count in 1..60 {
        assert_eq!(slack(&vec![leaving(7); count]), 0);
        assert_eq!(slack(&vec![leaving(6); count]), count);
        // After 7 left, the header there and the page's own: a record across that leaves 7 again.
        assert_eq!(slack(&vec![leaving(7) + FRAGMENT_MAX; count]), 0);
        // Records of a byte come out even with the page: to cross its end costs nothing.
        assert_eq!(slack(&vec![1; 4_096 * count / 8]), 7 * (count / 8));
    }
    // Four fragments: nothing, two whole pages, and the rest.
    assert_eq!(slack(&[leaving(7), RECORD_MAX]), 0);
    assert_eq!(fragments_of(PAGE - 7, RECORD_MAX), 4);
    assert_eq!(fragments_of(PAGE - 7, 1), 2);
    assert_eq!(fragments_of(PAGE - 8, 1), 1);
}

/// Lists that end near a page's end as often as not.
#[test]
fn generated_lists() {
    let mut rng = Rng(10);
    for _ in 0..60 {
        let mut lengths = Vec::new();
        let mut place = 0;
        let mut slice = vec![0; 40 * PAGE];
        let record = vec![7; RECORD_MAX];
        while lengths.len() < 60 {
            let left = left_in_page(place) + PAGE * rng.below(2);
            let length = match rng.below(4) {
                0 => 1 + rng.below(90),
                1 => 1 + rng.below(RECORD_MAX),
                _ => left
                    .saturating_sub(HEADER * rng.below(3) + rng.below(18))
                    .max(1),
            };
            let Ok(next) = segment::write(
                Version::One,
                &mut slice,
                place,
                &record[..length.min(RECORD_MAX)],
            ) else {
                break;
            };
            place = next;
            lengths.push(length.min(RECORD_MAX));
            if place % PAGE < 100 {
                slack(&lengths);
            }
        }
        slack(&lengths);
    }
}
