//! Resume (document 02 [13]): logs cut at every byte and gone on with end as if they never had been
//! cut; and what becomes of other bytes.

mod rng;

use reference::refusal::*;
use reference::resume::{resume, Resumed};
use reference::segment::{self, Good, HEADER, PAGE, RECORD_MAX, SEGMENT_MAX};
use reference::vectors::SWITCH;
use reference::version::Version::{self, One, Two};
use rng::Rng;

fn at(place: usize, records: u64, offset: usize) -> Resumed {
    let next = Ok(place);
    let good = Good { records, offset };
    Resumed { next, good }
}

fn refused(number: u32, place: usize, records: u64, offset: usize) -> Resumed {
    let next = refuse(number, place);
    let good = Good { records, offset };
    Resumed { next, good }
}

/// Records written from a place on; the place after them.
fn write(version: Version, slice: &mut [u8], mut place: usize, records: &[Vec<u8>]) -> usize {
    for record in records {
        place = segment::write(version, slice, place, record).expect("it fits");
    }
    place
}

#[test]
fn the_switch() {
    for version in [One, Two] {
        let mut slice = vec![0xAA; PAGE];
        write(version, &mut slice, 0, &[SWITCH.to_vec(), SWITCH.to_vec()]);
        let before = slice.clone();
        for (survived, wanted) in [
            (0, at(0, 0, 0)),
            (1, at(0, 0, 0)),
            (43, at(0, 0, 0)),
            (44, at(44, 1, 44)),
            (45, at(44, 1, 44)),
            (87, at(44, 1, 44)),
            (88, at(88, 2, 88)),
        ] {
            assert_eq!(resume(version, &mut slice, survived), wanted);
        }
        assert_eq!(slice, before);
    }
}

#[test]
fn filler_is_set_to_zero() {
    // So many bytes left in the first page after the record.
    for left in 0..10 {
        let end = PAGE - left;
        let mut slice = vec![0; 2 * PAGE];
        write(Two, &mut slice, 0, &[vec![7; end - HEADER]]);
        for survived in end..=PAGE {
            slice[survived..].fill(0xAA);
            let moved = if left < HEADER { PAGE } else { end };
            assert_eq!(resume(Two, &mut slice, survived), at(moved, 1, end));
            assert!(slice[end..moved].iter().all(|&byte| byte == 0));
            assert!(slice[moved.max(survived)..]
                .iter()
                .all(|&byte| byte == 0xAA));
            slice[end..].fill(0);
        }
    }
}

#[test]
fn zeros_behind_the_last_record_are_written_over() {
    let mut slice = vec![0; 4 * PAGE];
    let end = write(One, &mut slice, 0, &[vec![7; 40_000]]);
    for survived in [end, end + 1, 2 * PAGE, 3 * PAGE + 5, 4 * PAGE] {
        assert_eq!(resume(One, &mut slice, survived), at(end, 1, end));
    }
    // Behind a record that comes after a page of zeros too.
    let later = write(One, &mut slice, 3 * PAGE, &[vec![8]]);
    assert_eq!(resume(One, &mut slice, 4 * PAGE), at(later, 2, later));
    assert_eq!(resume(One, &mut slice, later - 1), at(3 * PAGE, 1, end));
}

#[test]
fn refusals() {
    let mut slice = vec![0; 2 * PAGE];
    let end = write(One, &mut slice, 0, &[vec![7; 20], vec![8; 9]]);
    for length in [0, 1, PAGE - 1, PAGE + 1] {
        let bad = &mut slice[..length];
        assert_eq!(resume(One, bad, usize::MAX), refused(BAD_BUFFER, 0, 0, 0));
    }
    let mut long = vec![0; SEGMENT_MAX + PAGE];
    assert_eq!(resume(One, &mut long, 0), refused(BAD_BUFFER, 0, 0, 0));
    assert_eq!(resume(One, &mut long[PAGE..], SEGMENT_MAX), at(0, 0, 0));
    for survived in [2 * PAGE + 1, usize::MAX] {
        let resumed = resume(One, &mut slice, survived);
        assert_eq!(resumed, refused(BAD_PLACE, 0, 0, 0));
    }
    assert_eq!(resume(One, &mut slice, 2 * PAGE), at(end, 2, end));
    // The reading's own, with what came out before.
    assert_eq!(resume(Two, &mut slice, 2 * PAGE), refused(BAD_SUM, 0, 0, 0));
    slice[27] = 9;
    assert_eq!(
        resume(One, &mut slice, 2 * PAGE),
        refused(COMPRESSED, 27, 1, 27)
    );
    slice[27] = 0;
    assert_eq!(resume(One, &mut slice, 27), at(27, 1, 27));
    assert_eq!(resume(One, &mut slice, 29), at(27, 1, 27));
    assert_eq!(resume(One, &mut slice, 30), refused(NOT_ZERO, 29, 1, 27));
}

/// Nonempty records, some of which end near a page's end.
fn any_records(rng: &mut Rng, pages: usize) -> Vec<Vec<u8>> {
    let mut slice = vec![0; pages * PAGE];
    let mut records = Vec::new();
    let mut place = 0;
    for _ in 0..1 + rng.below(12) {
        let left = PAGE - place % PAGE;
        let length = match rng.below(4) {
            0 => rng.below(100),
            1 => (left + 4).saturating_sub(rng.below(24)),
            2 => rng.below(RECORD_MAX),
            _ => rng.below(4_000),
        };
        let record = rng.bytes(length.max(1));
        if let Ok(next) = segment::write(One, &mut slice, place, &record) {
            records.push(record);
            place = next;
        }
    }
    records
}

/// Cuts the log there, goes on and writes what did not come out.
fn go_on(version: Version, slice: &mut [u8], cut: usize, records: &[Vec<u8>]) -> usize {
    slice[cut..].fill(0xAA);
    let Resumed { next, good } = resume(version, slice, cut);
    let next = next.expect("these are our bytes");
    write(version, slice, next, &records[good.records as usize..])
}

#[test]
fn no_scar_at_any_byte() {
    let mut rng = Rng(13);
    for version in [One, Two] {
        let records = [5, 1, 32_700, 3, 10, 32_753, 2].map(|length| rng.bytes(length));
        let mut whole = vec![0; 3 * PAGE];
        let end = write(version, &mut whole, 0, &records);
        let mut slice = whole.clone();
        for cut in 0..=end {
            // Most of the long records' bytes are alike.
            if cut % PAGE > 60 && cut % PAGE < PAGE - 40 && cut % 499 != 0 {
                continue;
            }
            assert_eq!(
                go_on(version, &mut slice, cut, &records),
                end,
                "cut at {cut}"
            );
            assert_eq!(slice[..end], whole[..end], "cut at {cut}");
        }
    }
}

#[test]
fn no_scar_after_several_cuts() {
    let mut rng = Rng(14);
    for _ in 0..150 {
        let version = rng.pick(&[One, Two]);
        let pages = 1 + rng.below(3);
        let records = any_records(&mut rng, pages);
        let mut whole = vec![0; pages * PAGE];
        let end = write(version, &mut whole, 0, &records);
        let mut slice = whole.clone();
        for _ in 0..1 + rng.below(20) {
            // Cut, and gone on with some of the records; then it is cut again.
            let cut = rng.below(end + 1);
            let some = rng.below(records.len() + 1);
            slice[cut..].fill(0xAA);
            let Resumed { next, good } = resume(version, &mut slice, cut);
            let from = good.records as usize;
            let next = next.expect("these are our bytes");
            let next = write(version, &mut slice, next, &records[from..some.max(from)]);
            let survived = rng.below(next + 1);
            assert_eq!(go_on(version, &mut slice, survived, &records), end);
            assert_eq!(slice[..end], whole[..end]);
        }
    }
}
