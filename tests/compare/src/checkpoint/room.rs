//! Targets that are full after any number of records.

use super::{Checkpoints, PAGES};
use crate::logs::{build, samples, Log};
use crate::rng::Rng;
use crate::Outcome;
use reference::body::{NewEntry, SeriesId, Strings, SERIES};
use reference::refusal::{NO_ROOM, TOO_LONG};
use reference::segment::{FRAGMENT_MAX, HEADER, PAGE, RECORD_MAX};
use reference::varint;

/// The most records before the one that does not fit.
const MOST: usize = 40;

/// The room of one to three pages is used up by 0 to 40 records; the next one just fits, or is a
/// byte too long. Records that are not kept stand between them.
pub fn compare_room(rng: &mut Rng) -> Outcome {
    let mut checkpoints = Checkpoints::new(rng);
    for pages in 1..=3 {
        for count in 0..=MOST {
            for over in [0, 1, 2, 600] {
                compare_next(rng, &mut checkpoints, pages, count, over)?;
            }
        }
    }
    Ok(checkpoints.cases)
}

fn compare_next(
    rng: &mut Rng,
    checkpoints: &mut Checkpoints,
    pages: usize,
    count: usize,
    over: usize,
) -> Result<(), String> {
    let mut bodies = Vec::new();
    let mut place = 0;
    for _ in 0..count {
        let even = (pages * PAGE - 700) / count - 2 * HEADER;
        let length = even.clamp(30, RECORD_MAX) - rng.below(8);
        bodies.push(series_of(length));
        place = place_after(place, length);
    }
    let left = PAGE - place % PAGE;
    let later = pages - 1 - place / PAGE;
    let room = left - HEADER + later * FRAGMENT_MAX;
    let length = (room + over).min(RECORD_MAX);
    let fits = length <= room;
    bodies.push(series_of(length));
    bodies.push(series_of(40));
    let mut log = Log::default();
    let mut starts = Vec::new();
    for body in &bodies {
        if rng.once_in(3) {
            log.add(&samples(&[(7, -9, 1), (8, 5, 2)]));
        }
        starts.push(next_place(log.bytes.len()));
        log.add(body);
    }
    checkpoints.ids = vec![7];
    checkpoints.time = 0;
    let got = checkpoints.keep_log(rng, &log.bytes, pages)?;
    // Where this one fits, the last one may not.
    let (place, start) = match fits {
        true => (place_after(place, length), starts[count + 1]),
        false => (place, starts[count]),
    };
    match got.number {
        NO_ROOM if got.out == [place as u64, start as u64] => Ok(()),
        0 if fits => Ok(()),
        _ => Err(format!(
            "{count} records in {pages} pages, {over} over: {got:?}"
        )),
    }
}

/// The next place after a record of so many bytes.
fn place_after(mut place: usize, mut length: usize) -> usize {
    loop {
        let taken = length.min(PAGE - place % PAGE - HEADER);
        place = next_place(place + HEADER + taken);
        length -= taken;
        if length == 0 {
            return place;
        }
    }
}

/// Where a record goes that comes next: not into the filler of a page.
fn next_place(place: usize) -> usize {
    match PAGE - place % PAGE {
        left if left < HEADER => place + left,
        _ => place,
    }
}

/// A body of series 7 that has so many bytes, at least 16.
fn series_of(length: usize) -> Vec<u8> {
    // Type, id and count; then a string of up to 2 bytes and one of all the others.
    for first in 0..3 {
        for size in 1..=3 {
            let Some(second) = length.checked_sub(10 + 1 + first + size) else {
                continue;
            };
            if varint::uvarint_length(second as u64) == size {
                let text = vec![b'x'; first + second];
                let lengths = [first as u64, second as u64];
                let strings = Strings {
                    text: &text,
                    lengths: &lengths,
                };
                return build(SERIES, &[NewEntry::Series(SeriesId(7), strings)]);
            }
        }
    }
    unreachable!("a series of {length} bytes")
}

/// A record that would grow above 65,536, and targets that are full at any record before it or at
/// it: the first record that is not written decides, and of one record TooLong comes before NoRoom.
pub fn compare_both(rng: &mut Rng) -> Outcome {
    let mut checkpoints = Checkpoints::new(rng);
    let far = (1 << 62) + 7;
    let mut long = vec![2];
    long.extend(7u64.to_be_bytes());
    long.extend(0u64.to_be_bytes());
    for row in 0..3_700 {
        varint::write_varint(if row == 0 { 1 << 62 } else { 0 }, &mut long);
        long.extend([0; 9]);
    }
    for before in 0..7 {
        for pages in 1..=PAGES {
            let mut bodies = vec![series_of(PAGE - 100); before];
            bodies.push(long.clone());
            bodies.push(series_of(30));
            checkpoints.ids = vec![far, 7];
            checkpoints.time = 0;
            let got = checkpoints.keep_log(rng, &Log::of(&bodies).bytes, pages)?;
            let wanted = if before <= pages { TOO_LONG } else { NO_ROOM };
            if got.number != wanted {
                return Err(format!("{before} before it in {pages} pages: {got:?}"));
            }
        }
    }
    Ok(checkpoints.cases)
}
