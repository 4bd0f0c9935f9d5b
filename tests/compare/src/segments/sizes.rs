//! How big the partition must be (document 02 [10]): the pages for a list of records against the
//! second program, and the law over lists that the archive writes into so many pages.

use super::Bench;
use crate::ffi::{self, Answer};
use crate::generate;
use crate::rng::Rng;
use crate::twin::Twin;
use crate::Outcome;
use reference::refusal::NO_ROOM;
use reference::segment::{left_in_page, FRAGMENT_MAX, HEADER, PAGE, RECORD_MAX};
use reference::sizing::{self, PAGES_MAX};

/// Pages of the longest list.
const PAGES: usize = 24;

/// What `depot_wal_pages_for` answers, as the second program does.
fn pages_for(records: u64, bytes: u64) -> Result<Answer<1>, String> {
    let got = ffi::pages_for(records, bytes);
    let wanted = match sizing::pages_for(records, bytes) {
        Ok(pages) => Answer::new(0, [pages as u64]),
        Err(refusal) => Answer::new(refusal.number, [refusal.place as u64]),
    };
    match got == wanted {
        true => Ok(got),
        false => Err(format!(
            "pages for {records} records of {bytes} bytes: got {got:?}, wanted {wanted:?}"
        )),
    }
}

/// Numbers that lists have, such as lie around each count of pages, and any.
pub fn compare_numbers(rng: &mut Rng) -> Outcome {
    let mut cases = 0;
    let mut refused = 0;
    for _ in 0..300_000 {
        let pages = match rng.below(4) {
            0 => PAGES_MAX,
            _ => 1 + rng.below(PAGES_MAX + 2),
        };
        // Around as many bytes as so many pages hold.
        let room = (pages * FRAGMENT_MAX + 8 - rng.below(16)) as u64;
        let later = (rng.number() % (room / HEADER as u64 + 2)) >> rng.below(24);
        let (records, bytes) = match rng.below(8) {
            0 => (rng.number() >> rng.below(64), rng.number() >> rng.below(64)),
            1 => (rng.below(3) as u64, rng.pick(&[0, 1, 1 << 63, u64::MAX])),
            // Sums that are small modulo 2^64.
            2 => (
                later + 1,
                room.wrapping_sub(HEADER as u64 * later) | 1 << 63,
            ),
            3 => (u64::MAX / HEADER as u64 + rng.below(4) as u64, later),
            _ => (later + 1, room.saturating_sub(HEADER as u64 * later)),
        };
        refused += u64::from(pages_for(records, bytes)?.number == NO_ROOM);
        cases += 1;
    }
    match refused == 0 || refused == cases {
        true => Err(format!("{refused} of {cases} refused")),
        false => Ok(cases),
    }
}

/// One record gets the fewest pages that hold it.
pub fn compare_one_record(rng: &mut Rng) -> Outcome {
    let mut bench = Bench::new(rng);
    let edges = [1, FRAGMENT_MAX, 2 * FRAGMENT_MAX, RECORD_MAX];
    let near = edges
        .into_iter()
        .flat_map(|edge| edge.saturating_sub(20)..edge + 20);
    let any = (0..400)
        .map(|_| 1 + rng.below(RECORD_MAX))
        .collect::<Vec<_>>();
    for length in near.chain(any) {
        if !(1..=RECORD_MAX).contains(&length) {
            continue;
        }
        let pages = pages_for(1, length as u64)?.out[0] as usize;
        bench.version = generate::any_version(rng);
        let enough = bench.write(pages * PAGE, 0, length)?.number == 0;
        let fewer = pages > 1 && bench.write((pages - 1) * PAGE, 0, length)?.number == 0;
        if !enough || fewer {
            return Err(format!("a record of {length} bytes in {pages} pages"));
        }
    }
    Ok(bench.cases)
}

/// What each record of a list leaves in the page that it ends in.
#[derive(Clone, Copy)]
enum Leaves {
    /// Always so much, where it can.
    Always(usize),
    /// Near a page's end, often.
    Any,
}

/// The worst lists, in which every record leaves 7 bytes or 6; and any.
pub fn compare_lists(rng: &mut Rng) -> Outcome {
    let segment = Twin::new(rng, PAGES * PAGE);
    let mut bench = Bench::with_segment(rng, segment);
    let mut reached = 0;
    for case in 0..1_200 {
        let leaves = match case % 4 {
            0 => Leaves::Always(7),
            1 => Leaves::Always(6),
            2 => Leaves::Always(rng.below(10)),
            _ => Leaves::Any,
        };
        let lengths = any_list(rng, leaves);
        bench.version = generate::any_version(rng);
        reached += u64::from(write_list(&mut bench, &lengths)? == 0);
        if !bench.segment.equal_to(usize::MAX) {
            let place = bench.segment.first_difference();
            return Err(format!("{lengths:?}: segment differs at {place:?}"));
        }
    }
    match reached {
        0 => Err("no list reached the bound".to_string()),
        _ => Ok(bench.cases),
    }
}

/// Lengths of records that need no more than the bench's pages.
fn any_list(rng: &mut Rng, leaves: Leaves) -> Vec<usize> {
    let mut lengths = Vec::new();
    let (mut place, mut bytes) = (0, 0);
    for _ in 0..1 + rng.below(60) {
        let length = any_length(rng, leaves, left_in_page(place));
        bytes += length;
        let pages = sizing::pages_for(lengths.len() as u64 + 1, bytes as u64);
        if pages.map_or(true, |pages| pages > PAGES) {
            break;
        }
        lengths.push(length);
        place = place_after(place, length);
    }
    lengths
}

/// Where the splitting rule puts the next record.
fn place_after(place: usize, length: usize) -> usize {
    let after = place + length + HEADER * sizing::fragments_of(place, length);
    match left_in_page(after) {
        left if left < HEADER => after + left,
        _ => after,
    }
}

fn any_length(rng: &mut Rng, leaves: Leaves, left: usize) -> usize {
    let length = match leaves {
        Leaves::Always(spared) => {
            let pages = rng.pick(&[0, 0, 0, 1, 2]);
            (left - HEADER + pages * FRAGMENT_MAX).saturating_sub(spared)
        }
        Leaves::Any => generate::record_length(rng, left),
    };
    length.clamp(1, RECORD_MAX)
}

/// Writes the list into as many pages as it is said to need, and holds it to the law: none is
/// refused, no record has more than four fragments, and the final place is what the splitting rule
/// says, at most the bound. Hands back what is spared.
fn write_list(bench: &mut Bench, lengths: &[usize]) -> Result<usize, String> {
    let (records, bytes) = (lengths.len(), lengths.iter().sum::<usize>());
    let pages = pages_for(records as u64, bytes as u64)?.out[0] as usize;
    let (mut place, mut headers, mut filler) = (0, 0, 0);
    for &length in lengths {
        let written = bench.write(pages * PAGE, place, length)?;
        if written.number != 0 {
            return Err(format!("{lengths:?} in {pages} pages: {written:?}"));
        }
        let mut fragments = Vec::new();
        generate::add_fragments(&mut fragments, bench.segment.bytes(0..pages * PAGE), place);
        let count = fragments.len();
        if count != sizing::fragments_of(place, length) || count > 4 {
            return Err(format!("{length} bytes at {place}: {count} fragments"));
        }
        let next = written.out[0] as usize;
        headers += HEADER * count;
        filler += next - fragments[count - 1].end;
        place = next;
    }
    let bound = bytes + HEADER * records + HEADER * (place / PAGE);
    if place != bytes + headers + filler || place > bound {
        return Err(format!("{lengths:?}: they end at {place}, bound {bound}"));
    }
    Ok(bound - place)
}
