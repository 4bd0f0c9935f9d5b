//! Bytes that were written, cut, and then zeros, as one flash part fills a cut tail (document 02
//! [5]).

use super::{Bench, PAGES};
use crate::generate::{self, Sample, ZEROS};
use crate::rng::Rng;
use crate::Outcome;
use reference::segment::{self, FULL, LAST, PAGE};
use reference::version::Version;

/// Short logs cut at every byte; longer ones near every header and the end of every page.
pub fn compare_cuts(rng: &mut Rng) -> Outcome {
    let mut bench = Bench::new(rng);
    for _ in 0..24 {
        let log = short_log(rng).in_any_version(rng);
        bench.put(rng, &log);
        for cut in 0..=log.bytes.len() {
            read_all_zeros(&mut bench, &log, cut)?;
        }
    }
    for _ in 0..10 {
        let pages = 2 + rng.below(2);
        let log = generate::written_by(rng, pages, 12).in_any_version(rng);
        bench.put(rng, &log);
        for cut in long_cuts(&log) {
            read_all_zeros(&mut bench, &log, cut)?;
        }
    }
    Ok(bench.cases)
}

/// A few records of a few bytes.
fn short_log(rng: &mut Rng) -> Sample {
    let (version, start) = (Version::One, 0);
    let mut bytes = vec![0; PAGE];
    let mut fragments = Vec::new();
    let mut place = 0;
    for _ in 0..1 + rng.below(6) {
        let length = 1 + rng.below(30);
        let record = rng.bytes(length);
        let next =
            segment::write(version, &mut bytes, place, &record).expect("a page holds the log");
        generate::add_fragments(&mut fragments, &bytes, place);
        place = next;
    }
    bytes.truncate(place);
    Sample {
        version,
        bytes,
        start,
        fragments,
    }
}

fn long_cuts(log: &Sample) -> Vec<usize> {
    let length = log.bytes.len();
    let headers = log.fragments.iter().copied();
    let mut cuts: Vec<usize> = headers.flat_map(generate::cuts_in_header).collect();
    for page_end in (PAGE..=length).step_by(PAGE) {
        cuts.extend(page_end - 9..=page_end + 9);
    }
    cuts.retain(|&cut| cut <= length);
    cuts.sort();
    cuts.dedup();
    cuts
}

/// Reads the log cut there, with every number of zeros after it, from its start.
fn read_all_zeros(bench: &mut Bench, log: &Sample, cut: usize) -> Result<(), String> {
    for zeros in ZEROS {
        read_zeros(bench, log, cut, zeros)?;
    }
    Ok(())
}

/// Hands back the places after the records that come out, and puts the log back.
fn read_zeros(
    bench: &mut Bench,
    log: &Sample,
    cut: usize,
    zeros: usize,
) -> Result<Vec<usize>, String> {
    static NOTHING: [u8; 2 * PAGE] = [0; 2 * PAGE];
    bench.segment.put_at(cut, &NOTHING[..zeros]);
    let ends = bench.read_ends(cut + zeros, 0)?;
    bench.segment.put(&log.bytes);
    Ok(ends)
}

/// The law: cut just after any type byte and followed by any number of zeros, exactly the records
/// come out that are whole before the cut. Of the second program alone; what it says here the
/// archive says too.
pub fn compare_type_bytes(rng: &mut Rng) -> Outcome {
    let mut bench = Bench::new(rng);
    for _ in 0..300 {
        let pages = 1 + rng.below(PAGES - 2);
        let writes = 1 + rng.below(12);
        let log = generate::written_by(rng, pages, writes).in_any_version(rng);
        bench.put(rng, &log);
        let ends = record_ends(&log);
        for fragment in &log.fragments {
            let cut = fragment.start + 1;
            let whole = ends.iter().filter(|&&end| end <= cut).count();
            for zeros in [rng.below(9), rng.below(100), rng.below(2 * PAGE)] {
                let got = read_zeros(&mut bench, &log, cut, zeros)?;
                if got != ends[..whole] {
                    return Err(format!("cut after {}, {zeros} zeros: {got:?}", cut - 1));
                }
            }
        }
    }
    Ok(bench.cases)
}

/// The places after the records of a written log.
fn record_ends(log: &Sample) -> Vec<usize> {
    let last = |start: usize| matches!(log.bytes[start], FULL | LAST);
    let fragments = log.fragments.iter();
    let last = fragments.filter(|fragment| last(fragment.start));
    last.map(|fragment| fragment.end).collect()
}
