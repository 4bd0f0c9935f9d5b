//! A whole segment read page by page, beside one slice.

use crate::records::Full;
use crate::timing::{time, NUMBER, VERSION};
use compare::ffi::feed::{MORE, STATE_LEN};
use compare::ffi::{bare, END};
use reference::feed::{Feed, Read};
use reference::segment::{PAGE, SEGMENT_MAX};
use std::hint::black_box;

/// Bytes of a record: those of the switch.
pub const LENGTH: usize = 37;
const ROUNDS: usize = 21;

/// The contenders, by their places.
const FED: usize = 0;
const SLICE: usize = 1;
const SECOND: usize = 2;

/// What reading by the feed may take, beside one slice.
const AT_MOST: f64 = 1.15;

const SETTING: &str = "\
buffers: as above. The pages are fed from the segment where they lie, each once it is asked for, and
an empty one at the end; every contender reads to the clean end, ours by the plain calls.
                  by   ns/record      MB/s /by slice";

/// Prints a line for each contender and hands back the summary.
pub fn bench(segment: &mut [u8]) -> String {
    let full = &mut Full::new(segment, LENGTH);
    let size = SEGMENT_MAX >> 20;
    println!("\npage feed: read {size} MiB of {LENGTH}-byte records, {ROUNDS} rounds\n{SETTING}");
    let rounds = time(ROUNDS, full.count, full, [&by_feed, &by_slice, &by_second]);
    for (by, this) in [
        ("feed_read", FED),
        ("read", SLICE),
        ("second's feed", SECOND),
    ] {
        let time = rounds.median(this);
        let (speed, ratio) = (1e3 * LENGTH as f64 / time, rounds.ratio(this, SLICE));
        println!("{by:>20} {time:>11.1} {speed:>9.1} {ratio:>9.2}");
    }
    let (slice, second) = (rounds.ratio(FED, SLICE), rounds.ratio(SECOND, FED));
    let verdict = if slice <= AT_MOST { "kept" } else { "NOT KEPT" };
    println!("feed_read / read: {slice:.2}, at most {AT_MOST}: {verdict}");
    format!("feed_read / read {slice:.2}, second's feed / feed_read {second:.2}")
}

// In the next two nothing is hidden from the compiler, as in a C program: it sees into no call of
// the archive.

fn by_feed(full: &mut Full) {
    let mut pages = full.segment.chunks(PAGE);
    let mut page: &[u8] = &[];
    let mut state = [0; STATE_LEN];
    let mut out = [0; 5];
    let mut count = 0;
    bare::feed_start(&mut state, NUMBER);
    let last = loop {
        match bare::feed_read(&mut state, page, &mut full.buffer, &mut out) {
            0 => count += 1,
            MORE => {
                page = pages.next().unwrap_or(&[]);
                bare::feed_page(&mut state, page, &mut [0; 3]);
            }
            number => break number,
        }
    };
    assert_eq!((last, count), (END, full.count), "a record was not read");
}

pub fn by_slice(full: &mut Full) {
    let mut good = [0, 0];
    let mut out = [0; 3];
    let mut count = 0;
    let last = loop {
        let place = out[2] as usize;
        match bare::read(
            NUMBER,
            full.segment,
            place,
            &mut full.buffer,
            &mut good,
            &mut out,
        ) {
            0 => count += 1,
            number => break number,
        }
    };
    assert_eq!((last, count), (END, full.count), "a record was not read");
}

fn by_second(full: &mut Full) {
    let mut pages = full.segment.chunks(PAGE);
    let mut page: &[u8] = &[];
    let mut feed = Feed::start(VERSION);
    let mut count = 0;
    let last = loop {
        match feed.read(black_box(page), black_box(&mut full.buffer)) {
            Read::Record { next, .. } => {
                black_box(next);
                count += 1;
            }
            Read::More => {
                page = pages.next().unwrap_or(&[]);
                feed.feed_page(page).expect("a page that was asked for");
            }
            end => break end,
        }
    };
    assert_eq!(
        (last, count),
        (Read::CleanEnd, full.count),
        "a record was not read"
    );
}
