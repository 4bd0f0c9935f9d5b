//! Calls in orders, and with lengths, that no caller should use.

use super::{Feeds, EXCESS};
use crate::generate::{self, any_buffer, Splitting};
use crate::rng::Rng;
use crate::Outcome;
use reference::segment::{PAGE, RECORD_MAX};

/// From a fresh state, any calls one after another.
pub fn compare_orders(rng: &mut Rng) -> Outcome {
    let mut feeds = Feeds::new(rng);
    for _ in 0..9_000 {
        let mut bytes = any_bytes(rng);
        feeds.take_version(&mut bytes);
        feeds.shift(rng);
        feeds.start()?;
        for _ in 0..rng.below(60) {
            any_call(rng, &mut feeds, &bytes)?;
        }
    }
    Ok(feeds.cases)
}

/// Few records, so that the feed comes on by its pages.
fn any_bytes(rng: &mut Rng) -> Vec<u8> {
    let mut bytes = Vec::new();
    let pages = 1 + rng.below(3);
    let writes = rng.below(8);
    match rng.below(8) {
        0 => generate::noise(rng, &mut bytes),
        1..=3 => bytes = generate::foreign_from_0(rng, Splitting::Short).bytes,
        4 => bytes = generate::foreign_from_0(rng, Splitting::Long).bytes,
        _ => bytes = generate::written_by(rng, pages, writes).bytes,
    }
    if rng.once_in(3) {
        bytes.resize(bytes.len().next_multiple_of(PAGE), 0);
    }
    bytes
}

/// Most often a read or the next page, asked for or not; else something worse.
fn any_call(rng: &mut Rng, feeds: &mut Feeds, bytes: &[u8]) -> Result<(), String> {
    let fed = feeds.fed;
    let choice = rng.below(32);
    let (lent, room) = match choice {
        27 | 28 => (any_lent(rng, fed), RECORD_MAX),
        29 => (fed, any_buffer(rng)),
        30 => (any_lent(rng, fed), any_buffer(rng)),
        _ => (fed, RECORD_MAX),
    };
    match choice {
        0..=9 => feeds.feed_next(bytes).map(drop),
        10 | 11 => feed_badly(rng, feeds, bytes),
        12 => disturb(rng, feeds),
        _ => feeds.read_into(lent, room).map(drop),
    }
}

/// A page fed again, one that is too long, a short or an empty one before the end.
fn feed_badly(rng: &mut Rng, feeds: &mut Feeds, bytes: &[u8]) -> Result<(), String> {
    let page = rng.below(bytes.len() / PAGE + 1) * PAGE;
    let rest = &bytes[page..];
    feeds.offer.put(&rest[..rest.len().min(PAGE)]);
    let length = match rng.below(6) {
        0 | 1 => rest.len().min(PAGE),
        2 | 3 => PAGE + 1 + rng.below(EXCESS),
        4 => 0,
        _ => rng.below(PAGE),
    };
    feeds.feed(length).map(drop)
}

/// The length of a page to lend, most often another than the one that was fed.
fn any_lent(rng: &mut Rng, fed: usize) -> usize {
    match rng.below(6) {
        0 => 0,
        1 => fed.saturating_sub(1),
        2 => fed + 1,
        3 => PAGE,
        4 => PAGE + rng.below(EXCESS + 1),
        _ => rng.below(PAGE),
    }
}

/// The buffer changed by the caller, also while a record is open; or a fresh start.
fn disturb(rng: &mut Rng, feeds: &mut Feeds) -> Result<(), String> {
    if rng.once_in(4) {
        return feeds.start();
    }
    feeds.buffer.refill(rng);
    Ok(())
}
