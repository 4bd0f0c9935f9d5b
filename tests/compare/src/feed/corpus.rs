//! The segments that are read as one slice too, from their start, by the feed: the same records,
//! bytes, places, end or refusal.

use super::Feeds;
use crate::generate::{self, any_cut, some_fragments, tail_end, Sample, Splitting, PAGES_MAX};
use crate::rng::Rng;
use crate::Outcome;
use reference::segment::{FIRST, FULL, HEADER, PAGE};
use reference::version::Version;

/// Written segments, also with zeros up to a page's end: then an empty page ends the feed.
pub fn compare_written(rng: &mut Rng) -> Outcome {
    let mut feeds = Feeds::new(rng);
    for _ in 0..300 {
        let pages = 1 + rng.below(PAGES_MAX);
        let mut sample = generate::written(rng, pages);
        feeds.shift(rng);
        feeds.read_all(&sample.bytes)?;
        let whole = sample.bytes.len().next_multiple_of(PAGE);
        sample.bytes.resize(whole, 0);
        feeds.read_all(&sample.bytes)?;
    }
    Ok(feeds.cases)
}

/// A written or a foreign segment. It is read from the start for every cut and every damage, so it
/// has few records.
fn any_short_sample(rng: &mut Rng) -> Sample {
    let pages = 1 + rng.below(3);
    let writes = rng.below(24);
    match rng.below(3) {
        0 | 1 => generate::written_by(rng, pages, writes),
        _ => generate::foreign_from_0(rng, Splitting::Short),
    }
}

/// Cut at every place near the edges of fragments and pages.
pub fn compare_cuts(rng: &mut Rng) -> Outcome {
    let mut feeds = Feeds::new(rng);
    for _ in 0..240 {
        let sample = any_short_sample(rng);
        let length = sample.bytes.len();
        feeds.shift(rng);
        for fragment in some_fragments(rng, &sample) {
            for cut in generate::cuts_near(fragment, length) {
                feeds.read_all(&sample.bytes[..cut])?;
            }
        }
        feeds.read_all(&sample.bytes[..rng.below(length + 1)])?;
    }
    Ok(feeds.cases)
}

/// One byte of a header, of the data or of the filler changed, whole and sometimes cut.
pub fn compare_damage(rng: &mut Rng) -> Outcome {
    let mut feeds = Feeds::new(rng);
    for _ in 0..160 {
        let mut sample = any_short_sample(rng);
        feeds.shift(rng);
        for fragment in some_fragments(rng, &sample) {
            for change in generate::damages(rng, &sample, fragment) {
                damage(rng, &mut feeds, &mut sample.bytes, change)?;
            }
        }
    }
    Ok(feeds.cases)
}

/// Reads with one byte changed, and puts it back.
fn damage(
    rng: &mut Rng,
    feeds: &mut Feeds,
    bytes: &mut [u8],
    (place, byte): (usize, u8),
) -> Result<(), String> {
    let old = std::mem::replace(&mut bytes[place], byte);
    feeds.read_all(bytes)?;
    if rng.once_in(3) {
        feeds.read_all(&bytes[..rng.below(bytes.len() + 1)])?;
    }
    bytes[place] = old;
    Ok(())
}

/// Cut segments with zeros after the cut, and with another byte among the zeros.
pub fn compare_tails(rng: &mut Rng) -> Outcome {
    let mut feeds = Feeds::new(rng);
    for _ in 0..3_000 {
        let Sample { mut bytes, .. } = tail_sample(rng);
        let kept = bytes.len();
        let length = tail_end(rng, kept).min(PAGES_MAX * PAGE);
        bytes.resize(length, 0);
        feeds.shift(rng);
        feeds.read_all(&bytes)?;
        if kept < length {
            let place = kept + rng.below(length - kept).min(rng.below(60));
            bytes[place] = rng.byte() % 5;
            feeds.read_all(&bytes)?;
        }
    }
    Ok(feeds.cases)
}

/// Written segments, cut in or just after a fragment's header, and then zeros
/// (document 02 [5]).
pub fn compare_zeros(rng: &mut Rng) -> Outcome {
    let mut feeds = Feeds::new(rng);
    for _ in 0..60 {
        let pages = 1 + rng.below(3);
        let writes = 1 + rng.below(8);
        let sample = generate::written_by(rng, pages, writes);
        feeds.shift(rng);
        for fragment in &sample.fragments {
            for cut in generate::cuts_in_header(*fragment) {
                for zeros in generate::ZEROS {
                    let mut bytes = sample.bytes[..cut].to_vec();
                    bytes.resize(cut + zeros, 0);
                    feeds.read_all(&bytes)?;
                }
            }
        }
    }
    Ok(feeds.cases)
}

/// A foreign segment, cut.
fn tail_sample(rng: &mut Rng) -> Sample {
    let mut sample = generate::foreign_from_0(rng, Splitting::Short);
    let cut = any_cut(rng, &sample);
    sample.bytes.truncate(cut);
    sample
}

pub fn compare_foreign(rng: &mut Rng) -> Outcome {
    compare_splitting(rng, Splitting::Short, 2_500)
}

pub fn compare_foreign_long(rng: &mut Rng) -> Outcome {
    compare_splitting(rng, Splitting::Long, 400)
}

/// Foreign segments, whole and cut near their end.
fn compare_splitting(rng: &mut Rng, splitting: Splitting, samples: usize) -> Outcome {
    let mut feeds = Feeds::new(rng);
    for _ in 0..samples {
        let sample = generate::foreign_from_0(rng, splitting);
        let length = sample.bytes.len();
        feeds.shift(rng);
        feeds.read_all(&sample.bytes)?;
        for _ in 0..4 {
            let cut = length - rng.below(200).min(length);
            feeds.read_all(&sample.bytes[..cut])?;
        }
    }
    Ok(feeds.cases)
}

/// A few bytes of any kind: at the start, or across a page's edge after a record or with one open.
pub fn compare_noise(rng: &mut Rng) -> Outcome {
    let mut feeds = Feeds::new(rng);
    let mut noise = Vec::new();
    for case in 0..50_000 {
        generate::noise(rng, &mut noise);
        let before = match case % 4 {
            0 if case % 16 == 0 => PAGE - 1 - rng.below(30),
            0 => HEADER + rng.below(10),
            _ => 0,
        };
        let mut bytes = rng.bytes(before);
        if before > 0 {
            let kind = rng.pick(&[FULL, FIRST]);
            generate::make_fragment(Version::One, &mut bytes, kind);
        }
        bytes.extend(&noise);
        feeds.read_all(&bytes)?;
    }
    Ok(feeds.cases)
}

/// Written segments of up to 64 pages: whole, with zeros up to a page's end, cut and damaged late.
pub fn compare_many_pages(rng: &mut Rng) -> Outcome {
    let mut feeds = Feeds::new(rng);
    for _ in 0..40 {
        let pages = 6 + rng.below(59);
        let mut bytes = generate::written_by(rng, pages, 4 * pages).bytes;
        feeds.shift(rng);
        feeds.read_all(&bytes)?;
        let length = bytes.len();
        feeds.read_all(&bytes[..length - rng.below(2 * PAGE)])?;
        bytes.resize(length.next_multiple_of(PAGE), 0);
        feeds.read_all(&bytes)?;
        let place = length - 1 - rng.below(2 * PAGE);
        bytes[place] ^= 1 << rng.below(8);
        feeds.read_all(&bytes)?;
    }
    Ok(feeds.cases)
}

/// A real segment, whole and cut anywhere.
pub fn compare_file(rng: &mut Rng, bytes: &[u8]) -> Outcome {
    let mut feeds = Feeds::new(rng);
    feeds.read_all(bytes)?;
    for _ in 0..20 {
        feeds.read_all(&bytes[..rng.below(bytes.len() + 1)])?;
    }
    Ok(feeds.cases)
}
