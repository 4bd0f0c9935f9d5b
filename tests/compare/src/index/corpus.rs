//! Indexes built, checked and extended over segments of all kinds.

use super::Indexes;
use crate::generate::{self, any_cut, some_fragments, tail_end, Sample, Splitting, PAGES_MAX};
use crate::rng::Rng;
use crate::twin::Twin;
use crate::Outcome;
use reference::index::HEAD;
use reference::refusal::{BAD_INDEX, NO_ROOM};
use reference::segment::PAGE;
use reference::version::Version;

/// Written and foreign segments, read from their start.
fn any_sample(rng: &mut Rng) -> Sample {
    let pages = 1 + rng.below(3);
    let writes = rng.below(24);
    match rng.below(4) {
        0 => generate::written(rng, pages),
        1 => generate::written_by(rng, pages, writes),
        2 => generate::foreign_from_0(rng, Splitting::Long),
        _ => generate::foreign_from_0(rng, Splitting::Short),
    }
}

/// A foreign sample may be shorter than its first record's start.
fn put(rng: &mut Rng, indexes: &mut Indexes, bytes: &[u8]) -> usize {
    let length = bytes.len().min(PAGES_MAX * PAGE);
    indexes.put(rng, &bytes[..length]);
    length
}

/// Buffers of every length around the one that is needed, and of every length that is too short for
/// the three numbers.
pub fn compare_rooms(rng: &mut Rng) -> Outcome {
    let mut indexes = Indexes::new(rng);
    for _ in 0..200 {
        let sample = any_sample(rng);
        let whole = put(rng, &mut indexes, &sample.bytes);
        let length = rng.below(whole + 1);
        let needed = indexes.build_whole(length, whole)?;
        for room in (0..=HEAD).chain(needed.saturating_sub(10)..needed + 10) {
            indexes.index.refill(rng);
            let number = indexes.build(length, room)?.number;
            let wanted = if room < needed { NO_ROOM } else { 0 };
            if number != wanted {
                return Err(format!("{needed} bytes into {room}: {number}"));
            }
        }
    }
    Ok(indexes.cases)
}

/// Cut at every place near the edges of fragments and pages.
pub fn compare_cuts(rng: &mut Rng) -> Outcome {
    let mut indexes = Indexes::new(rng);
    for _ in 0..60 {
        let sample = any_sample(rng);
        let whole = put(rng, &mut indexes, &sample.bytes);
        for fragment in some_fragments(rng, &sample).into_iter().take(12) {
            for cut in generate::cuts_near(fragment, whole) {
                let room = indexes.build(cut, HEAD + cut)?.out[0] as usize;
                indexes.check(cut, room)?;
                indexes.check(whole, room)?;
                indexes.check(cut.saturating_sub(1), room)?;
            }
        }
    }
    Ok(indexes.cases)
}

/// The index of a segment that was shorter, extended: it is the one built afresh.
pub fn compare_grown(rng: &mut Rng) -> Outcome {
    let mut indexes = Indexes::new(rng);
    for _ in 0..400 {
        let mut sample = any_sample(rng);
        if rng.once_in(3) {
            let end = tail_end(rng, sample.bytes.len()).max(sample.bytes.len());
            sample.bytes.resize(end, 0);
        }
        let whole = put(rng, &mut indexes, &sample.bytes);
        let mut ends = [
            whole,
            any_cut(rng, &sample).min(whole),
            rng.below(whole + 1),
        ];
        ends.sort();
        for (old, new) in [(0, 1), (0, 2), (1, 1), (1, 2)] {
            grow(rng, &mut indexes, ends[old], ends[new])?;
        }
    }
    Ok(indexes.cases)
}

/// From one length to another, with rooms on both sides of what is needed.
fn grow(rng: &mut Rng, indexes: &mut Indexes, old: usize, new: usize) -> Result<(), String> {
    let needed = indexes.build(new, HEAD + new)?.out[0] as usize;
    let fresh = indexes.index.bytes(0..needed).to_vec();
    let excess = rng.below(40);
    for room in [
        needed.saturating_sub(8),
        needed - 1,
        needed,
        needed + 1,
        needed + excess,
        HEAD + new + excess.min(20),
    ] {
        indexes.index.refill(rng);
        let used = indexes.build(old, HEAD + old)?.out[0] as usize;
        let got = indexes.extend(new, room, used)?;
        let wanted = match room {
            _ if room < used => BAD_INDEX,
            _ if room < needed => NO_ROOM,
            _ => 0,
        };
        let same = wanted != 0 || *indexes.index.bytes(0..needed) == fresh;
        if got.number != wanted || !same {
            return Err(format!("{old} to {new} bytes in {room}: {got:?}"));
        }
    }
    Ok(())
}

/// One byte of the segment changed after its index was built, and the index built anew.
pub fn compare_damage(rng: &mut Rng) -> Outcome {
    let mut indexes = Indexes::new(rng);
    for _ in 0..60 {
        let sample = any_sample(rng);
        let whole = put(rng, &mut indexes, &sample.bytes);
        for fragment in some_fragments(rng, &sample).into_iter().take(8) {
            for (place, byte) in generate::damages(rng, &sample, fragment) {
                let used = indexes.build(whole, HEAD + whole)?.out[0] as usize;
                let old = indexes.segment.bytes(place..place + 1)[0];
                indexes.segment.put_at(place, &[byte]);
                indexes.check(whole, used)?;
                indexes.extend(whole, used, used)?;
                indexes.build_whole(whole, whole)?;
                indexes.segment.put_at(place, &[old]);
            }
        }
    }
    Ok(indexes.cases)
}

/// A few bytes of any kind.
pub fn compare_noise(rng: &mut Rng) -> Outcome {
    let mut indexes = Indexes::new(rng);
    let mut bytes = Vec::new();
    for _ in 0..20_000 {
        generate::noise(rng, &mut bytes);
        indexes.put(rng, &bytes);
        let old = rng.below(bytes.len() + 1);
        let used = indexes.build_whole(old, bytes.len())?;
        indexes.extend(bytes.len(), HEAD + bytes.len(), used)?;
    }
    Ok(indexes.cases)
}

/// A real segment, as it is and in version 2: whole, cut anywhere, and its index extended.
pub fn compare_file(rng: &mut Rng, bytes: &[u8]) -> Outcome {
    let whole = bytes.len();
    let segment = Twin::new(rng, whole);
    let mut indexes = Indexes::with_segment(rng, segment, HEAD + whole + 64);
    for version in [Version::One, Version::Two] {
        indexes.put_in(rng, version, bytes);
        let cuts = [(); 20].map(|()| rng.below(whole + 1));
        for cut in [whole, 0].into_iter().chain(cuts) {
            let used = indexes.build_whole(cut, whole)?;
            indexes.extend(whole, HEAD + whole, used)?;
        }
    }
    Ok(indexes.cases)
}
