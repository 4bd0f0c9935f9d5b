//! The good length that a read is given: any pair, such as no reading hands back and such as are
//! refused.

use super::{any_place, Bench};
use crate::generate::{any_buffer, any_sample};
use crate::rng::Rng;
use crate::Outcome;
use reference::refusal::BAD_PLACE;
use reference::segment::{Good, RECORD_MAX};

/// A pair that is good at this place: no more records than its offset has bytes, and the offset not
/// behind the place.
pub fn good_pair(rng: &mut Rng, place: usize) -> Good {
    let offset = match rng.below(4) {
        0 => place,
        1 => rng.below(place.saturating_add(1).max(1)),
        _ => 0,
    };
    let records = match rng.below(3) {
        0 => offset,
        1 => rng.below(offset.saturating_add(1).max(1)),
        _ => 0,
    };
    let records = records as u64;
    Good { records, offset }
}

/// Pairs on both sides of what is good, at places of all kinds, into buffers of all lengths.
pub fn compare_pairs(rng: &mut Rng) -> Outcome {
    let mut bench = Bench::new(rng);
    let mut refused = 0;
    for _ in 0..2_500 {
        let sample = any_sample(rng);
        bench.put(rng, &sample);
        let length = sample.bytes.len();
        for _ in 0..24 {
            let place = match (rng.below(4), sample.fragments.len()) {
                (0, _) | (_, 0) => any_place(rng, length),
                (_, count) => sample.fragments[rng.below(count)].record,
            };
            let room = if rng.once_in(16) {
                any_buffer(rng)
            } else {
                RECORD_MAX
            };
            let given = any_pair(rng, place);
            let answer = bench.read_given(length, place, room, given)?;
            refused += u64::from(place <= length && answer.number == BAD_PLACE);
        }
    }
    match refused {
        0 => Err("no pair was refused".to_string()),
        _ => Ok(bench.cases),
    }
}

/// Near the place, near 0, near each other, and far away.
fn any_pair(rng: &mut Rng, place: usize) -> Good {
    let near = |rng: &mut Rng, number: usize| match rng.below(8) {
        0 => number.wrapping_add(1),
        1 => number.wrapping_sub(1),
        2 => rng.number() as usize,
        3 => number.wrapping_add(1 << rng.below(64)),
        4 => rng.below(3),
        _ => number,
    };
    let Good { records, offset } = good_pair(rng, place);
    let offset = near(rng, offset);
    let records = match rng.below(3) {
        0 => records as usize,
        _ => near(rng, offset),
    };
    let records = records as u64;
    Good { records, offset }
}
