//! Records that grow when their first id and time are taken anew, up to 65,536 bytes and above.

use super::{Checkpoints, PAGES};
use crate::logs::{samples, Log};
use crate::rng::Rng;
use crate::Outcome;
use reference::body::{BODY_MAX, EXEMPLARS, FLOAT_HISTOGRAMS, HISTOGRAMS, SAMPLES};
use reference::refusal::TOO_LONG;
use reference::varint;

/// The ids of the rows: near the header of the source, and far from it.
const NEAR: u64 = 7;
const FAR: u64 = (1 << 62) + 7;

/// Of each type that has rows, lengths on both sides of the limit; the record alone, after others,
/// and before others.
pub fn compare_growth(rng: &mut Rng) -> Outcome {
    let mut checkpoints = Checkpoints::new(rng);
    for kind in [SAMPLES, EXEMPLARS, HISTOGRAMS, FLOAT_HISTOGRAMS] {
        // After the first row every other has 9 bytes for its id, of which the source has 1.
        let row = 10 + tail(kind).len();
        let first = 17 + 2 + tail(kind).len();
        let others = (BODY_MAX - first) / row;
        let left = BODY_MAX - first - others * row;
        for dropped in [false, true] {
            for wide in left.saturating_sub(3)..=left + 3 {
                let length = first + others * row + wide;
                let growing = growing(kind, others, wide, dropped);
                compare_body(rng, &mut checkpoints, growing, length)?;
            }
            for others in [0, 1, others / 2, others + 1] {
                let length = first + others * row;
                let growing = growing(kind, others, 0, dropped);
                compare_body(rng, &mut checkpoints, growing, length)?;
            }
        }
    }
    Ok(checkpoints.cases)
}

/// The body becomes so long, and is refused if that is too long.
fn compare_body(
    rng: &mut Rng,
    checkpoints: &mut Checkpoints,
    growing: Vec<u8>,
    length: usize,
) -> Result<(), String> {
    let small = samples(&[(NEAR, 5, 1), (FAR, 6, 2)]);
    checkpoints.ids = vec![FAR, NEAR];
    for (before, after) in [(0, 0), (1, 0), (3, 2)] {
        // With a record that is not kept, the source is ahead of the target.
        let mut bodies = vec![small.clone(); before];
        bodies.extend(vec![samples(&[(9, 5, 1)]); before]);
        bodies.push(growing.clone());
        bodies.extend(vec![small.clone(); after]);
        // A row before this time is dropped.
        checkpoints.time = 0;
        let got = checkpoints.keep_log(rng, &Log::of(&bodies).bytes, PAGES)?;
        let wanted = if length > BODY_MAX { TOO_LONG } else { 0 };
        if got.number != wanted {
            return Err(format!(
                "a body of type {} and {length} bytes: {got:?}",
                growing[0]
            ));
        }
        if got.number == 0 {
            checkpoints.keep_again(got.out[0] as usize, PAGES)?;
        }
    }
    Ok(())
}

/// A row far from the header, then so many others near it, of which the last `wide` have a time of
/// two bytes. The row that the header is of was never there, or is dropped for its time.
fn growing(kind: u8, others: usize, wide: usize, dropped: bool) -> Vec<u8> {
    let mut body = vec![kind];
    body.extend(NEAR.to_be_bytes());
    body.extend((-1i64).to_be_bytes());
    let row = |id_delta: i64, time_delta: i64, body: &mut Vec<u8>| {
        varint::write_varint(id_delta, body);
        varint::write_varint(time_delta, body);
        body.extend(tail(kind));
    };
    if dropped {
        row(0, 0, &mut body);
    }
    row(FAR.wrapping_sub(NEAR) as i64, 1, &mut body);
    for other in 0..others {
        // From the time of the far row on, 63 is the last that takes one byte.
        let time_delta = if other + wide < others { 1 } else { 65 };
        row(0, time_delta, &mut body);
    }
    body
}

/// What follows the deltas: the value, no strings; a histogram without spans and buckets.
fn tail(kind: u8) -> Vec<u8> {
    match kind {
        SAMPLES => vec![1; 8],
        EXEMPLARS => [&[1; 8][..], &[0]].concat(),
        HISTOGRAMS => [&[0, 2][..], &[3; 8], &[4, 5], &[6; 8], &[0; 4]].concat(),
        _ => [&[0, 2][..], &[3; 8], &[4; 8], &[5; 8], &[6; 8], &[0; 4]].concat(),
    }
}
