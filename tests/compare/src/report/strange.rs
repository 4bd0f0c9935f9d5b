//! Reports that no call handed out. Some break the limits of every report and are refused; the others
//! are gone on with.

use super::readings::{any_reading, night_log};
use super::Nights;
use crate::ffi::report::{Numbers, HEAD_LEN, REPORT_LEN, ROW_LEN};
use crate::generate::any_buffer;
use crate::logs::{samples, Log, World};
use crate::rng::Rng;
use crate::Outcome;
use reference::refusal::BAD_PLACE;

/// Series, segments or an end that no report has: 2 at 0 before everything else, and nothing changes.
pub fn compare_bad(rng: &mut Rng) -> Outcome {
    let mut nights = Nights::new(rng);
    let ids = World::new(rng, 4).ids;
    for _ in 0..20_000 {
        let mut numbers = some_numbers(rng);
        let far = [u64::MAX, 1 << 63, 1 << 32, (1 << 32) + 1, (1 << 32) + 28];
        let bad = match rng.below(3) {
            0 => rng.pick(&far),
            1 => rng.number(),
            _ => rng.below(40) as u64,
        };
        // Just beyond, or far beyond.
        match rng.below(3) {
            0 => numbers[0] = rng.pick(&[257, 257, 258, bad.max(257)]),
            1 => numbers[1] = rng.pick(&[1_025, 1_025, 1_026, bad.max(1_025)]),
            _ if ![0, 1, 28].contains(&bad) => numbers[2] = bad,
            _ => numbers[2] = 2,
        }
        nights.start_with(&numbers);
        let log = night_log(rng, &ids, 2, 3);
        let version = nights.put(rng, &log.bytes);
        let version = rng.pick(&[version, version, 0, 7]);
        let room = any_buffer(rng);
        let got = nights.add_by(version, log.bytes.len(), room)?;
        if got.number != BAD_PLACE {
            return Err(format!("a head of {:?}: {got:?}", &numbers[..HEAD_LEN]));
        }
    }
    Ok(nights.cases)
}

/// A report within the limits, with any rows. It has not ended, or with any place.
fn some_numbers(rng: &mut Rng) -> Box<Numbers> {
    let mut numbers = Box::new([0; REPORT_LEN]);
    numbers.fill_with(|| rng.number());
    let place = rng.number() >> rng.below(64);
    let end = match rng.below(4) {
        0 => [1, place],
        1 => [28, place],
        _ => [0, 0],
    };
    let series = rng.pick(&[0, 1, 200, 255, 256]);
    let segments = rng.pick(&[0, 1, 500, 1_022, 1_023, 1_024]);
    numbers[..HEAD_LEN].copy_from_slice(&[series, segments, end[0], end[1]]);
    numbers
}

/// Reports of few ids with counts and extremes that no night has, the same id twice among them.
pub fn compare_strange(rng: &mut Rng) -> Outcome {
    let mut nights = Nights::new(rng);
    for case in 0..12_000 {
        let ids = World::new(rng, 6).ids;
        let mut numbers = some_numbers(rng);
        for row in numbers[HEAD_LEN..].chunks_exact_mut(ROW_LEN) {
            row.copy_from_slice(&strange_row(rng, &ids));
        }
        let wraps = case % 3 == 0;
        if wraps {
            // Counts that wrap with the next row; one row is all that is added then.
            numbers[HEAD_LEN + 1] = u64::MAX;
            numbers[HEAD_LEN + 2] = rng.pick(&[3, u64::MAX - 1, u64::MAX]);
            let row = (numbers[HEAD_LEN], 1, any_reading(rng));
            nights.start_with(&numbers);
            nights.add_log(rng, &Log::of(&[samples(&[row])]).bytes)?;
            continue;
        }
        nights.start_with(&numbers);
        for _ in 0..3 {
            let log = night_log(rng, &ids, 4, 4);
            nights.add_log(rng, &log.bytes)?;
        }
    }
    Ok(nights.cases)
}

/// No more NaN rows than rows.
fn strange_row(rng: &mut Rng, ids: &[u64]) -> [u64; ROW_LEN] {
    let rows = rng.number() >> (1 + rng.below(63));
    let nans = match rng.below(3) {
        0 => rows,
        _ => rng.number() % (rows + 1),
    };
    let extremes = (any_reading(rng), any_reading(rng));
    [rng.pick(ids), rows, nans, extremes.0, extremes.1]
}
