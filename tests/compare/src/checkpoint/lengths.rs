//! Lengths of all that is lent, and numbers that are no version.

use super::{Checkpoints, Lengths, PAGES, WORK};
use crate::ffi::Answer;
use crate::logs::{any_log, samples, Log};
use crate::rng::Rng;
use crate::Outcome;
use reference::refusal::{BAD_BUFFER, BAD_NAME};
use reference::segment::{PAGE, RECORD_MAX};

/// Lengths of a work buffer.
const WORKS: [usize; 8] = [
    0,
    1,
    PAGE,
    RECORD_MAX - 1,
    RECORD_MAX,
    RECORD_MAX + 1,
    WORK - 1,
    WORK,
];

/// Every two lengths of the work buffers, with sources and targets that are good, bad and too short,
/// in both versions and in none.
pub fn compare_work(rng: &mut Rng) -> Outcome {
    let mut checkpoints = Checkpoints::new(rng);
    let good = Log::of(&[samples(&[(7, 1, 1)]), samples(&[(8, 1, 1), (7, 2, 1)])]).bytes;
    let torn = &good[..good.len() - 1];
    let bad = Log::of(&[samples(&[(7, 1, 1)]), vec![2, 0]]).bytes;
    checkpoints.ids = vec![7];
    checkpoints.time = 0;
    for source in [&good[..], torn, &bad, &[]] {
        for work in WORKS {
            for body in WORKS {
                for target in [PAGE, 2 * PAGE, 0, PAGE - 1, PAGE + 1] {
                    checkpoints.put(rng, source);
                    let version = checkpoints.version;
                    for version in [version, 0, version + 256] {
                        checkpoints.version = version;
                        let lengths = Lengths {
                            source: source.len(),
                            target,
                            work,
                            body,
                        };
                        compare_one(&mut checkpoints, lengths)?;
                    }
                }
            }
        }
    }
    Ok(checkpoints.cases)
}

/// The buffers are zero or as they were, by their lengths alone.
fn compare_one(checkpoints: &mut Checkpoints, lengths: Lengths) -> Result<(), String> {
    let got = checkpoints.run(lengths)?;
    let long = lengths.work >= RECORD_MAX && lengths.body >= RECORD_MAX;
    let whole = lengths.target > 0 && lengths.target.is_multiple_of(PAGE);
    let wanted = match checkpoints.version {
        1 | 2 if !long || !whole => Some(BAD_BUFFER),
        1 | 2 => None,
        _ => Some(BAD_NAME),
    };
    if wanted.is_some_and(|number| got != Answer::new(number, [0, 0])) {
        return Err(format!("{lengths:?}: {got:?}, and not {wanted:?}"));
    }
    for (name, twin, length) in [
        ("work", &checkpoints.work, lengths.work),
        ("body", &checkpoints.body, lengths.body),
    ] {
        let found = twin.bytes(0..length);
        let zero = found.iter().all(|&byte| byte == 0);
        let same = *found == checkpoints.noise[..length];
        if !(if long { zero } else { same }) {
            return Err(format!("{lengths:?}: {name} is neither zero nor as it was"));
        }
    }
    Ok(())
}

/// Any lengths of all of them, and lists of no ids.
pub fn compare_lengths(rng: &mut Rng) -> Outcome {
    let mut checkpoints = Checkpoints::new(rng);
    for _ in 0..4_000 {
        let log = any_log(rng, 4, 5, 4);
        checkpoints.put(rng, &log.bytes);
        checkpoints.ids = (0..rng.below(20) as u64).collect();
        checkpoints.time = rng.number() as i64;
        let work = |rng: &mut Rng| match rng.below(3) {
            0 => rng.below(RECORD_MAX),
            _ => RECORD_MAX + rng.below(65),
        };
        checkpoints.run(Lengths {
            source: rng.pick(&[0, log.bytes.len()]),
            target: match rng.below(3) {
                0 => rng.below(PAGES * PAGE),
                _ => rng.below(PAGES + 1) * PAGE,
            },
            work: work(rng),
            body: work(rng),
        })?;
    }
    Ok(checkpoints.cases)
}
