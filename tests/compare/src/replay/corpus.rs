//! Logs with records of every type, and real ones.

use super::Replays;
use crate::logs::{any_log, Log};
use crate::rng::Rng;
use crate::twin::Twin;
use crate::Outcome;
use reference::body;
use reference::segment::{self, Good, Reading, RECORD_MAX};
use reference::version::Version;

/// Few ids, which every record meets again: whole, and cut anywhere.
pub fn compare_few(rng: &mut Rng) -> Outcome {
    let mut replays = Replays::new(rng);
    for _ in 0..16_000 {
        let count = 1 + rng.below(6);
        let records = rng.below(30);
        let log = any_log(rng, count, records, 6);
        replays.replay_log(rng, &log.bytes)?;
        replays.replay(rng.below(log.bytes.len() + 1))?;
    }
    Ok(replays.cases)
}

/// Up to 340 ids, entered by and by: many logs bring a 257th, in a record with known ones.
pub fn compare_many(rng: &mut Rng) -> Outcome {
    let mut replays = Replays::new(rng);
    for _ in 0..700 {
        let count = rng.pick(&[20, 240, 280]) + rng.below(60);
        let records = rng.below(200);
        let log = any_log(rng, count, records, 40);
        replays.replay_log(rng, &log.bytes)?;
        replays.replay(rng.below(log.bytes.len() + 1))?;
    }
    Ok(replays.cases)
}

/// A real segment, whole and cut anywhere; and what is left of it without the types that stop a
/// replay.
pub fn compare_file(rng: &mut Rng, bytes: &[u8]) -> Outcome {
    let mut cases = 0;
    for log in [bytes, &known_records(bytes).bytes] {
        let segment = Twin::new(rng, log.len());
        let mut replays = Replays::with_segment(rng, segment);
        replays.replay_log(rng, log)?;
        for _ in 0..40 {
            replays.replay(rng.below(log.len() + 1))?;
        }
        cases += replays.cases;
    }
    Ok(cases)
}

/// The records with good bodies.
fn known_records(bytes: &[u8]) -> Log {
    let mut log = Log::default();
    let mut buffer = vec![0; RECORD_MAX];
    let good = &mut Good::default();
    while let Ok(Reading::Record(record)) =
        segment::read(Version::One, bytes, good.offset, &mut buffer, good)
    {
        let body = &buffer[..record.length];
        if body::check(body).is_ok() {
            log.add(body);
        }
    }
    log
}
